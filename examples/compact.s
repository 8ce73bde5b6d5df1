; Adds 4, 3, 2 and 1, puts the sum into memory and reads it again.
        c.li r1,5
loop:   c.addi r1,-1
        c.bz out
        c.add r2,r1
        c.jmp loop
out:    c.li r3,0x40
        c.sw r2,[r3]
        c.lw r4,[r3]
        c.halt r4
