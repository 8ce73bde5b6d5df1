; Adds the words of a list, writes the text "rill" to the console at the top of the addresses, and ends with the sum.
start:  li sp,0x4000
        li r1,list
        li r2,4
        call total
        li r5,-16           ; the console
        li r6,text
more:   lbu r7,[r6+0]
        cmp r7,zero
        beq done
        sb r7,[r5+0]
        inc r6
        br more
done:   halt r3

; r3 is the sum of r2 words from r1 on.
total:  push lr
        li r3,0
next:   lw r4,[r1]+
        add r3,r3,r4
        addi r2,r2,-1
        cmp r2,zero
        bne next
        pop lr
        ret

list:   .word 1, 2, 3, end-start
text:   .ascii "rill"
        .byte 10, 0
        .align 4
end:
