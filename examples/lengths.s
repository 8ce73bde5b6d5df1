; A number of 8 bits takes two bytes, one of 16 bits four; a label always takes two.
        ldi r1,200
        ldi r2,256
        ldi r3,end
end:    halt r1
