; Puts 200 into the word `store`, and ends with 7.
        ldi r1,200
        ldi r2,store
        st r1,(r2)
        brd end             ; the next line is still carried out
        ldi r3,7
        ldi r3,9            ; this one is passed over
end:    halt r3

        .align 4
store:  .word 0
text:   .ascii "done"
        .byte 10, 0, store-text
