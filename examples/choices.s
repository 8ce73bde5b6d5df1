; A register, and the word at the address in one.
        get r1,r2
        get r1,(r2)
        halt r1
