; Two registers change places, each written from what stood there before.
        mv r1,r2 || mv r2,r1
        add r3,r1
        halt r3
