; 0xa goes into the one place, 5 into the other.
        out r2,0xa5
        halt r2
