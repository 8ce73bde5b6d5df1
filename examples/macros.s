; Another way to write an instruction gives that instruction.
        clr r4
        halt r4
