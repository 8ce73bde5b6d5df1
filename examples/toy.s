start:  addi r1,5        ; r1 = r1 + 5
        addi R2,0x20     ; letter case counts for nothing
        .half start+2
