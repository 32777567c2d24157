; The clock, device 1, priority 3: its ticks are counted at $0132.
COUNT   EQU $0132
        ORG $2020
HERE    ST R0,-SP
        ST R1,-SP
        MOVLZ COUNT,R0
        MOVH COUNT,R0
        LD R0,R1
        ADD #1,R1
        ST R1,R0
        LD SP+,R1
        LD SP+,R0
        MOV LR,PC

        ORG $FFC4
        WORD $0060
        WORD HERE
        END
