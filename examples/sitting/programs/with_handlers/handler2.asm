; The screen, device 2, priority 4: how often it was ready is counted at $0134.
COUNT   EQU $0134
        ORG $2040
HERE    ST R0,-SP
        ST R1,-SP
        MOVLZ COUNT,R0
        MOVH COUNT,R0
        LD R0,R1
        ADD #1,R1
        ST R1,R0
        LD SP+,R1
        LD SP+,R0
        MOV LR,PC

        ORG $FFC8
        WORD $0080
        WORD HERE
        END
