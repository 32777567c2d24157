; Device 4, priority 2: its events are counted at $0138.
COUNT   EQU $0138
        ORG $2080
HERE    ST R0,-SP
        ST R1,-SP
        MOVLZ COUNT,R0
        MOVH COUNT,R0
        LD R0,R1
        ADD #1,R1
        ST R1,R0
        LD SP+,R1
        LD SP+,R0
        MOV LR,PC

        ORG $FFD0
        WORD $0040
        WORD HERE
        END
