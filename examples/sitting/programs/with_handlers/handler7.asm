; Device 7, priority 2: its events are counted at $013E.
COUNT   EQU $013E
        ORG $20E0
HERE    ST R0,-SP
        ST R1,-SP
        MOVLZ COUNT,R0
        MOVH COUNT,R0
        LD R0,R1
        ADD #1,R1
        ST R1,R0
        LD SP+,R1
        LD SP+,R0
        MOV LR,PC

        ORG $FFDC
        WORD $0040
        WORD HERE
        END
