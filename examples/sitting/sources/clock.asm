; The clock's handler, which the setter brings: it counts ticks.
        ORG $2000
TICK    ST R0,-SP
        ST R1,-SP
        MOVLZ TICKS,R0
        MOVH TICKS,R0
        LD R0,R1
        ADD #1,R1
        ST R1,R0
        LD SP+,R1
        LD SP+,R0
        MOV LR,PC
TICKS   EQU $0130
        END
