; Adds the eight numbers at $0100 and puts their sum at $0120. The handlers are in the files beside it.
NUMBERS EQU $0100
SUM     EQU $0120
        ORG $1000
START   MOVLZ NUMBERS,R4
        MOVH NUMBERS,R4
        MOVLZ #16,R3        ; bytes that are left
        MOVLZ #0,R0
MORE    LD R4+,R1
        ADD R1,R0
        SUB #2,R3
        BNE MORE
        MOVLZ SUM,R4
        MOVH SUM,R4
        ST R0,R4
WAIT    BRA WAIT
        END
