; Adds the eight numbers at $0100 and puts their sum at $0120.
        ORG $1000
START   MOVLZ $00,R1
        MOVH $01,R1         ; R1 is $0100
        MOVLZ #8,R2
        MOVLZ #0,R0
NEXT    LD R1+,R3
        ADD R3,R0
        SUB #1,R2
        BNE NEXT
        MOVLZ $20,R1
        MOVH $01,R1
        ST R0,R1
HERE    BRA HERE
        END
