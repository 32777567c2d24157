; Stops one number early: its sum is too small.
        ORG $1000
START   MOVLZ $00,R1
        MOVH $01,R1         ; R1 is $0100
        MOVLZ #7,R2
        MOVLZ #0,R0
NEXT    LD R1+,R3
        ADD R3,R0
        SUB #1,R2
        BNE NEXT
        MOVLZ $20,R1
        MOVH $01,R1
        ST R0,R1
HERE    BRA HERE
        END
