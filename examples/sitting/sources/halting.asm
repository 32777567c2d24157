; Runs into a word that is no instruction, whose handler is none either: the second fault halts.
        ORG $1000
START   MOVLZ $00,R1
        MOVH $01,R1
        LD R1+,R0
        WORD $4E00
        ORG $FFE0           ; the vector of illegal instructions: PSW, PC
        WORD $00E0
        WORD $3000
        ORG $3000
        WORD $4E00
        END
