; Copies ten words, calls a subroutine and stops. Its S-records are copy_words.s19.
        ORG $0100
AR1     BSS #32
AR2     BSS #20
        ORG $1000
START   MOVL AR1,R2
        MOVH AR1,R2
        MOVLZ AR2,R3
        MOVH AR2,R3
        MOVLZ #10,R0
LOOP    LD R2+,R1
        ST R1,R3+
        SUB #1,R0
        BNE LOOP
        BL SUBR
        CMP.B R1,R0
        CEX EQ,#1,#1
        SETCC C
        CLRCC C
        SVC #4
DONE    BRA DONE
SUBR    ST LR,-SP
        SWPB R1
        SXT R1
        RRC.B R1
        SWAP R1,R4
        STR.B R4,R3,#-1
        LDR R3,#-2,R4
        SETPRI #3
        SETCC S
        MOVLS #-1,R4
        MOV R4,R0
        LD SP+,PC
        WORD $4E00              ; illegal
        WORD $4CD3              ; SWAP R2,R3 with bit 6 set: the assembler writes it 0
        WORD $4D59              ; SWPB R1, the same
        WORD $4D61              ; SXT R1, the same
        END
