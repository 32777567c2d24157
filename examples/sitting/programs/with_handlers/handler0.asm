; The keyboard, device 0, priority 5: what is typed is shown on the screen, device 2.
KEYS    EQU $0000           ; the keyboard's status byte, its data byte above it
SHOWN   EQU $0005           ; the screen's data byte
        ORG $2000
TYPED   ST R0,-SP
        ST R1,-SP
        MOVLZ KEYS,R1
        LD R1,R0            ; both bytes: a load of the status takes the key
        SWPB R0
        MOVLZ SHOWN,R1
        ST.B R0,R1
        LD SP+,R1
        LD SP+,R0
        MOV LR,PC

        ORG $FFC0
        WORD $00A0
        WORD TYPED
        END
