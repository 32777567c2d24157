; Shows SUM on the screen, device 2, then waits.
        ORG $1000
START   MOVLZ $05,R1        ; the screen's data byte
        MOVLZ $53,R0        ; S
        ST.B R0,R1
        MOVLZ $55,R0        ; U
        ST.B R0,R1
        MOVLZ $4D,R0        ; M
        ST.B R0,R1
HERE    BRA HERE
        END
