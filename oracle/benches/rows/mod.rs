//! Loops of one kind of instruction each, whose steps are counted: a name and a source. R1 to R3 point at data.

pub const ROWS: [(&str, &str); 13] = [
    ("bytes", "LOOP ADD.B R0,R1\n LD.B R2,R0\n ST.B R1,R2\n XOR.B R0,R4\n BRA LOOP"),
    ("calls", "LOOP BL PROC\n BL PROC\n BRA LOOP\nPROC ADD #1,R0\n MOV LR,PC"),
    ("branches", "LOOP ADD #1,R0\n CMP R0,R1\n BEQ NEXT\n BC NEXT\n BN NEXT\nNEXT BLT LOOP\n BRA LOOP"),
    ("polling", " MOVLZ $0A,R2\nLOOP LD.B R2,R0\n BIT #4,R0\n BEQ LOOP"),
    (
        "ADDC to RRC",
        "LOOP ADDC R0,R1\n SUBC R1,R4\n DADD R0,R1\n CMP R1,R4\n XOR R0,R4\n AND R1,R4\n OR R0,R4\n BIT R1,R4
         BIC #1,R4\n BIS #2,R4\n SRA R4\n RRC R1\n BRA LOOP",
    ),
    (
        "self-modifying",
        " MOVL $0E,R3\n MOVH $10,R3\n LD R3,R0\nLOOP ST R0,R3\n ADD #1,R1\n XOR R1,R4\n BRA LOOP
         ADD #2,R1\n BRA LOOP",
    ),
    ("LD, ST with increment", "LOOP LD R2+,R0\n ST R0,-R2\n LD +R2,R0\n ST R0,R2-\n BRA LOOP"),
    ("LDR, STR", "LOOP LDR R2,#4,R0\n ADD R0,R1\n STR R1,R2,#6\n BRA LOOP"),
    ("DADD, ADDC, BIC, BIS, RRC", "LOOP DADD R0,R1\n ADDC R1,R4\n BIC #1,R4\n BIS #2,R4\n RRC R1\n BRA LOOP"),
    ("SVC", "LOOP SVC #0\n BRA LOOP\n ORG $3000\nTRAP MOV LR,PC\n ORG $FFC0\n WORD $0020\n WORD TRAP"),
    ("SETCC, CLRCC, SETPRI", "LOOP SETCC CZ\n CLRCC N\n SETPRI #0\n BRA LOOP"),
    ("CEX", "LOOP CEX EQ,#1,#1\n ADD #1,R0\n SUB #1,R0\n BRA LOOP"),
    ("skipped words", "LOOP CEX EQ,#5,#0\n ADD #1,R0\n ADD #1,R0\n ADD #1,R0\n ADD #1,R0\n ADD #1,R0\n BRA LOOP"),
];
