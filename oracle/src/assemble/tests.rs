//! Each sentence of 02 §12, with sources that it decides.

use super::*;

/// The refusal and the line at fault, (0, 0) where there is none.
fn verdict(source: &str) -> (u8, u64) {
    judge(source.as_bytes()).map_or_else(|f| (f.number, f.line), |_| (0, 0))
}

/// The verdict of one line, with END after it.
fn line(text: &str) -> u8 {
    match verdict(&format!("{text}\nEND\n")) {
        (0, 0) => 0,
        (number, 1) => number,
        other => panic!("{text:?}: {other:?}"),
    }
}

fn image(source: &str) -> Vec<(u16, u8)> {
    assemble(source).bytes
}

/// The word of one instruction at #1000, with names A = #1234 and B = -2.
fn coded(text: &str) -> u16 {
    let made = assemble(&format!("A EQU $1234\nB EQU #-2\nORG $1000\n{text}\nEND"));
    u16::from_le_bytes([made.bytes[0].1, made.bytes[1].1])
}

/// "A line, ended as in §2, holds at most a name, a statement and a `;` comment, in this order".
#[test]
fn lines_and_endings() {
    for source in ["END", "END\n", "END\r\n", "\nEND", "\r\n \t\r\nEND", ";\nEND", "A\nEND", "A;x\nEND", "A END ; x"] {
        assert_eq!(verdict(source), (0, 0), "{source:?}");
    }
    for text in
        ["A\r\r", "\rA", "A\r\rB", "A B", "ADD R0,R1 A", "ADD R0,R1 ADD R0,R1", "; x\nA A", "A:", "\0", "\x0C", "_"]
    {
        let at = if text.starts_with(';') { 2 } else { 1 };
        assert_eq!(verdict(&format!("{text}\nEND")), (17, at), "{text:?}");
    }
    assert_eq!(verdict("END\r"), (17, 1));
    // Comments hold any bytes, a lone CR too.
    assert!(judge(b"A ;\xFF\0\r;abc\r\r\nEND;\r").is_ok());
}

/// "Setters write sources in upper case".
#[test]
fn upper_case() {
    for text in ["add R0,R1", "ADD r0,R1", "a", "Ab", "WORD $ab", "\u{c4}"] {
        assert_eq!(line(text), 17, "{text}");
    }
}

/// "spaces and tabs free between tokens".
#[test]
fn blanks() {
    for text in [" ADD\tR0 ,\t R1 ", "ORG#5", "ORG(#5)", "LD R1 + , R2", "LD + R1,R2", "A\tEQU\t( #1 + #2 )", "WORD$0"]
    {
        assert_eq!(line(text), 0, "{text}");
    }
    for text in
        ["WORD # 5", "WORD #- 5", "WORD #-\t5", "WORD $ 5", "ADD .B R0,R1", "ADD. B R0,R1", "AD D R0,R1", "ADD.BR0,R1"]
    {
        assert_eq!(line(text), 17, "{text}");
    }
    assert_eq!(image("BRALOOP\nORG BRALOOP\nEND"), []);
    assert_eq!(line("ADD.B0 R0,R1"), 17);
    assert_eq!(line("A.B"), 17);
}

/// "Numbers carry `#`, base ten, `-` allowed, or `$`, base sixteen".
#[test]
fn numbers() {
    assert_eq!(
        image("WORD #10\nWORD $10\nWORD #-5\nWORD $AF\nWORD #-0\nEND").chunks(2).map(|b| b[0].1).collect::<Vec<_>>(),
        [10, 16, 251, 175, 0]
    );
    for text in [
        "WORD -#5",
        "WORD $-1",
        "WORD 5",
        "WORD #",
        "WORD $",
        "WORD #A",
        "WORD #5A",
        "WORD $5G",
        "WORD 'A'",
        "WORD #+5",
        "WORD #--5",
    ] {
        assert_eq!(line(text), 17, "{text}");
    }
}

/// "A name, letters and digits, letter first, no word of the language".
#[test]
fn names() {
    for name in ["C", "ZN", "VSNZC", "R8", "R00", "A1B2", "ENDS", "X"] {
        assert_eq!(line(name), 0, "{name}");
        assert_eq!(line(&format!("{name} EQU {name}")), 18, "{name}");
    }
    for word in words::all() {
        assert_eq!(line(&format!("{word} BYTE #1")), 17, "{word}");
        assert_eq!(line(&format!("BYTE {word}")), 17, "{word}");
        let alone = if word == "END" { 0 } else { 17 };
        assert_eq!(line(word), alone, "{word}");
    }
    for text in ["1A", "A_B", "_A", "A.B", "A$"] {
        assert_eq!(line(text), 17, "{text}");
    }
}

/// "Statements are ORG, EQU, BSS, BYTE, WORD (one value each), END and the instructions in 003's notation".
#[test]
fn statements() {
    for text in [
        "ORG #0",
        "N EQU #1",
        "BSS #1",
        "BYTE #1",
        "WORD #1",
        "L END",
        "BL #0",
        "BEQ #0",
        "BZ #0",
        "BNE #0",
        "BNZ #0",
        "BC #0",
        "BHS #0",
        "BNC #0",
        "BLO #0",
        "BN #0",
        "BGE #0",
        "BLT #0",
        "BRA #0",
        "ADD R0,R1",
        "ADD.B #1,R1",
        "ADD.W (#1),R1",
        "MOV R0,R1",
        "MOV.B R0,R1",
        "SWAP R0,R1",
        "SRA R0",
        "RRC.B R0",
        "COMP.W R0",
        "SWPB R0",
        "SXT R0",
        "SETPRI #1",
        "SVC #1",
        "SETCC SVC",
        "SETCC CSNVZ",
        "CLRCC V",
        "CEX EQ,#1,#1",
        "CEX LO,#1,#1",
        "LD R0,R1",
        "LD.B +R0,R1",
        "LD -R0,R1",
        "LD.W R0+,R1",
        "LD R0-,R1",
        "ST R0,R1",
        "ST.B R0,+R1",
        "ST R0,-R1",
        "ST R0,R1+",
        "ST R0,R1-",
        "MOVL #1,R0",
        "MOVLZ #1,R0",
        "MOVLS #1,R0",
        "MOVH #1,R0",
        "LDR R0,#1,R1",
        "LDR.B R0,#1,R1",
        "STR R0,R1,#1",
        "STR.B SP,PC,#1",
    ] {
        assert_eq!(line(text), 0, "{text}");
    }
    for text in [
        "ORG",
        "ORG #1,#2",
        "EQU #1",
        "BYTE",
        "BYTE #1,#2",
        "WORD #1 #2",
        "END #1",
        "END A",
        "SP EQU R6",
        "A EQU R6",
        "BRA R0",
        "BRA",
        "ADD R0",
        "ADD R0,#1",
        "ADD R0,R1,R2",
        "ADD R0 R1",
        "MOV #1,R0",
        "MOV (#1),R0",
        "SWAP.B R0,R1",
        "SWAP #1,R0",
        "SWPB.B R0",
        "SXT.W R0",
        "SRA #1",
        "SETPRI",
        "SETPRI.B #1",
        "SETCC",
        "SETCC CC",
        "SETCC X",
        "SETCC V C",
        "SETCC V,C",
        "SETCC #1",
        "CEX #1,#1",
        "CEX EQ,#1",
        "CEX XX,#1,#1",
        "CEX EQ #1,#1",
        "LD +R0+,R1",
        "LD ++R0,R1",
        "LD R0",
        "LD #1,R0",
        "LD (R0),R1",
        "ST R0",
        "ST #1,R0",
        "ST -R0,R1",
        "LD R0,+R1",
        "MOVL R0,R1",
        "MOVL.B #1,R0",
        "LDR R0,R1,#1",
        "LDR R0,R1",
        "STR R0,#1,R1",
        "STR R0,R1",
        "RET",
        "NOP",
        "CALL A",
        "INC R0",
        "BEQ.B #0",
        "BYTE.B #1",
        "R0 ADD R0,R1",
        "LD 'A',R0",
    ] {
        assert_eq!(line(text), 17, "{text}");
    }
}

/// "A bracketed expression may stand wherever a number may, and a name too: `*` and `/` before `+` and `-`, equals from
/// the left, division towards zero, brackets round, at most 16 deep".
#[test]
fn expressions() {
    for (text, value) in [
        ("(#1+#2*#3)", 7),
        ("(#10-#3-#2)", 5),
        ("(#100/#5/#2)", 10),
        ("(#7/#2*#2)", 6),
        ("(#-7/#2)", -3),
        ("(#7/#-2)", -3),
        ("((#1+#2)*#3)", 9),
        ("(#1-(#2-#3))", 2),
        ("(A)", 0x1234),
        ("(A/$100)", 0x12),
        ("(#2*#-3)", -6),
        ("(#5-#-5)", 10),
        ("(#5--#5)", 17_000),
    ] {
        let source = format!("A EQU $1234\nB EQU {text}\nEND");
        let found = judge(source.as_bytes());
        if value == 17_000 {
            assert_eq!(found, Err(Fault { number: 17, line: 2 }), "{text}");
        } else {
            assert_eq!(found.expect(text).names["B"], value, "{text}");
        }
    }
    for text in [
        "WORD #1+#2",
        "WORD (#1",
        "WORD #1)",
        "WORD ()",
        "WORD (#1+)",
        "WORD (+#1)",
        "WORD (-A)",
        "WORD (#1 #2)",
        "WORD -A",
        "WORD (R0)",
        "A (#1)",
    ] {
        assert_eq!(line(text), 17, "{text}");
    }
    let nested = |n| format!("WORD {}#1{}", "(".repeat(n), ")".repeat(n));
    assert_eq!((line(&nested(16)), line(&nested(17))), (0, 17));
    // Brackets beside one another are not deeper.
    assert_eq!(line(&format!("WORD ({}#1)", "(#1)+".repeat(100))), 0);
}

/// "is the place before its statement, at first 0, or the value of EQU"; of ORG, BSS and END too.
#[test]
fn places() {
    let made = assemble("A\nB ORG $10\nC BSS #3\nD BYTE #0\nE WORD #0\nF EQU #99\nG ADD R0,R0\nH END");
    let expected = [("A", 0), ("B", 0), ("C", 16), ("D", 19), ("E", 20), ("F", 99), ("G", 22), ("H", 24)];
    assert_eq!(made.names, expected.into_iter().map(|(n, v)| (n.to_string(), v)).collect());
}

/// "only ORG, EQU and BSS need it given above"; "18 when a name is unknown, already given or the 1,025th".
#[test]
fn names_given() {
    for text in ["A EQU (A+#1)", "L ORG (L+#2)", "L BSS L", "ORG X", "BSS X", "A EQU X"] {
        assert_eq!(verdict(&format!("{text}\nX EQU #2\nEND")), (18, 1), "{text}");
    }
    assert_eq!(verdict("WORD X\nX EQU #2\nEND"), (0, 0));
    assert_eq!(verdict("L WORD L\nM BRA M\nEND"), (0, 0));
    assert_eq!(verdict("WORD X\nEND\nX EQU #2"), (18, 1));
    assert_eq!(verdict("A\nB\nA\nEND"), (18, 3));
    assert_eq!(verdict("A\nB\nA END"), (18, 3));
    assert_eq!(verdict("WORD X\nA\nA\nEND"), (18, 1));
    let many = |n: usize| (0..n).map(|i| format!("N{i}\n")).collect::<String>();
    assert_eq!(verdict(&(many(1_024) + "END")), (0, 0));
    assert_eq!(verdict(&(many(1_025) + "END")), (18, 1_025));
    assert_eq!(verdict(&(many(1_024) + "A END")), (18, 1_025));
    assert_eq!(verdict(&(many(1_024) + "N7\nEND")), (18, 1_025));
    // The 1,025th is none, and unknown where it is used.
    assert_eq!(verdict(&("WORD N1024\n".to_string() + &many(1_025) + "END")), (18, 1));
    assert_eq!(verdict(&("WORD N1023\n".to_string() + &many(1_025) + "END")), (18, 1_026));
}

/// "19 when a value leaves 32 signed bits, divides by zero".
#[test]
fn values_out_of_32_bits() {
    for (text, number) in [
        ("#2147483647", 0),
        ("#-2147483648", 0),
        ("#2147483648", 19),
        ("#-2147483649", 19),
        ("$7FFFFFFF", 0),
        ("$80000000", 19),
        ("$FFFFFFFF", 19),
        ("(#-2147483648/#-1)", 19),
        ("(#2147483647+#1)", 19),
        ("(#2147483647+#1-#1)", 19),
        ("(#65536*#65536)", 19),
        ("(#65536*#32768)", 19),
        ("(#65536*#-32768)", 0),
        ("(#-2147483648-#1)", 19),
        ("(#1/#0)", 19),
        ("(#0/#0)", 19),
        ("(#1/(#5-#5))", 19),
        ("(#2147483648-#1)", 19),
        ("#00000000000000000000000000000000000001", 0),
        ("#99999999999999999999999999999999999999999", 19),
        ("$00000000000000000007FFFFFFF", 0),
    ] {
        assert_eq!(line(&format!("A EQU {text}")), number, "{text}");
    }
    assert_eq!(line(&format!("A EQU #{}", "9".repeat(100_000))), 19);
}

/// "does not fit its place (a byte −128 to 255, a word −32,768 to 65,535, ORG and BSS from 0)".
#[test]
fn values_that_do_not_fit() {
    for (form, least, greatest) in [
        ("BYTE #V", -128, 255),
        ("WORD #V", -32_768, 65_535),
        ("ORG #V", 0, i32::MAX),
        ("BSS #V", 0, 65_536),
        ("SETPRI #V", 0, 7),
        ("SVC #V", 0, 15),
        ("CEX EQ,#V,#0", 0, 7),
        ("CEX EQ,#0,#V", 0, 7),
        ("LDR R0,#V,R1", -64, 63),
        ("STR R0,R1,#V", -64, 63),
        ("MOVL #V,R0", -128, 255),
        ("MOVLZ #V,R0", -128, 255),
        ("MOVLS #V,R0", -128, 255),
        ("MOVH #V,R0", -128, 255),
        ("MOVL (#V),R0", -128, 255),
        ("MOVLZ (#2-#V-#2),R0", -255, 128),
        ("MOVLS ((#V)),R0", -128, 255),
        ("MOVH (#V),R0", -128, 255),
        ("A MOVL (#V+A*#0),R0", -32_768, 65_535),
        ("A MOVH (A-A+(#V)),R0", -32_768, 65_535),
    ] {
        for (value, number) in
            [(i64::from(least) - 1, 19), (least.into(), 0), (greatest.into(), 0), (i64::from(greatest) + 1, 19)]
        {
            assert_eq!(line(&form.replace("#V", &format!("#{value}"))), number, "{form} of {value}");
        }
    }
    for value in (-40..=70).chain([256, 65_535, 65_536]) {
        let fits = CONSTANTS.contains(&value);
        assert_eq!(line(&format!("ADD #{value},R0")) == 0, fits, "{value}");
    }
}

/// 003: of a label MOVL, MOVLZ and MOVLS take the lower eight bits, MOVH the higher. "A bracketed expression may stand
/// wherever a number may": of one without a name the byte is the number's.
#[test]
fn bytes_of_names() {
    let byte = |text: &str| coded(text) >> 3 & 0xFF;
    assert_eq!(
        [byte("MOVL A,R0"), byte("MOVLZ A,R0"), byte("MOVLS A,R0"), byte("MOVH A,R0")],
        [0x34, 0x34, 0x34, 0x12]
    );
    assert_eq!([byte("MOVH (A),R0"), byte("MOVH B,R0"), byte("MOVL B,R0")], [0x12, 0xFF, 0xFE]);
    assert_eq!([byte("MOVH #32,R0"), byte("MOVH (#32),R0"), byte("MOVL #-1,R0")], [32, 32, 255]);
    assert_eq!([byte("MOVH (#2*(#20-#4)),R0"), byte("MOVH (#32+A-A),R0"), byte("MOVL (#-1),R0")], [32, 0, 255]);
    assert_eq!(
        [line("MOVL #300,R0"), line("MOVL (#300),R0"), line("MOVL #65535,R0"), line("MOVL (#65535),R0")],
        [19; 4]
    );
}

/// "branches naming their target (offsets wrap)".
#[test]
fn branches() {
    assert_eq!(
        [coded("BRA $1000"), coded("BRA $1002"), coded("BL $1004"), coded("BEQ $0FFE")],
        [0x3FFF, 0x3C00, 1, 0x23FE]
    );
    for (text, number) in [
        ("BRA (P+#1024)", 0),
        ("BRA (P+#1026)", 19),
        ("BRA (P-#1022)", 0),
        ("BRA (P-#1024)", 19),
        ("BL (P+#8192)", 0),
        ("BL (P+#8194)", 19),
        ("BL (P-#8190)", 0),
        ("BL (P-#8192)", 19),
        ("BRA (P+#1)", 19),
        ("BRA (P+#3)", 19),
        ("BRA P", 0),
        ("BRA #65536", 19),
        ("BRA #-32769", 19),
        ("BRA #-32768", 0),
    ] {
        let at = if text.ends_with("32768") { "$8000" } else { "$4000" };
        let source = format!("ORG {at}\nP {text}\nEND");
        assert_eq!(verdict(&source), (number, if number == 0 { 0 } else { 2 }), "{text}");
    }
    // Over the end of memory and back.
    assert_eq!(
        image("ORG $FFFE\nBRA #0\nORG #0\nBRA $FFFE\nBRA #-2\nEND").chunks(2).map(|b| b[0].1).collect::<Vec<_>>(),
        [0, 0xFE, 0xFD]
    );
}

/// "code or a WORD falls on an odd address, or any byte passes #FFFF".
#[test]
fn addresses() {
    for (source, expected) in [
        ("ORG #1\nBYTE #1\nWORD #1\nEND", (0, 0)),
        ("ORG #1\nWORD #1\nEND", (19, 2)),
        ("BYTE #1\nADD R0,R1\nEND", (19, 2)),
        ("BYTE #1\nA\nEND", (0, 0)),
        ("ORG $FFFF\nBYTE #1\nA\nEND", (0, 0)),
        ("ORG $FFFF\nBYTE #1\nBYTE #1\nEND", (19, 3)),
        ("ORG $FFFE\nWORD #1\nWORD #1\nEND", (19, 3)),
        ("ORG #70000\nA\nB EQU A\nBSS #0\nEND", (0, 0)),
        ("ORG #70000\nBSS #1\nEND", (19, 2)),
        ("BSS #65536\nEND", (0, 0)),
        ("BSS #65536\nBYTE #1\nEND", (19, 2)),
        ("ORG $FFF0\nBSS #17\nEND", (19, 2)),
        ("ORG $FFFF\nWORD #0\nEND", (19, 2)),
        ("ORG #70000\nA\nORG #0\nWORD A\nEND", (19, 4)),
        ("ORG #2147483647\nBSS #2147483647\nEND", (19, 2)),
        ("ORG #2147483647\nBYTE #0\nA\nEND", (19, 3)),
        ("ORG #2147483647\nBYTE #0\nA EQU #0\nEND", (19, 2)),
    ] {
        assert_eq!(verdict(source), expected, "{source:?}");
    }
}

/// "17 is tried over the whole source, then 18, then 19"; of two 19s that of an ORG, EQU or BSS goes first.
#[test]
fn order() {
    for (source, expected) in [
        ("", (17, 1)),
        ("\n", (17, 2)),
        ("A", (17, 2)),
        ("A\n\n", (17, 3)),
        ("BYTE #300\nWORD X\n", (17, 3)),
        ("BYTE #300\nWORD X\n?\nEND", (17, 3)),
        ("BYTE #300\nWORD X\nEND\n?", (18, 2)),
        ("BYTE #300\nEND\nWORD X\n?", (19, 1)),
        ("?\n", (17, 1)),
        ("BYTE #300\nORG #-1\nEND", (19, 2)),
        ("BYTE #300\nA EQU (#1/#0)\nEND", (19, 2)),
        ("BYTE #300\nBSS #65536\nEND", (19, 2)),
        ("WORD A\nA EQU (#1/#0)\nEND", (19, 2)),
        ("BYTE #300\nWORD #1\nEND", (19, 1)),
        ("BYTE #1\nWORD #1\nBYTE #300\nEND", (19, 2)),
        ("BYTE #300\nBYTE #400\nEND", (19, 1)),
        ("END\nEND", (0, 0)),
    ] {
        assert_eq!(verdict(source), expected, "{source:?}");
    }
}

/// "The image holds the encoded instructions and data at the stated addresses; no other byte changes, BSS's included";
/// "On overlap the later statement wins".
#[test]
fn images() {
    let source = b"ORG #4\nWORD $1234\nBSS #2\nBYTE #-1\nORG #5\nBYTE $AB\nEND";
    let mut memory = vec![0xEE; MEMORY];
    assert_eq!(reply(into_memory(&mut memory, source)), 0);
    assert_eq!(memory[..10], [0xEE, 0xEE, 0xEE, 0xEE, 0x34, 0xAB, 0xEE, 0xEE, 0xFF, 0xEE]);
    assert!(memory[10..].iter().all(|&b| b == 0xEE));
    let mut memory = vec![0xEE; MEMORY];
    assert_eq!(reply(into_memory(&mut memory, b"WORD $1234\nBYTE #300\nEND")), 19 | 2 << 32);
    assert!(memory.iter().all(|&b| b == 0xEE));
    assert_eq!(reply(into_memory(&mut [0; 10], b"?")), 1);
}

/// "decoding each assembled word not overlapped gives the operation and operands written"; ignored bits are zero.
#[test]
fn words_of_instructions() {
    for (text, word) in [
        ("ADD R1,R2", 0x400A),
        ("SUB.B #1,R0", 0x42C8),
        ("ADD #-1,R0", 0x40B8),
        ("BIS.W #32,PC", 0x4BB7),
        ("MOV.B LR,PC", 0x4C6F),
        ("SWAP R2,R3", 0x4C93),
        ("SWPB SP", 0x4D1E),
        ("SXT R1", 0x4D21),
        ("SRA.B R1", 0x4D41),
        ("RRC R2", 0x4D0A),
        ("COMP BP", 0x4D14),
        ("SETPRI #3", 0x4D83),
        ("SVC #15", 0x4DAF),
        ("SETCC VSNZC", 0x4DDF),
        ("SETCC SVC", 0x4DD9),
        ("CLRCC C", 0x4DE1),
        ("CEX EQ,#1,#1", 0x5009),
        ("CEX LO,#7,#0", 0x50F8),
        ("CEX FL,#0,#7", 0x53C7),
        ("LD R2+,R1", 0x5891),
        ("LD.B -R2,R1", 0x5B51),
        ("LD R2-,R1", 0x5911),
        ("LD +R2,R1", 0x5A91),
        ("ST R1,-SP", 0x5F0E),
        ("MOVL #65,R2", 0x620A),
        ("MOVLZ #1,R0", 0x6808),
        ("MOVLS #-1,PC", 0x77FF),
        ("MOVH $20,R1", 0x7901),
        ("LDR.B R3,#-2,R4", 0xBF5C),
        ("STR R4,R3,$3F", 0xDFA3),
        ("LDR R0,#-64,R0", 0xA000),
        ("BLO $1000", 0x2FFF),
        ("BHS $1002", 0x2800),
        ("BZ $1002", 0x2000),
        ("BNZ $1002", 0x2400),
    ] {
        assert_eq!(coded(text), word, "{text}");
    }
}
