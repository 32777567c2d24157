/*
 * xm23.h - the XM-23 examination machine as a library for C99 and C++.
 *
 * Every call takes numbers and byte buffers and gives one number. Every number, length and content is lawful: a call
 * that can refuse says so in the low byte of its reply, and a refused call leaves every buffer and every number that
 * goes in and out as it was.
 *
 * A buffer is a pointer and a length. The pointer is valid for that length and may be NULL where the length is 0. The
 * buffers of one call must not overlap: what a call with overlapping buffers does is not promised. A number that goes
 * in and out is a uint32_t behind a pointer: the pointer is never NULL, is that of one aligned uint32_t, and overlaps
 * no buffer and no other such number. Calls keep no pointer and no state between calls, so any number of machines may
 * run side by side, on any number of threads.
 *
 * "01" is the paper of house rules, "02" that of change requests, "003" the ISA paper. docs/FORMATS.md has the layout
 * of each number and record.
 */
#ifndef XM23_H
#define XM23_H

#include <stddef.h>
#include <stdint.h>

#ifdef __cplusplus
extern "C" {
#endif

/*
 * ---- version: of this header, as one number; xm23_version gives that of the library
 *
 * What is here is stable: names, parameters, layouts of numbers and records, refusals and the order in which they are
 * tested stay as they are while the major number does. The minor number rises where a call, a constant or a kind of
 * record is added, the patch number where nothing of this header changes. The shared library's name for the loader has
 * the major number alone.
 */

#define XM23_VERSION_MAJOR 1
#define XM23_VERSION_MINOR 0
#define XM23_VERSION_PATCH 0
#define XM23_VERSION (XM23_VERSION_MAJOR * 65536 + XM23_VERSION_MINOR * 256 + XM23_VERSION_PATCH)

/* ---- sizes and limits */

#define XM23_MEMORY_SIZE 65536 /* bytes of memory */
#define XM23_RECORD_SIZE 32    /* bytes of a state record */
#define XM23_EVENT_SIZE 8      /* bytes of an event record */
#define XM23_LOG_SIZE 8        /* bytes of a log record */
#define XM23_JOURNAL_SIZE 64   /* bytes of a journal record */
#define XM23_PLACE_SIZE 8      /* bytes of a place record */
#define XM23_MAX_JOURNAL 65536 /* bytes of a journal: 1,024 records */
#define XM23_TRACE_SIZE 16     /* bytes of a trace record */
#define XM23_MAX_EVENTS 4096   /* event records of one run */
#define XM23_WRITERS_SIZE 65536 /* bytes that say who wrote each byte of memory last */
#define XM23_FINDING_SIZE 16   /* bytes of a finding */
#define XM23_FINDINGS_SIZE 144 /* bytes of the nine findings of a judged run */
#define XM23_MAX_FRAMES 256    /* devices' frames that a judged run watches together */
#define XM23_MAX_STEPS 1000000 /* steps of one run */
#define XM23_VECTORS_SIZE 64   /* bytes of the sixteen vectors, at XM23_VECTORS of memory */
#define XM23_USES_SIZE 16      /* bytes of the eight stack uses */
#define XM23_MAX_USE 1024      /* bytes of one stack use */
#define XM23_LINE_SIZE 80      /* bytes of a buffer for the printed line */
#define XM23_TEXT_SIZE 24      /* bytes of a buffer for a word's text; the longest has 16 */
#define XM23_VECTORS 0xFFC0    /* where in memory the vectors begin */

/* Bytes of text that xm23_write_srec makes of a span of n bytes: 11 of n 0, at most 176,139. */
#define XM23_SREC_LENGTH(n) ((size_t)11 * (((size_t)(n) + 15) / 16) + 2 * (size_t)(n) + 11)

/* ---- a state record: 32 bytes, little-endian; where each part begins */

#define XM23_RECORD_REGISTER(i) (2 * (i)) /* two bytes each: R0 to R7; 5 is LR, 6 SP, 7 PC */
#define XM23_RECORD_PSW 16                /* two bytes */
#define XM23_RECORD_CEX 18                /* two bytes */
#define XM23_RECORD_ZERO 20               /* one byte, 0 */
#define XM23_RECORD_HALTED 21             /* one byte: 0 or 1 */
#define XM23_RECORD_COUNT 22              /* four bytes: the step count */
#define XM23_RECORD_LINES 26              /* four bytes: eight counts of waiting events, four bits each */
#define XM23_RECORD_ZEROS 30              /* two bytes, both 0 */

/* How many events of device d wait on its line, 0 to 15: from a state record's bytes. Device 0 is in the low half of
 * byte 26. */
#define XM23_RECORD_WAITING(record, d) ((unsigned)((record)[XM23_RECORD_LINES + (d) / 2] >> 4 * ((d) % 2) & 15))

/* The PSW. C, Z, N, SLP and V are XM23_FLAG_...; bits 12-9 are 0. */
#define XM23_PSW_CURRENT(psw) ((unsigned)((psw) >> 5 & 7))
#define XM23_PSW_FLT 0x0100
#define XM23_PSW_PREVIOUS(psw) ((unsigned)((psw) >> 13 & 7))

/* The CEX state. Bits 15-7 are 0. */
#define XM23_CEX_STATE_FALSE(cex) ((unsigned)((cex) & 7))     /* the false count */
#define XM23_CEX_STATE_TRUE(cex) ((unsigned)((cex) >> 3 & 7)) /* the true count */
#define XM23_CEX_STATE_HELD 0x0040                            /* the condition held */

/* ---- an event record: 8 bytes, little-endian; where each part begins */

#define XM23_EVENT_STEP 0   /* four bytes: the step count at which it is due */
#define XM23_EVENT_DEVICE 4 /* one byte: 0 to 7 */
#define XM23_EVENT_DATA 5   /* one byte */
#define XM23_EVENT_ZERO 6   /* two bytes, both 0 */

/* ---- a log record: 8 bytes, little-endian; where each part begins */

#define XM23_LOG_STEP 0   /* four bytes: the step count before the step that stored the byte */
#define XM23_LOG_DEVICE 4 /* one byte: 0 to 7 */
#define XM23_LOG_BYTE 5   /* one byte: what the device showed */
#define XM23_LOG_ZERO 6   /* two bytes, both 0 */

/* ---- a journal record: 64 bytes, little-endian; where each part begins. All are of before the step and its events. */

#define XM23_JOURNAL_RECORD 0   /* 32 bytes: the state record */
#define XM23_JOURNAL_DEVICES 32 /* 16 bytes: the device bytes, #0000 to #000F */
#define XM23_JOURNAL_ADDRESS 48 /* two bytes: where the step pushed or stored, or 0 */
#define XM23_JOURNAL_BYTES 50   /* eight bytes: those at the address and after it, addresses wrapping */
#define XM23_JOURNAL_ZERO 58    /* six bytes, all 0 */

/* ---- a finding: 16 bytes, little-endian; where each part begins. All are 0 where nothing was found. */

#define XM23_FINDING_STEP 0     /* four bytes: the step count before the step that broke the premise */
#define XM23_FINDING_OPENED 4   /* four bytes: the step count before the step that opened the handler's frame */
#define XM23_FINDING_FOUND 8    /* one byte: 1 */
#define XM23_FINDING_DETAIL 9   /* one byte: a number that says more */
#define XM23_FINDING_ADDRESS 10 /* two bytes: the byte that was read, else PC before the step */
#define XM23_FINDING_VECTOR 12  /* one byte: the vector by which the frame was entered */
#define XM23_FINDING_RUNNING 13 /* one byte: the vector of the handler that ran in it */
#define XM23_FINDING_ZERO 14    /* two bytes, both 0 */

/* In the place of a vector: the application ran; of a fault's: it halted. */
#define XM23_NO_VECTOR 16

/* The kinds of findings, in their order in memory: bit k of a reply's kinds is for kind k. */
#define XM23_FOUND_START 0   /* detail: bit 0 asleep, 1 halted, 2 a line waits */
#define XM23_FOUND_FAULT 1   /* detail: the vector, XM23_NO_VECTOR where the fault halts */
#define XM23_FOUND_RETURN 2
#define XM23_FOUND_SVC 3     /* detail: the vector */
#define XM23_FOUND_OPEN 4    /* step: that opened the oldest, or chained onto the application's; address 0 */
#define XM23_FOUND_CHANGED 5 /* detail: bits 0-4 R0 to R4, 5 SP, 6 a byte of the frame */
#define XM23_FOUND_SLEEP 6
#define XM23_FOUND_DEVICE 7  /* address: the first such byte */
#define XM23_FOUND_FOREIGN 8 /* address: the first such byte */

/* What a finding of a kind says. Every number gives a text, which is there for good and never NULL. */
static inline const char *xm23_finding_text(unsigned kind)
{
    switch (kind) {
    case XM23_FOUND_START: return "the run starts asleep, halted, or with a line waiting";
    case XM23_FOUND_FAULT: return "a fault";
    case XM23_FOUND_RETURN: return "a return with no frame open";
    case XM23_FOUND_SVC: return "SVC while a device's frame is open";
    case XM23_FOUND_OPEN: return "a frame is still open when the run ends";
    case XM23_FOUND_CHANGED: return "a handler returns with R0 to R4, SP or its frame changed";
    case XM23_FOUND_SLEEP: return "the application sets SLP";
    case XM23_FOUND_DEVICE: return "the application reads a device register";
    case XM23_FOUND_FOREIGN: return "the application reads a byte that a handler or an entry wrote last";
    default: return "no finding has this number";
    }
}

/* Who wrote a byte of memory last. */
#define XM23_WROTE_NONE 0        /* no step of the run */
#define XM23_WROTE_APPLICATION 1 /* a step of the application */
#define XM23_WROTE_OTHER 2       /* any other step: a handler's or an entry's */

/* ---- a place record: 8 bytes, little-endian; where each part begins. One for each line of a source, to END's. */

#define XM23_PLACE_NUMBER 0 /* four bytes: the place before the statement; of an EQU its value, two's complement */
#define XM23_PLACE_KIND 4   /* one byte: XM23_PLACE_NOTHING to XM23_PLACE_END */
#define XM23_PLACE_BYTES 5  /* one byte: how many bytes the statement puts into memory, 0, 1 or 2 */
#define XM23_PLACE_NAMED 6  /* one byte: 1 where the line has a name, else 0 */
#define XM23_PLACE_ZERO 7   /* one byte, 0 */

#define XM23_PLACE_NOTHING 0 /* no statement: empty, a comment, or a name alone */
#define XM23_PLACE_INSTRUCTION 1
#define XM23_PLACE_BYTE 2
#define XM23_PLACE_WORD 3
#define XM23_PLACE_ORG 4
#define XM23_PLACE_EQU 5
#define XM23_PLACE_BSS 6
#define XM23_PLACE_END 7

/* ---- refusals: the papers' numbers to 19, then our own; xm23_refusal_text has the sentence of each */

#define XM23_ACCEPTED 0
#define XM23_REFUSED_MEMORY 1
#define XM23_REFUSED_STEPS 2
#define XM23_REFUSED_RECORD 3
#define XM23_REFUSED_RECORD_BITS 4
#define XM23_REFUSED_EVENTS 5
#define XM23_REFUSED_EVENT_FIELDS 6
#define XM23_REFUSED_EVENT_ORDER 7
#define XM23_REFUSED_INSTRUCTION 8
#define XM23_REFUSED_LOG 9
#define XM23_REFUSED_SREC_FORM 10
#define XM23_REFUSED_SREC_CHECKSUM 11
#define XM23_REFUSED_SREC_ROOM 12
#define XM23_REFUSED_EVENT_TWINS 13
#define XM23_REFUSED_JOURNAL 14
#define XM23_REFUSED_BACK 15
#define XM23_REFUSED_STACK 16
#define XM23_REFUSED_SOURCE_FORM 17
#define XM23_REFUSED_SOURCE_NAME 18
#define XM23_REFUSED_SOURCE_VALUE 19
#define XM23_REFUSED_JUDGE 20
#define XM23_REFUSED_TRACE 21
#define XM23_REFUSED_ROOM 22

/* What a refusal says, to 19 in the papers' words. Every number gives a text, there for good and never NULL. */
static inline const char *xm23_refusal_text(unsigned refusal)
{
    switch (refusal) {
    case XM23_ACCEPTED: return "accepted";
    case XM23_REFUSED_MEMORY: return "memory is not 65,536 bytes";
    case XM23_REFUSED_STEPS: return "n is above 1,000,000, or step count + n above 4,294,967,295";
    case XM23_REFUSED_RECORD: return "the state record is not 32 bytes";
    case XM23_REFUSED_RECORD_BITS: return "a zero bit or byte of the state record is not zero, or halted is above 1";
    case XM23_REFUSED_EVENTS: return "the events are not a multiple of 8 bytes, or above 4,096 records";
    case XM23_REFUSED_EVENT_FIELDS: return "an event's device is above 7, or its bytes 6-7 are not zero";
    case XM23_REFUSED_EVENT_ORDER: return "an event's step is below the one before it";
    case XM23_REFUSED_INSTRUCTION: return "an instruction to encode is illegal, or has a field its format cannot hold";
    case XM23_REFUSED_LOG: return "the log's length is not a multiple of 8";
    case XM23_REFUSED_SREC_FORM: return "a line is no S0, S1 or S9, has a wrong count, or S9 is not last or missing";
    case XM23_REFUSED_SREC_CHECKSUM: return "a line's checksum differs";
    case XM23_REFUSED_SREC_ROOM: return "data or span passes #FFFF, or the text does not fit its buffer";
    case XM23_REFUSED_EVENT_TWINS: return "two events share step and device";
    case XM23_REFUSED_JOURNAL: return "the journal's length is zero, above 65,536 or no multiple of 64, or its number kept or next place is too large";
    case XM23_REFUSED_BACK: return "k exceeds the steps kept";
    case XM23_REFUSED_STACK: return "a use is above 1,024, the priority above 7, or the vectors are not 64 bytes or the uses not 16";
    case XM23_REFUSED_SOURCE_FORM: return "a line fits no statement, brackets go deeper than 16, or END is missing";
    case XM23_REFUSED_SOURCE_NAME: return "a name is unknown, already given or the 1,025th";
    case XM23_REFUSED_SOURCE_VALUE: return "a value leaves 32 bits, divides by zero or does not fit, or an address is odd or past #FFFF";
    case XM23_REFUSED_JUDGE: return "the writers are not 65,536 bytes, or the findings not 144";
    case XM23_REFUSED_TRACE: return "the trace's length is no multiple of 16, or kinds is above 4,095";
    case XM23_REFUSED_ROOM: return "the text or table lent is too short";
    default: return "no refusal has this number";
    }
}

/* ---- parts of a reply, for every call that can refuse */

/* The refusal: XM23_ACCEPTED or one of XM23_REFUSED_... */
#define XM23_REFUSAL(reply) ((unsigned)((reply) & 0xFF))

/* ---- an instruction's number: eight bytes, byte 0 the lowest
 *
 * Byte 0 is the format. The one-byte fields of the format follow from byte 1 on, in the order given below. An offset
 * is a 16-bit two's complement number in bytes 6 and 7. Every other byte is 0.
 *
 * The ignored bit, 0 or 1, is bit 6 of the word. It changes nothing of what the instruction does: two words that differ
 * in it mean the same, and their numbers differ, so that two legal words have equal numbers exactly if they are the
 * same word. An assembler writes it 0.
 */

#define XM23_FORMAT_ILLEGAL 0 /* no field */
#define XM23_FORMAT_BL 1      /* offset in words, -4096 to 4095 */
#define XM23_FORMAT_BRANCH 2  /* condition; offset in words, -512 to 511 */
#define XM23_FORMAT_ALU 3     /* operation, R/C, W/B, source or constant, destination */
#define XM23_FORMAT_MOV 4     /* W/B, source, destination */
#define XM23_FORMAT_SWAP 5    /* source, destination, ignored bit */
#define XM23_FORMAT_UNARY 6   /* operation, W/B, destination */
#define XM23_FORMAT_SWPB 7    /* destination, ignored bit */
#define XM23_FORMAT_SXT 8     /* destination, ignored bit */
#define XM23_FORMAT_SETPRI 9  /* priority */
#define XM23_FORMAT_SVC 10    /* vector */
#define XM23_FORMAT_SETCC 11  /* flags */
#define XM23_FORMAT_CLRCC 12  /* flags */
#define XM23_FORMAT_CEX 13    /* condition, true count, false count */
#define XM23_FORMAT_LD 14     /* PRPO, DEC, INC, W/B, source, destination */
#define XM23_FORMAT_ST 15     /* PRPO, DEC, INC, W/B, source, destination */
#define XM23_FORMAT_MOVIMM 16 /* operation, byte, destination */
#define XM23_FORMAT_LDR 17    /* W/B, source, destination; offset in bytes, -64 to 63 */
#define XM23_FORMAT_STR 18    /* W/B, source, destination; offset in bytes, -64 to 63 */

/* The format of an instruction, its one-byte field in byte n (1 to 6), its signed offset. */
#define XM23_FORMAT(instruction) ((unsigned)((instruction) & 0xFF))
#define XM23_FIELD(instruction, n) ((unsigned)(((instruction) >> (8 * (n))) & 0xFF))
#define XM23_OFFSET(instruction) ((int)((((instruction) >> 48) & 0xFFFF) ^ 0x8000) - 0x8000)

/* Parts to add up to an instruction: a one-byte field in byte n (the format in byte 0), an offset. */
#define XM23_PUT_FIELD(n, value) ((uint64_t)(uint8_t)(value) << (8 * (n)))
#define XM23_PUT_OFFSET(value) ((uint64_t)(uint16_t)(value) << 48)

/* The condition of XM23_FORMAT_BRANCH. */
#define XM23_BRANCH_EQ 0 /* Z = 1 */
#define XM23_BRANCH_NE 1 /* Z = 0 */
#define XM23_BRANCH_C 2  /* C = 1 */
#define XM23_BRANCH_NC 3 /* C = 0 */
#define XM23_BRANCH_N 4  /* N = 1 */
#define XM23_BRANCH_GE 5 /* N = V */
#define XM23_BRANCH_LT 6 /* N is not V */
#define XM23_BRANCH_RA 7 /* always */

/* The operation of XM23_FORMAT_ALU. */
#define XM23_ALU_ADD 0
#define XM23_ALU_ADDC 1
#define XM23_ALU_SUB 2
#define XM23_ALU_SUBC 3
#define XM23_ALU_DADD 4
#define XM23_ALU_CMP 5
#define XM23_ALU_XOR 6
#define XM23_ALU_AND 7
#define XM23_ALU_OR 8
#define XM23_ALU_BIT 9
#define XM23_ALU_BIC 10
#define XM23_ALU_BIS 11

/* R/C: what the source field of XM23_FORMAT_ALU numbers. The constants are 0, 1, 2, 4, 8, 16, 32 and -1. */
#define XM23_REGISTER 0
#define XM23_CONSTANT 1

/* W/B */
#define XM23_WORD_FORM 0
#define XM23_BYTE_FORM 1

/* The operation of XM23_FORMAT_UNARY. */
#define XM23_UNARY_SRA 0
#define XM23_UNARY_RRC 1
#define XM23_UNARY_COMP 2

/* The operation of XM23_FORMAT_MOVIMM. */
#define XM23_MOVIMM_MOVL 0
#define XM23_MOVIMM_MOVLZ 1
#define XM23_MOVIMM_MOVLS 2
#define XM23_MOVIMM_MOVH 3

/* The flags of XM23_FORMAT_SETCC and XM23_FORMAT_CLRCC, a sum of these. */
#define XM23_FLAG_C 1
#define XM23_FLAG_Z 2
#define XM23_FLAG_N 4
#define XM23_FLAG_SLP 8
#define XM23_FLAG_V 16

/* The condition of XM23_FORMAT_CEX. */
#define XM23_CEX_EQ 0  /* Z = 1 */
#define XM23_CEX_NE 1  /* Z = 0 */
#define XM23_CEX_CS 2  /* C = 1 */
#define XM23_CEX_CC 3  /* C = 0 */
#define XM23_CEX_MI 4  /* N = 1 */
#define XM23_CEX_PL 5  /* N = 0 */
#define XM23_CEX_VS 6  /* V = 1 */
#define XM23_CEX_VC 7  /* V = 0 */
#define XM23_CEX_HI 8  /* C = 1 and Z = 0 */
#define XM23_CEX_LS 9  /* C = 0 or Z = 1 */
#define XM23_CEX_GE 10 /* N = V */
#define XM23_CEX_LT 11 /* N is not V */
#define XM23_CEX_GT 12 /* Z = 0 and N = V */
#define XM23_CEX_LE 13 /* Z = 1 or N is not V */
#define XM23_CEX_TR 14 /* always true */
#define XM23_CEX_FL 15 /* always false */

/* ---- operations: the rows of 003's section 14 in order. Word and byte form, register and constant are one. */

#define XM23_OPERATION_ILLEGAL 0
#define XM23_OPERATION_BL 1
#define XM23_OPERATION_BEQ 2
#define XM23_OPERATION_BNE 3
#define XM23_OPERATION_BC 4
#define XM23_OPERATION_BNC 5
#define XM23_OPERATION_BN 6
#define XM23_OPERATION_BGE 7
#define XM23_OPERATION_BLT 8
#define XM23_OPERATION_BRA 9
#define XM23_OPERATION_ADD 10
#define XM23_OPERATION_ADDC 11
#define XM23_OPERATION_SUB 12
#define XM23_OPERATION_SUBC 13
#define XM23_OPERATION_DADD 14
#define XM23_OPERATION_CMP 15
#define XM23_OPERATION_XOR 16
#define XM23_OPERATION_AND 17
#define XM23_OPERATION_OR 18
#define XM23_OPERATION_BIT 19
#define XM23_OPERATION_BIC 20
#define XM23_OPERATION_BIS 21
#define XM23_OPERATION_MOV 22
#define XM23_OPERATION_SWAP 23
#define XM23_OPERATION_SRA 24
#define XM23_OPERATION_RRC 25
#define XM23_OPERATION_COMP 26
#define XM23_OPERATION_SWPB 27
#define XM23_OPERATION_SXT 28
#define XM23_OPERATION_SETPRI 29
#define XM23_OPERATION_SVC 30
#define XM23_OPERATION_SETCC 31
#define XM23_OPERATION_CLRCC 32
#define XM23_OPERATION_CEX 33
#define XM23_OPERATION_LD 34
#define XM23_OPERATION_ST 35
#define XM23_OPERATION_MOVL 36
#define XM23_OPERATION_MOVLZ 37
#define XM23_OPERATION_MOVLS 38
#define XM23_OPERATION_MOVH 39
#define XM23_OPERATION_LDR 40
#define XM23_OPERATION_STR 41

/* ---- calls */

/*
 * The version of the library.
 *
 * result   XM23_VERSION of the header that it was made with: major in bits 31-16, minor in 15-8, patch in 7-0.
 * refusals none.
 * defined  crates/xm23/specs/Api.antt, versionNumber.
 */
uint32_t xm23_version(void);

/*
 * Decodes a word.
 *
 * word     in: any word.
 * result   the instruction's number. A word that section 14 of 003 does not list gives XM23_FORMAT_ILLEGAL, and the
 *          whole number is then 0. Encoding the number of any other word gives back that word.
 * refusals none.
 * defined  crates/isa/specs/Decode.antt, decodeOf; crates/isa_number/specs/Number.antt, numberOf.
 */
uint64_t xm23_decode(uint16_t word);

/*
 * Encodes an instruction.
 *
 * instruction in: any number.
 * result      one reply: XM23_REFUSAL in bits 7-0, 0 in bits 15-8, XM23_ENCODED in bits 31-16. An accepted
 *             instruction's word has the ignored bit that its number has, and decodes to that number.
 * refusals    XM23_REFUSED_INSTRUCTION: the format is "illegal" or none that there is, a field or offset is out of
 *             its range, or an unused byte is not 0. The reply is then 8 and nothing else.
 * defined     crates/isa/specs/Encode.antt, encodeOf; crates/isa_number/specs/Reply.antt, encodeNumber.
 */
uint32_t xm23_encode(uint64_t instruction);

/* The word in a reply of xm23_encode that refuses nothing. */
#define XM23_ENCODED(reply) ((uint16_t)((reply) >> 16))

/*
 * The operation of a word, and the longest unbroken range of words around it that all have that operation. Illegal
 * counts as one operation. A word that has the operation and lies beyond others is not of the range: SRA has two.
 *
 * word     in: any word.
 * result   one reply: 0 in bits 7-0, XM23_RANGE_OPERATION in 15-8, XM23_RANGE_FIRST in 31-16, XM23_RANGE_LAST in 47-32,
 *          0 in 63-48. The first and the last word are of the range.
 * refusals none.
 * defined  crates/isa_ranges/specs/Ranges.antt, rangeReply: operationOf, firstOf, lastOf.
 */
uint64_t xm23_range(uint16_t word);

/* The parts of a reply of xm23_range. The operation is XM23_OPERATION_... */
#define XM23_RANGE_OPERATION(reply) ((unsigned)((reply) >> 8 & 0xFF))
#define XM23_RANGE_FIRST(reply) ((uint16_t)((reply) >> 16))
#define XM23_RANGE_LAST(reply) ((uint16_t)((reply) >> 32))

/*
 * How many of the 65,536 words mean an operation, or are illegal. All bits of a word count, an ignored one too: SWAP
 * has 128. The counts of the numbers 0 to 41 add up to 65,536.
 *
 * operation in: any number; XM23_OPERATION_... is one that there is.
 * result    one reply: 0 in bits 7-0, XM23_COUNT in bits 31-8. A number that is no operation's counts 0.
 * refusals  none.
 * defined   crates/isa_card/specs/Words.antt, countReply: countOf.
 */
uint32_t xm23_count(uint32_t operation);

/* The number of words in a reply of xm23_count. */
#define XM23_COUNT(reply) ((uint32_t)((reply) >> 8))

/*
 * The first legal word at or above a given one that means an operation. To list an operation's words, rising, each
 * once, ask at 0 and then each time at the word found plus 1, until there is none; xm23_decode gives the instruction.
 *
 * operation in: any number. For XM23_OPERATION_ILLEGAL, whose words are no instructions, and for a number that is no
 *           operation's there is none.
 * word      in: any number; above 65,535 there is none.
 * result    one reply: 0 in bits 7-0, XM23_NEXT_FOUND in 15-8, XM23_NEXT_WORD in 31-16, 0 in 63-32; 0 where there is
 *           none.
 * refusals  none.
 * defined   crates/isa_card/specs/Words.antt, nextReply: nextOf.
 */
uint64_t xm23_next(uint32_t operation, uint32_t word);

/* The parts of a reply of xm23_next: 1 or 0, and the word that is found. */
#define XM23_NEXT_FOUND(reply) ((unsigned)((reply) >> 8 & 0xFF))
#define XM23_NEXT_WORD(reply) ((uint16_t)((reply) >> 16))

/*
 * Runs a machine for n steps, or until it halts, or until the log has no room. To advance a machine further, call again
 * with the memory and the record that the last call left, and with the same events or the rest of them: events of
 * earlier steps are passed over. A run of a + b steps closes as a run of a and then a run of b.
 *
 * The log takes what the output devices show, from its beginning on: a record for each store by an instruction (ST or
 * STR, in handlers too) to the data byte of a device whose input bit is clear and whose ENA was set before the store.
 * A step shows one byte at most, so 8 * n bytes are always enough. A step that would need a record past the end is not
 * taken: the call gives XM23_REASON_LOG with memory and record as they were before that step, its events not applied,
 * and a call with a fresh log and the same events takes it. The records of both logs, one after the other, are those of
 * one run with a log long enough. A full log stops nothing by itself.
 *
 * memory, memory_len in-out: the machine's memory, XM23_MEMORY_SIZE bytes.
 * record, record_len in-out: its state record, XM23_RECORD_SIZE bytes.
 * events, events_len in: event records, in the order of their steps, at most one of a device on a step; those of one
 *                    step are applied in list order. No bytes are an empty list. Each call judges the whole list,
 *                    about 12 host instructions a record, up to 42 where two are of one step: a host that advances in
 *                    slices lends the whole list once, and then the records whose step is not below the record's count,
 *                    which is the same call (crates/passed_over).
 * log, log_len       in-out: room for log records, a multiple of XM23_LOG_SIZE bytes, 0 among them. Bytes past the
 *                    last record stay.
 * deepest            out: how deep this run went, 0 to the steps done. Frames are counted from 0 at its start: an
 *                    entry that pushes (an accepted line, SVC, a fault) opens one, a return that pulls closes one,
 *                    and one with none open counts nothing, nor does a chained entry or a fault that halts; this is
 *                    the most that were open together, exactly, for traps and faults too. Of runs in turn each has
 *                    its own. Where the premises of 01's Depth hold it is at most 7 - p.
 * n                  in: how many steps.
 * result             one reply: XM23_RUN_REFUSAL in bits 7-0, XM23_RUN_REASON in 15-8, XM23_RUN_STEPS in 39-16,
 *                    XM23_RUN_ADDED in 63-40. Accepted: memory and record hold the closing state.
 * refusals           in the order tested: XM23_REFUSED_MEMORY; XM23_REFUSED_STEPS for n alone; XM23_REFUSED_RECORD;
 *                    XM23_REFUSED_STEPS for the sum, of a halted machine too; XM23_REFUSED_RECORD_BITS;
 *                    XM23_REFUSED_EVENTS; XM23_REFUSED_EVENT_FIELDS over the whole list; XM23_REFUSED_EVENT_ORDER;
 *                    XM23_REFUSED_EVENT_TWINS, of events that this run would not apply too; XM23_REFUSED_LOG,
 *                    whatever n is. Refused: reason, steps and records added are 0, and memory, record, events, log
 *                    and the number behind deepest are as they were.
 * interrupts         where the premises of crates/resume/specs/Resume.antt hold of a call, its application does not
 *                    notice the devices' handlers: before and after each of its steps, those of its own SVC handlers
 *                    among them, and at the close, its registers, PSW, CEX state and bytes are those of the run with
 *                    no events, which takes the same traps and has a log long enough. One step is apart: where a
 *                    line is chained onto the return of an SVC handler, that step counts as the return, and the two
 *                    runs agree before it and again after the pull that closes the frame, not in between. The run
 *                    is the steps done, where the log had no room too. docs/RESUMPTION.md says it in words. The call
 *                    does not check the premises.
 * defined            crates/machine/specs/Call.antt, runCallOf, and crates/resume/specs/Deepest.antt, deepestLeft,
 *                    for every length, content and number.
 */
uint64_t xm23_run(uint8_t *memory, size_t memory_len, uint8_t *record, size_t record_len, const uint8_t *events,
                  size_t events_len, uint8_t *log, size_t log_len, uint32_t *deepest, uint64_t n);

/* The parts of a reply of xm23_run. */
#define XM23_RUN_REFUSAL(reply) XM23_REFUSAL(reply)
#define XM23_RUN_REASON(reply) ((unsigned)((reply) >> 8 & 0xFF))
#define XM23_RUN_STEPS(reply) ((uint32_t)((reply) >> 16 & 0xFFFFFF))
#define XM23_RUN_ADDED(reply) ((uint32_t)((reply) >> 40)) /* log records */

/* Why a run ended: all its steps are done; the machine is halted (which it may have been before); the log has no room
 * for what the next step would show. */
#define XM23_REASON_DONE 0
#define XM23_REASON_HALTED 1
#define XM23_REASON_LOG 2

/*
 * Runs a machine as xm23_run does, and keeps a record of each step, so that xm23_back can undo it. The run is the same
 * run: same reply, and the same memory, record, log and depth. It is slower; xm23_run is the call where nobody will go
 * back.
 *
 * The journal is a ring of records, XM23_JOURNAL_SIZE bytes each, with no header. A record is written at the next
 * place for each step done, a halting one and one asleep too, a step that the log had no room for not; the place after
 * the last is the first, and the oldest record is overwritten where all are kept. To begin, hand over kept 0 and any
 * place below the records that there is room for (another is refused with 14); from then on hand over journal, kept and
 * place as the last call left them, with the memory and record that it left.
 *
 * A record's address is that of the last word that the step pushed (an accepted line, SVC, a fault), bit 0 dropped; or
 * of the first byte that it stored outside the device bytes; or 0. What a step does to memory besides is in the device
 * bytes.
 *
 * memory to deepest    as for xm23_run.
 * journal, journal_len in-out: the records, 64 to XM23_MAX_JOURNAL bytes, a multiple of 64. Bytes of places that no
 *                      step reaches stay.
 * kept                 in-out: how many steps are kept, at most the records that there is room for.
 * place                in-out: where the next record goes, below the records that there is room for.
 * n                    in: how many steps.
 * result               one reply, of the parts of xm23_run.
 * refusals             in the order tested: those of xm23_run, then XM23_REFUSED_JOURNAL, whatever n is. Refused: as
 *                      for xm23_run, and journal, kept and place are as they were.
 * interrupts           as for xm23_run.
 * defined              crates/journal/specs/Call.antt, runJournalOf, for every length, content and number;
 *                      Record.antt, journalRecord; Ring.antt, journalAfter.
 */
uint64_t xm23_run_journal(uint8_t *memory, size_t memory_len, uint8_t *record, size_t record_len, const uint8_t *events,
                          size_t events_len, uint8_t *log, size_t log_len, uint32_t *deepest, uint8_t *journal,
                          size_t journal_len, uint32_t *kept, uint32_t *place, uint64_t n);

/*
 * Runs a machine as xm23_run does with a log that is long enough, and writes down what each step did and what each of
 * its events did: a record of XM23_TRACE_SIZE bytes for each thing of the kinds asked for, in the order in which they
 * happen. A step has its events first, in the order of the list, and then exactly one act. "Before the step" is before
 * its due events.
 *
 * A step whose records would pass the end of the trace is not taken: the reason is XM23_REASON_TRACE, and memory and
 * record are as before that step, its due events not applied. The records of a step are written together or not at
 * all, so that up to eight places may stay free. XM23_TRACE_ENOUGH(n, events) bytes always suffice.
 *
 * memory to events_len as for xm23_run.
 * trace, trace_len     in-out: the records, no header; a multiple of XM23_TRACE_SIZE bytes, 0 too. Bytes past the last
 *                      record stay.
 * kinds                in: bit k asks for kind k, XM23_KIND(k); XM23_KINDS asks for all.
 * n                    in: how many steps, 0 to XM23_MAX_STEPS.
 * result               one reply: XM23_RUN_REFUSAL, XM23_RUN_REASON, XM23_RUN_STEPS, XM23_TRACE_ADDED.
 * refusals             in the order tested: those of xm23_run but for the log's, then XM23_REFUSED_TRACE. Refused:
 *                      memory, record and trace are as they were.
 * defined              crates/trace/specs/Call.antt, traceCallOf, for every length, content and number; Trace.antt,
 *                      tracedOf; what holds of it: Theorems.antt.
 */
uint64_t xm23_trace(uint8_t *memory, size_t memory_len, uint8_t *record, size_t record_len, const uint8_t *events,
                    size_t events_len, uint8_t *trace, size_t trace_len, uint32_t kinds, uint64_t n);

/* The part of a reply of xm23_trace that xm23_run has not; its reason 2; bytes that a run of n always finds enough, of
 * a list of so many event records. */
#define XM23_TRACE_ADDED(reply) ((uint32_t)((reply) >> 40)) /* trace records */
#define XM23_REASON_TRACE 2
#define XM23_TRACE_ENOUGH(n, events) ((size_t)XM23_TRACE_SIZE * ((size_t)(n) + (size_t)(events)))

/* The kinds of a trace's records: an event, and what a step did. */
#define XM23_KIND_EVENT 0
#define XM23_KIND_PULL 1    /* a return that pulls */
#define XM23_KIND_CHAIN 2   /* a return that enters the next handler */
#define XM23_KIND_ACCEPT 3  /* a waiting line accepted */
#define XM23_KIND_SLEEP 4   /* asleep */
#define XM23_KIND_FAULT 5   /* a fault's vector entered */
#define XM23_KIND_HALT 6    /* a fault that halts; its vector is not told */
#define XM23_KIND_SKIP 7    /* a word that CEX skips */
#define XM23_KIND_TRAP 8    /* SVC */
#define XM23_KIND_PLAIN 9   /* an instruction that neither loads nor stores */
#define XM23_KIND_LOAD 10   /* LD, LDR */
#define XM23_KIND_STORE 11  /* ST, STR */
#define XM23_KIND(k) (1u << (k))
#define XM23_KINDS 4095u

/* A trace record: where each part begins. */
#define XM23_TRACE_STEP 0    /* four bytes: the step count before the step */
#define XM23_TRACE_KIND 4    /* one byte */
#define XM23_TRACE_NUMBER 5  /* one byte: device (event, chain, accept), vector (fault, trap), 1 for a byte access */
#define XM23_TRACE_ADDRESS 6 /* two bytes: PC after the step (pull, chain, accept, fault, trap), or the byte address */
#define XM23_TRACE_EFFECT 6  /* one byte, of an event: XM23_EFFECT_TAKEN and so on; 0 where ENA is clear */
#define XM23_TRACE_VALUE 8   /* two bytes: PSW after the step, or what is loaded or stored; of an event its data byte */
#define XM23_TRACE_PC 10     /* two bytes each, before the step: PC, SP, PSW */
#define XM23_TRACE_SP 12
#define XM23_TRACE_PSW 14

/* What an event did. It is lost to a full count where RAISED and FULL are both set. */
#define XM23_EFFECT_TAKEN 1   /* its device has ENA */
#define XM23_EFFECT_OVERRUN 2 /* DBA was set before it, so OF is set */
#define XM23_EFFECT_RAISED 4  /* its device has IE: it raises its line */
#define XM23_EFFECT_FULL 8    /* the device's count of waiting events was 15 before it */

/*
 * Goes back k steps: copies k records of a journal out, the newest first, each into the record and into memory (the
 * device bytes, then the eight bytes at its address), and lowers kept and place by k, the place wrapping. The
 * journal's bytes stay. What is copied is not looked at: a record of any bytes comes out as it is.
 *
 * Where kept began at 0, and memory, record, journal, its length and its two numbers were changed by these two calls
 * alone, over any runs and goings-back: there are k steps that were taken and not taken back, and memory and record are
 * as they were k of these steps earlier. Once j of the k are done again, each with the same events due, by any runs of
 * xm23_run or xm23_run_journal, each with its own list and log, memory and record are as they were k - j steps earlier;
 * after all k, as before going back. With k above 0, runs of at most k steps together, whose lists are lawful and whose
 * logs are long enough, are accepted and do all their steps.
 *
 * memory, memory_len   in-out: the machine's memory, XM23_MEMORY_SIZE bytes.
 * record, record_len   in-out: its state record, XM23_RECORD_SIZE bytes.
 * journal, journal_len in: the records, as xm23_run_journal left them.
 * kept, place          in-out: its two numbers.
 * k                    in: how many steps; 0 changes nothing.
 * result               one reply: XM23_REFUSAL in bits 7-0, 0 above.
 * refusals             in the order tested: XM23_REFUSED_MEMORY; XM23_REFUSED_RECORD; XM23_REFUSED_JOURNAL;
 *                      XM23_REFUSED_BACK. Refused: memory, record, kept and place are as they were.
 * defined              crates/journal/specs/Call.antt, backCallOf, for every length, content and number; over
 *                      sessions crates/journal_laws/specs, Session.antt, GoesBack, and On.antt, RunsOn, RunsOnAgain.
 */
uint32_t xm23_back(uint8_t *memory, size_t memory_len, uint8_t *record, size_t record_len, const uint8_t *journal,
                   size_t journal_len, uint32_t *kept, uint32_t *place, uint64_t k);

/*
 * Runs a machine as xm23_run does with a log long enough, and judges its handlers: which premises of resumption the run
 * broke, of each the first step that did, and who ran then. Where no kind is found, the program ended as it would have
 * with no events: registers, PSW, CEX state and memory are those of the run with no events after as many steps as the
 * application took, but for the device registers and the bytes with mark XM23_WROTE_OTHER. And wherever the premises
 * hold no kind is found: no sound handler is blamed. A kind is found exactly if its own premise fails, and its finding
 * has the least step at which it does.
 *
 * A device's frame is every frame that is not the application's own, which are those of SVC opened while no device's
 * frame is open. The nine findings stand in the order of XM23_FOUND_..., each judged over the whole run. Who ran: the
 * handler in the newest frame if that is a device's, else the application, with XM23_NO_VECTOR as both vectors and the
 * count at the start; XM23_FOUND_OPEN tells of the oldest open frame. Where the two vectors differ, a line was
 * chained on: what the pull finds changed may then be the first handler's or the chained one's.
 *
 * memory, memory_len     in-out: the machine's memory, XM23_MEMORY_SIZE bytes.
 * record, record_len     in-out: its state record, XM23_RECORD_SIZE bytes.
 * events, events_len     in: event records, in step order.
 * writers, writers_len   out: XM23_WRITERS_SIZE bytes, XM23_WROTE_... for each byte of memory.
 * findings, findings_len out: XM23_FINDINGS_SIZE bytes, a finding of each kind.
 * n                      in: how many steps, at most XM23_MAX_STEPS.
 * result                 one reply: XM23_JUDGE_REFUSAL in bits 7-0, XM23_JUDGE_REASON in 15-8, XM23_JUDGE_STEPS done in
 *                        39-16, XM23_JUDGE_KINDS found in 63-40, 0 if the run is sound.
 * refusals               in the order tested: those of xm23_run but XM23_REFUSED_LOG, then XM23_REFUSED_JUDGE. Refused:
 *                        all four buffers are as they were.
 * interrupts             where XM23_MAX_FRAMES devices' frames are open, a step that would open one more is not taken,
 *                        its events are not applied: XM23_REASON_DEEP. Such a run is never called sound.
 * defined                crates/soundness/specs/Judge.antt, judgeCallOf, for every length, content and number;
 *                        Findings.antt, foundOf; Verdict.antt, Judgement.
 */
uint64_t xm23_judge(uint8_t *memory, size_t memory_len, uint8_t *record, size_t record_len, const uint8_t *events,
                    size_t events_len, uint8_t *writers, size_t writers_len, uint8_t *findings, size_t findings_len,
                    uint64_t n);

/* The parts of a reply of xm23_judge. */
#define XM23_JUDGE_REFUSAL(reply) XM23_REFUSAL(reply)
#define XM23_JUDGE_REASON(reply) ((unsigned)((reply) >> 8 & 0xFF))
#define XM23_JUDGE_STEPS(reply) ((uint32_t)((reply) >> 16 & 0xFFFFFF))
#define XM23_JUDGE_KINDS(reply) ((uint32_t)((reply) >> 40))           /* bit k for kind k */
#define XM23_JUDGE_FOUND(reply, kind) ((unsigned)((reply) >> 40 >> (kind) & 1)) /* one kind */

/* Why a judged run ended: XM23_REASON_DONE, XM23_REASON_HALTED, or a step would have opened one frame too many. */
#define XM23_REASON_DEEP 2

/*
 * Loads a text of Motorola S-records: S0 is passed over, S1 is stored at its address, S9 is the last line and gives the
 * PC. Lines end in LF or CR LF, the last one's ending may be absent, and digits are of either case. A later line wins
 * over an earlier one on the same byte. The whole text is judged before a byte of memory changes.
 *
 * memory, memory_len in-out: the machine's memory, XM23_MEMORY_SIZE bytes.
 * text, text_len     in: the text, of any length.
 * pc                 in: the PC that the reply has where the text is refused.
 * result             one reply: XM23_REFUSAL in bits 7-0, 0 in 15-8, XM23_LOAD_PC in 31-16, XM23_LOAD_LINE in 63-32.
 *                    Accepted: the PC of S9, and line 0. The state record is the caller's to change.
 * refusals           XM23_REFUSED_MEMORY, with line 0; then line by line, the first line first, in the order
 *                    XM23_REFUSED_SREC_FORM, XM23_REFUSED_SREC_CHECKSUM, XM23_REFUSED_SREC_ROOM, with the number of the
 *                    line at fault; then XM23_REFUSED_SREC_FORM where no line is S9, with the number of lines plus 1.
 *                    Refused: the PC is the one handed in, and memory is as it was.
 * defined            crates/srec_call/specs/Call.antt, loadCallOf, for every length and content.
 */
uint64_t xm23_load_srec(uint8_t *memory, size_t memory_len, const uint8_t *text, size_t text_len, uint16_t pc);

/* The PC and the line at fault, from 1, in a reply of xm23_load_srec; 4,294,967,295 stands for a line beyond it. */
#define XM23_LOAD_PC(reply) ((uint16_t)((reply) >> 16))
#define XM23_LOAD_LINE(reply) ((uint32_t)((reply) >> 32))

/*
 * Writes a span of memory as S-records: S1 lines of 16 bytes, the last perhaps shorter, then S9 with the PC, in upper
 * case, each line ended by LF. Loaded into any memory, the text restores the span and touches no other byte.
 *
 * memory, memory_len in: the machine's memory, XM23_MEMORY_SIZE bytes.
 * start, length      in: the span; it may be empty, and may end at #FFFF.
 * pc                 in: the PC that S9 gives.
 * text, text_len     in-out: where the text goes, at the buffer's start; XM23_SREC_LENGTH(length) bytes are enough.
 * result             one reply: XM23_REFUSAL in bits 7-0, XM23_WRITTEN in bits 63-8. Bytes past the text stay.
 * refusals           in the order tested: XM23_REFUSED_MEMORY; XM23_REFUSED_SREC_ROOM where start + length is above
 *                    65,536; XM23_REFUSED_SREC_ROOM where the text is longer than its buffer.
 *                    Refused: the reply is the refusal alone, and the text buffer is as it was.
 * defined            crates/srec_call/specs/Call.antt, writeCallOf, for every length, content and number; Trip.antt,
 *                    Restores.
 */
uint64_t xm23_write_srec(const uint8_t *memory, size_t memory_len, uint16_t start, uint32_t length, uint16_t pc,
                         uint8_t *text, size_t text_len);

/* The bytes of text in a reply of xm23_write_srec that refuses nothing. */
#define XM23_WRITTEN(reply) ((size_t)((reply) >> 8))

/*
 * The stack bytes that the handlers of some devices can need together: the largest total over choices of these devices
 * with strictly rising priorities above the one given, each costing 8 for its frame and its own use.
 *
 * vectors, vectors_len in: the 64 bytes at XM23_VECTORS of memory, XM23_VECTORS_SIZE bytes.
 * devices              in: bit d for device d.
 * uses, uses_len       in: eight numbers of two bytes, little-endian, device 0 first: the bytes by which its handler
 *                      holds SP below where entry left it, at most XM23_MAX_USE; XM23_USES_SIZE bytes.
 * priority             in: the lowest priority that the application holds, 0 to 7.
 * result               one reply: XM23_REFUSAL in bits 7-0, XM23_STACK_BYTES in bits 31-8, at most 7,224.
 * refusals             XM23_REFUSED_STACK, for a use of a device that is not chosen too. The reply is then 16.
 * runs                 where StackPremises of crates/stack_need/specs/Stack.antt hold of a run, no handler's SP and
 *                      no pushed byte lies further below the application's SP when the outermost frame opened,
 *                      downwards modulo 65,536, by which SP above where entry left it lies nearly 65,536 below.
 *                      Where PlainPremises hold, which let a handler hold SP above (LD SP+,R0, and SP put back), none
 *                      lies further below in plain numbers. The call does not check the premises.
 * defined              crates/stack_need/specs/Need.antt, needReply, for every length, content and number.
 */
uint32_t xm23_stack(const uint8_t *vectors, size_t vectors_len, uint8_t devices, const uint8_t *uses, size_t uses_len,
                    uint32_t priority);

/* The bytes in a reply of xm23_stack that refuses nothing. */
#define XM23_STACK_BYTES(reply) ((uint32_t)((reply) >> 8))

/*
 * Assembles a source into memory. A line holds at most a name, a statement and a `;` comment; docs/FORMATS.md has the
 * language. The whole source is judged before a byte of memory changes; lines after END are not read. No byte changes
 * but those of the assembled instructions, WORDs and BYTEs; of two statements on one byte the later wins.
 *
 * memory, memory_len in-out: the machine's memory, XM23_MEMORY_SIZE bytes.
 * source, source_len in: the source, of any length and content.
 * result             one reply: XM23_REFUSAL in bits 7-0, 0 in 31-8, XM23_ASSEMBLE_LINE in 63-32. Accepted: 0. Where
 *                    the program starts is the caller's to know.
 * refusals           XM23_REFUSED_MEMORY, with line 0; then, each over the whole source and with the number of the
 *                    first line at fault, XM23_REFUSED_SOURCE_FORM, the number of lines plus 1 where END is missing;
 *                    XM23_REFUSED_SOURCE_NAME; XM23_REFUSED_SOURCE_VALUE, an ORG, EQU or BSS before every other line.
 *                    Refused: memory is as it was.
 * defined            crates/asm_call/specs/Call.antt, assembleCallOf, for every length and content.
 */
uint64_t xm23_assemble(uint8_t *memory, size_t memory_len, const uint8_t *source, size_t source_len);

/* The line at fault, from 1, in a reply of xm23_assemble, 0 for none; 4,294,967,295 stands for a line beyond it. */
#define XM23_ASSEMBLE_LINE(reply) ((uint32_t)((reply) >> 32))

/*
 * Tells what stands where in a source: a record of XM23_PLACE_SIZE bytes for each line up to and with END, in the order
 * of the lines. What xm23_assemble writes are the statements of the records that tell of bytes, in their order, each at
 * the number of its record; the name of a line stands for that number.
 *
 * source, source_len in: the source, of any length and content.
 * places, places_len in-out: where the records go, at the buffer's start; of any length. Eight bytes for each LF of the
 *                    source and eight more are always enough. Bytes past the records stay.
 * result             one reply: XM23_REFUSAL in bits 7-0, 0 in 31-8; in 63-32 XM23_PLACES where accepted, and where
 *                    the source is at fault XM23_ASSEMBLE_LINE, exactly as xm23_assemble gives it.
 * refusals           XM23_REFUSED_SOURCE_FORM; XM23_REFUSED_SOURCE_NAME; XM23_REFUSED_SOURCE_VALUE; then, of a source
 *                    without a fault, XM23_REFUSED_ROOM where places is shorter than the records: the reply is then 22.
 *                    Refused: places is as it was.
 * defined            crates/asm_places/specs/Call.antt, placesCallOf, for every length and content; what the records
 *                    tell: crates/asm_places_laws/specs/Theorems.antt.
 */
uint64_t xm23_places(const uint8_t *source, size_t source_len, uint8_t *places, size_t places_len);

/* The number of records in a reply of xm23_places that refuses nothing; 4,294,967,295 stands for more. */
#define XM23_PLACES(reply) ((uint32_t)((reply) >> 32))

/* The number of a place record, as it stands and as the value of an EQU. */
#define XM23_PLACE_NUMBER_OF(place) \
    ((uint32_t)(place)[0] | (uint32_t)(place)[1] << 8 | (uint32_t)(place)[2] << 16 | (uint32_t)(place)[3] << 24)
#define XM23_PLACE_VALUE_OF(place) \
    ((int64_t)(XM23_PLACE_NUMBER_OF(place) ^ 0x80000000u) - INT64_C(0x80000000))

/*
 * Writes a word as the assembler has it at a place: one statement in upper case, without a line ending. A branch names
 * its target. A word that has no notation is WORD and the word: an illegal one, one whose ignored bit is set, SETCC and
 * CLRCC with no flag, LD and ST whose adjustment moves nothing but is not plain; and a branch at an odd place.
 * docs/FORMATS.md has the forms.
 *
 * Assembled at that place, where it is even, the text gives the word again: a listing of words that fit from there on,
 * ORG before it and END behind, is accepted and puts exactly those words into any memory.
 *
 * word, place     in: the word, and the address that it stands at.
 * text, text_len  in-out: where the text goes, at the buffer's start; XM23_TEXT_SIZE bytes or more. Bytes past the text
 *                 stay.
 * result          one reply: XM23_REFUSAL in bits 7-0, XM23_TEXT_LENGTH in bits 31-8.
 * refusals        XM23_REFUSED_ROOM where text is under XM23_TEXT_SIZE bytes. The reply is then 22, and the buffer is
 *                 as it was.
 * defined         crates/asm_printer/specs/Call.antt, textCallOf, for every word, place, length and content;
 *                 crates/asm_print/specs/Print.antt, textAt; what assembles again:
 *                 crates/asm_print_laws/specs/Theorems.antt, ListingAssembles.
 */
uint32_t xm23_text(uint16_t word, uint16_t place, uint8_t *text, size_t text_len);

/* The bytes of text in a reply of xm23_text that refuses nothing. */
#define XM23_TEXT_LENGTH(reply) ((size_t)((reply) >> 8))

/*
 * Prints the line of the sheet: runs the machine that an input describes and writes reason, steps, R0 to R7, PSW, CEX,
 * lines and depth as one line, as the program print_state does. The run is that of xm23_run with a log long enough.
 *
 * input, input_len in: n (four bytes, little-endian), a state record, memory, and event records to the end; of any
 *                  length and content. An input that breaks a rule is no refusal of this call: its line is R and the
 *                  number, R3 where it is under 36 bytes, R1 where memory is short, then those of xm23_run in order.
 * line, line_len   in-out: where the line goes, at the buffer's start; XM23_LINE_SIZE bytes or more. Bytes past the
 *                  line stay.
 * result           one reply: XM23_REFUSAL in bits 7-0, XM23_LINE_LENGTH in bits 31-8, the LF that ends the line
 *                  included.
 * refusals         XM23_REFUSED_ROOM where line is under XM23_LINE_SIZE bytes, tested first. The reply is then 22, and
 *                  the buffer is as it was.
 * stack            it takes 68 KB of stack, for the memory that it runs.
 * defined          crates/xm23_sheet/specs/Call.antt, sheetCallOf, for every length and content;
 *                  crates/printed_line/specs/Sheet.antt, sheetOf.
 */
uint32_t xm23_sheet(const uint8_t *input, size_t input_len, uint8_t *line, size_t line_len);

/* The bytes of the line in a reply of xm23_sheet that refuses nothing. */
#define XM23_LINE_LENGTH(reply) ((size_t)((reply) >> 8))

#ifdef __cplusplus
}
#endif

#endif
