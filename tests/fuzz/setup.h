/*
 * A call of xm23_run as a short string of commands, so that a fuzzer has little to change and much to reach.
 *
 * A command is three bytes: its kind in bits 3-0 of the first and k in bits 7-4, then a and b; ab is a + 256 * b. Bytes
 * left over at the end are ignored. The machine starts awake at PC #1000 with SP #0800 and the rest 0, n is 64, the log
 * has room for 64 records, every device is enabled with IE (even ones for input), and vector v leads, at priority
 * 1 + v mod 7, to a handler of one return at #2000 + #40 * v. Commands are done in order and may undo each other.
 */
#ifndef SETUP_H
#define SETUP_H

#include <stddef.h>
#include <stdint.h>

enum command {
    CODE,     /* the word ab at the cursor, which moves by 2; the cursor starts at #1000 */
    AT,       /* the cursor is at ab */
    BYTE,     /* the byte a at the cursor, which moves by 1 */
    REGISTER, /* register k mod 8 is ab */
    PSW,      /* the PSW is ab, bits 12-9 clear */
    STATE,    /* the CEX state is a without bit 7; the counts of devices 2 * (k mod 4) and above it are b */
    VECTOR,   /* vector k: its PSW is a, its entry point 257 * b, so that #FF is #FFFF */
    DEVICE,   /* device k mod 8: status a, data b */
    EVENT,    /* an event on device k mod 8, a steps after the event before it (the first: after the count), data b */
    STEPS,    /* n is ab mod 1024 */
    COUNT,    /* the step count's low half is ab, or its high half where k is odd */
    SLICE,    /* the first slice has ab mod (n + 1) steps */
    FILL,     /* all of memory is drawn at random, with ab as the seed */
    EMPTY,    /* all of memory is 0 */
    RAW,      /* byte k of the record, or 16 + k where a is odd, is b, whatever it may be */
    BREAK     /* k mod 8 says what, or 8 that the log has ab mod (LONGEST_LOG + 1) bytes: see setup.c */
};

enum { LONGEST_MEMORY = 65536 + 8, LONGEST_RECORD = 40, LONGEST_EVENTS = 8 * 4097 + 8, LONGEST_LOG = 8 * 64 + 8 };

struct setup {
    uint8_t memory[LONGEST_MEMORY], record[LONGEST_RECORD], events[LONGEST_EVENTS], log[LONGEST_LOG];
    size_t memory_len, record_len, events_len, log_len;
    uint64_t n;
    unsigned slice;
};

/* The setup of a string of commands. */
void unpack(struct setup *s, const uint8_t *commands, size_t size);

/*
 * Commands for an input of print_state, with its first 100 events; gives how many bytes. 0 where they do not fit, or
 * where an accepted n is above 1,023.
 */
size_t pack(uint8_t *commands, size_t room, const uint8_t *input, size_t size);

#endif
