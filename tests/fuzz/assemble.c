/*
 * A target of libFuzzer: xm23_assemble and xm23_places beside an assembler in C, written from 02 and docs/CALLS.md and
 * compiled with the fuzzer's counters. The string is a source. Held: both give one reply and leave one memory and one
 * list of places, lent with room for all, for none and for one byte too few.
 */
#include <inttypes.h>
#include <stdio.h>
#include <stdlib.h>
#include <string.h>

#include "xm23.h"

int LLVMFuzzerTestOneInput(const uint8_t *data, size_t size);

/* ---- the judge: each sweep reads the lines anew */

enum { NAMES = 1024, DEEPEST = 16, LONGEST = 1 << 16 };

struct word {
    const uint8_t *text;
    size_t length;
};

static struct {
    struct word name;
    int64_t value;
} names[NAMES];
static size_t given;

enum kind { NOTHING, ORG, EQU, BSS, BYTE, WORD, END, CODE };

/* How the value of an instruction goes into its word. */
enum fit { NONE, CONSTANT, LEVEL, VECTOR, COUNTS, IMMEDIATE, OFFSET, NEAR, FAR };

struct line {
    struct word name;
    enum kind kind;
    enum fit fit;
    unsigned code;
    int plain, high;
    int64_t value, second;
};

/* What is still to be read of a line, and what is wrong with it so far. */
static struct {
    const uint8_t *at, *end;
    int malformed, unknown, outside, named;
} now;

static int is_letter(int c) { return c >= 'A' && c <= 'Z'; }
static int is_digit(int c) { return c >= '0' && c <= '9'; }
static int peek(void) { return now.at < now.end ? *now.at : -1; }

static void blanks(void)
{
    while (peek() == ' ' || peek() == '\t')
        now.at++;
}

static int take(int sign)
{
    blanks();
    if (peek() != sign)
        return 0;
    now.at++;
    return 1;
}

static void need(int holds)
{
    if (!holds)
        now.malformed = 1;
}

static struct word word(void)
{
    struct word w;
    blanks();
    w.text = now.at;
    if (is_letter(peek()))
        while (is_letter(peek()) || is_digit(peek()))
            now.at++;
    w.length = (size_t)(now.at - w.text);
    return w;
}

static int same(struct word w, const char *text, size_t length)
{
    return w.length == length && memcmp(w.text, text, length) == 0;
}

/* The place of a word in a list of words with blanks between them and before and after, or -1. */
static int find(struct word w, const char *list)
{
    int place = 0;
    while (*list) {
        size_t length = strcspn(list, " ");
        if (w.length && same(w, list, length))
            return place;
        list += length + (list[length] == ' ');
        place++;
    }
    return -1;
}

static const char alu[] = "ADD ADDC SUB SUBC DADD CMP XOR AND OR BIT BIC BIS";
static const char branch[] = "BEQ BZ BNE BNZ BC BHS BNC BLO BN BN BGE BGE BLT BLT BRA BRA";
static const char condition[] = "EQ EQ NE NE CS HS CC LO MI MI PL PL VS VS VC VC "
                                "HI HI LS LS GE GE LT LT GT GT LE LE TR TR FL FL";
static const char registers[] = "R0 R1 R2 R3 R4 R5 R6 R7 BP LR SP PC";
static const char unary[] = "SRA RRC COMP";
static const char moves[] = "MOVL MOVLZ MOVLS MOVH";
static const char others[] = "ORG EQU BSS BYTE WORD END BL MOV SWAP SWPB SXT SETPRI SVC SETCC CLRCC CEX LD ST LDR STR";
static const char emulated[] = "ADC CALL CLC CLN CLR CLS CLV CLZ DADC DEC DECD INC INCD "
                               "JUMP NOP PULL PUSH RET RLC SBC SEC SEN SEV SEZ SLA TST";

static int reserved(struct word w)
{
    return find(w, alu) >= 0 || find(w, branch) >= 0 || find(w, condition) >= 0 || find(w, registers) >= 0 ||
           find(w, unary) >= 0 || find(w, moves) >= 0 || find(w, others) >= 0 || find(w, emulated) >= 0;
}

static int is_register(struct word w) { return find(w, registers) >= 0; }

static unsigned reg(void)
{
    int place = find(word(), registers);
    need(place >= 0);
    return place < 0 ? 0 : (unsigned)(place < 8 ? place : place - 4);
}

static int64_t fitted(int64_t value)
{
    if (value < INT32_MIN || value > INT32_MAX) {
        now.outside = 1;
        return 0;
    }
    return value;
}

static int64_t number(void)
{
    int sixteen = peek() == '$', negative, many = 0;
    int64_t value = 0;
    now.at++;
    negative = !sixteen && peek() == '-';
    now.at += negative;
    for (; is_digit(peek()) || (sixteen && peek() >= 'A' && peek() <= 'F'); now.at++, many++) {
        int digit = is_digit(peek()) ? peek() - '0' : peek() - 'A' + 10;
        value = value * (sixteen ? 16 : 10) + digit;
        if (value > (int64_t)1 << 40)
            value = (int64_t)1 << 40;
    }
    need(many > 0);
    return fitted(negative ? -value : value);
}

static int64_t look_up(struct word w)
{
    size_t i;
    now.named = 1;
    for (i = 0; i < given; i++)
        if (same(w, (const char *)names[i].name.text, names[i].name.length))
            return names[i].value;
    now.unknown = 1;
    return 0;
}

static int64_t expression(int left);

static int64_t factor(int left)
{
    struct word w;
    int64_t value;
    blanks();
    if (peek() == '#' || peek() == '$')
        return number();
    if (take('(')) {
        need(left > 0);
        value = now.malformed ? 0 : expression(left - 1);
        need(take(')'));
        return value;
    }
    w = word();
    need(w.length > 0 && !reserved(w));
    return now.malformed ? 0 : look_up(w);
}

static int64_t term(int left)
{
    int64_t value = factor(left), next;
    while (!now.malformed) {
        int times = take('*'), by = !times && take('/');
        if (!times && !by)
            break;
        next = factor(left);
        if (by && next == 0) {
            now.outside = 1;
            next = 1;
        }
        value = fitted(times ? value * next : value / next);
    }
    return value;
}

static int64_t expression(int left)
{
    int64_t value = term(left), next;
    while (!now.malformed) {
        int plus = take('+'), minus = !plus && take('-');
        if (!plus && !minus)
            break;
        next = term(left);
        value = fitted(plus ? value + next : value - next);
    }
    return value;
}

static void value(struct line *line)
{
    now.named = 0;
    line->value = factor(DEEPEST);
    line->plain = !now.named;
}

static unsigned indexed(void)
{
    unsigned before = take('+') ? 0x280 : take('-') ? 0x300 : 0, number = reg(), after = 0;
    if (!before)
        after = take('+') ? 0x080 : take('-') ? 0x100 : 0;
    return before | after | number << 10;
}

static unsigned flags(void)
{
    struct word w = word();
    unsigned bits = 0;
    size_t i;
    need(w.length > 0);
    for (i = 0; i < w.length; i++) {
        const char *place = memchr("CZNSV", w.text[i], 5);
        unsigned bit = place ? 1u << (place - "CZNSV") : 0;
        need(bit && !(bits & bit));
        bits |= bit;
    }
    return bits;
}

/* An instruction that may have a suffix; 0 where the word is none. */
static int sized(struct line *line, struct word w, unsigned byte)
{
    unsigned form = byte << 6, mode;
    int op;
    line->kind = CODE;
    if ((op = find(w, alu)) >= 0) {
        const uint8_t *here;
        blanks();
        here = now.at;
        line->code = 0x4000 | (unsigned)op << 8 | form;
        if (is_register(word())) {
            now.at = here;
            line->code |= reg() << 3;
        } else {
            now.at = here;
            line->code |= 0x80;
            line->fit = CONSTANT;
            value(line);
        }
        need(take(','));
        line->code |= reg();
    } else if ((op = find(w, unary)) >= 0) {
        line->code = 0x4D00 | form | (unsigned)op << 3 | reg();
    } else if (same(w, "MOV", 3)) {
        line->code = 0x4C00 | form | reg() << 3;
        need(take(','));
        line->code |= reg();
    } else if (same(w, "LD", 2)) {
        mode = indexed();
        need(take(','));
        line->code = 0x5800 | form | (mode & 0x380) | mode >> 10 << 3 | reg();
    } else if (same(w, "ST", 2)) {
        line->code = 0x5C00 | form | reg() << 3;
        need(take(','));
        mode = indexed();
        line->code |= (mode & 0x380) | mode >> 10;
    } else if (same(w, "LDR", 3)) {
        line->fit = OFFSET;
        line->code = 0x8000 | form | reg() << 3;
        need(take(','));
        value(line);
        need(take(','));
        line->code |= reg();
    } else if (same(w, "STR", 3)) {
        line->fit = OFFSET;
        line->code = 0xC000 | form | reg() << 3;
        need(take(','));
        line->code |= reg();
        need(take(','));
        value(line);
    } else
        return 0;
    return 1;
}

static void one_value(struct line *line, enum kind kind)
{
    line->kind = kind;
    value(line);
}

static void coded(struct line *line, enum fit fit, unsigned code)
{
    line->fit = fit;
    line->code = code;
    value(line);
}

static void plain(struct line *line, struct word w)
{
    int op;
    if ((op = find(w, branch)) >= 0)
        coded(line, NEAR, 0x2000 | (unsigned)op / 2 << 10);
    else if ((op = find(w, moves)) >= 0) {
        coded(line, IMMEDIATE, 0x6000 | (unsigned)op << 11);
        line->high = op == 3;
        need(take(','));
        line->code |= reg();
    } else if (same(w, "BL", 2))
        coded(line, FAR, 0);
    else if (same(w, "SETPRI", 6))
        coded(line, LEVEL, 0x4D80);
    else if (same(w, "SVC", 3))
        coded(line, VECTOR, 0x4DA0);
    else if (same(w, "SETCC", 5))
        line->code = 0x4DC0 | flags();
    else if (same(w, "CLRCC", 5))
        line->code = 0x4DE0 | flags();
    else if (same(w, "SWPB", 4))
        line->code = 0x4D18 | reg();
    else if (same(w, "SXT", 3))
        line->code = 0x4D20 | reg();
    else if (same(w, "SWAP", 4)) {
        line->code = 0x4C80 | reg() << 3;
        need(take(','));
        line->code |= reg();
    } else if (same(w, "CEX", 3)) {
        op = find(word(), condition);
        need(op >= 0);
        need(take(','));
        coded(line, COUNTS, 0x5000 | (unsigned)(op < 0 ? 0 : op / 2) << 6);
        need(take(','));
        line->second = factor(DEEPEST);
    } else
        need(0);
}

static void statement(struct line *line, struct word w, int suffix)
{
    int directive = suffix < 0 ? find(w, "ORG EQU BSS BYTE WORD END") : -1;
    if (directive == 5)
        line->kind = END;
    else if (directive >= 0)
        one_value(line, (enum kind)(ORG + directive));
    else if (!sized(line, w, suffix > 0)) {
        need(suffix < 0);
        plain(line, w);
    }
    need(line->kind != EQU || line->name.length > 0);
}

/* Reads a line without its ending. */
static struct line read_line(const uint8_t *text, size_t length)
{
    struct line line;
    struct word w;
    int suffix = -1;
    const uint8_t *comment = length ? memchr(text, ';', length) : NULL;
    memset(&line, 0, sizeof line);
    memset(&now, 0, sizeof now);
    now.at = text;
    now.end = comment ? comment : text + length;
    w = word();
    if (w.length && !reserved(w)) {
        need(peek() != '.');
        line.name = w;
        w = word();
    }
    if (w.length) {
        if (peek() == '.') {
            now.at++;
            suffix = peek() == 'B' ? 1 : peek() == 'W' ? 0 : -1;
            need(suffix >= 0);
            now.at += suffix >= 0;
            need(!is_letter(peek()) && !is_digit(peek()));
        }
        statement(&line, w, suffix);
    }
    blanks();
    need(now.at == now.end);
    return line;
}

/* Whether a value is in its place; the word of an instruction is then whole. */
static int fits(struct line *line, int64_t place)
{
    static const int constants[] = {0, 1, 2, 4, 8, 16, 32, -1};
    int64_t v = line->value, whole = v >= -32768 && v <= 65535, distance = ((v - place - 2) % 65536 + 65536) % 65536;
    unsigned i;
    if (distance >= 32768)
        distance -= 65536;
    switch (line->fit) {
    case NONE:
        return 1;
    case CONSTANT:
        for (i = 0; i < 8 && constants[i] != v; i++)
            ;
        line->code |= (i & 7) << 3;
        return i < 8;
    case LEVEL:
    case VECTOR:
        line->code |= (unsigned)v & 15;
        return v >= 0 && v <= (line->fit == LEVEL ? 7 : 15);
    case COUNTS:
        line->code |= ((unsigned)v & 7) << 3 | ((unsigned)line->second & 7);
        return v >= 0 && v <= 7 && line->second >= 0 && line->second <= 7;
    case IMMEDIATE:
        line->code |= ((unsigned)(line->high && !line->plain ? v >> 8 : v) & 255) << 3;
        return line->plain ? v >= -128 && v <= 255 : (int)whole;
    case OFFSET:
        line->code |= ((unsigned)v & 127) << 7;
        return v >= -64 && v <= 63;
    default:
        i = line->fit == NEAR ? 512 : 4096;
        line->code |= (unsigned)(distance / 2) & (2 * i - 1);
        return whole && distance % 2 == 0 && distance / 2 >= -(int64_t)i && distance / 2 < (int64_t)i;
    }
}

static uint64_t refused(unsigned refusal, uint64_t line) { return refusal | line << 32; }

/* The next line of a source: where it starts is moved on, and its length without its ending given. */
static size_t next_line(const uint8_t *source, size_t length, size_t *at)
{
    size_t from = *at;
    const uint8_t *lf = memchr(source + from, '\n', length - from);
    size_t stop = lf ? (size_t)(lf - source) : length;
    *at = lf ? stop + 1 : length;
    return stop - from - (lf && stop > from && source[stop - 1] == '\r');
}

/* The end of the lines that are read, or the line at fault by 17. */
static uint64_t form(const uint8_t *source, size_t length, size_t *end)
{
    size_t at = 0, from;
    uint64_t number = 0;
    given = 0;
    while (at < length) {
        size_t many;
        struct line line;
        from = at;
        many = next_line(source, length, &at);
        number++;
        line = read_line(source + from, many);
        if (now.malformed)
            return number;
        if (line.kind == END) {
            *end = at;
            return 0;
        }
    }
    return number + 1;
}

/* Gives a line's name, or not: the table is full, or has it. */
static int give(struct word name, int64_t value)
{
    size_t i;
    for (i = 0; i < given; i++)
        if (same(name, (const char *)names[i].name.text, names[i].name.length))
            return 0;
    if (given == NAMES)
        return 0;
    names[given].name = name;
    names[given++].value = value;
    return 1;
}

struct faults {
    uint64_t name, place, value;
};

static void first(uint64_t *fault, int holds, uint64_t number)
{
    if (holds && (*fault == 0 || number < *fault))
        *fault = number;
}

static int64_t bytes_of(const struct line *line)
{
    return line->kind == BYTE ? 1 : line->kind == WORD || line->kind == CODE ? 2 : line->kind == BSS ? line->value : 0;
}

/* The record of a line at the end of the list, once its source is known to be without a fault. */
static struct {
    uint8_t *at;
    size_t many;
} list;

static void add_record(const struct line *line, int64_t place)
{
    static const uint8_t kinds[] = {0, 4, 5, 6, 2, 3, 7, 1};
    uint32_t shown = (uint32_t)(line->kind == EQU ? line->value : place);
    uint8_t *record = list.at + XM23_PLACE_SIZE * list.many++;
    record[0] = (uint8_t)shown;
    record[1] = (uint8_t)(shown >> 8);
    record[2] = (uint8_t)(shown >> 16);
    record[3] = (uint8_t)(shown >> 24);
    record[4] = kinds[line->kind];
    record[5] = line->kind == BSS ? 0 : (uint8_t)bytes_of(line);
    record[6] = line->name.length > 0;
    record[7] = 0;
}

/* One sweep over the lines up to END: names and places, or uses, or, where a memory is given, the image. */
static void sweep(const uint8_t *source, size_t end, int uses, uint8_t *memory, struct faults *faults)
{
    size_t at = 0;
    uint64_t number = 0;
    int64_t place = 0;
    while (at < end) {
        size_t from = at, many = next_line(source, end, &at);
        struct line line = read_line(source + from, many);
        int placing = line.kind == ORG || line.kind == EQU || line.kind == BSS;
        int negative = line.kind != EQU && line.value < 0;
        int past = bytes_of(&line) > 0 && place + bytes_of(&line) > XM23_MEMORY_SIZE;
        number++;
        if (!uses && placing) {
            first(&faults->name, now.unknown, number);
            first(&faults->place, now.outside || negative || (line.kind == BSS && past), number);
        }
        if (!uses && line.name.length) {
            int64_t value = line.kind == EQU ? line.value : place;
            first(&faults->place, value > INT32_MAX, number);
            first(&faults->name, !give(line.name, value), number);
        }
        if (uses && !placing) {
            int odd = (line.kind == WORD || line.kind == CODE) && place % 2, misfit = 0;
            if (line.kind == BYTE || line.kind == WORD)
                misfit = line.value < (line.kind == BYTE ? -128 : -32768) ||
                         line.value > (line.kind == BYTE ? 255 : 65535);
            if (line.kind == CODE)
                misfit = !fits(&line, place);
            first(&faults->name, now.unknown, number);
            first(&faults->value, now.outside || odd || past || misfit, number);
            if (memory && bytes_of(&line) > 0)
                memory[place] = (uint8_t)(line.kind == CODE ? line.code : (uint64_t)line.value);
            if (memory && bytes_of(&line) > 1)
                memory[place + 1] = (uint8_t)((line.kind == CODE ? line.code : (uint64_t)line.value) >> 8);
        }
        if (memory)
            add_record(&line, place);
        place = line.kind == ORG ? line.value : place + bytes_of(&line);
    }
}

static uint64_t assemble(uint8_t *memory, const uint8_t *source, size_t length)
{
    struct faults faults = {0, 0, 0};
    size_t end = 0;
    uint64_t fault = form(source, length, &end);
    if (fault)
        return refused(XM23_REFUSED_SOURCE_FORM, fault);
    sweep(source, end, 0, NULL, &faults);
    sweep(source, end, 1, NULL, &faults);
    if (faults.name)
        return refused(XM23_REFUSED_SOURCE_NAME, faults.name);
    if (faults.place || faults.value)
        return refused(XM23_REFUSED_SOURCE_VALUE, faults.place ? faults.place : faults.value);
    sweep(source, end, 1, memory, &faults);
    return XM23_ACCEPTED;
}

/* ---- beside the library */

static void must(int holds, const char *what, uint64_t got, uint64_t expected)
{
    if (!holds) {
        printf("%s: reply %016" PRIX64 ", judge %016" PRIX64 "\n", what, got, expected);
        fflush(stdout);
        abort();
    }
}

/* What xm23_places makes of a source in so many bytes, of a room that has more. */
static void listed(const uint8_t *data, size_t size, uint64_t right, size_t length)
{
    static uint8_t places[XM23_PLACE_SIZE * (LONGEST + 2)];
    size_t used = XM23_PLACE_SIZE * list.many, room = XM23_PLACE_SIZE * (size + 2);
    uint64_t wanted = right ? right : length < used ? XM23_REFUSED_ROOM : (uint64_t)list.many << 32, reply;
    memset(places, 0xEE, room);
    reply = xm23_places(data, size, places, length);
    must(reply == wanted, "places", reply, wanted);
    if (XM23_REFUSAL(wanted))
        used = 0;
    must(memcmp(places, list.at, used) == 0, "records", reply, wanted);
    for (; used < room; used++)
        must(places[used] == 0xEE, "past the records", reply, wanted);
}

int LLVMFuzzerTestOneInput(const uint8_t *data, size_t size)
{
    static uint8_t records[XM23_PLACE_SIZE * (LONGEST + 1)];
    static uint8_t ours[XM23_MEMORY_SIZE], theirs[XM23_MEMORY_SIZE];
    uint64_t reply, right;
    memset(ours, 0xEE, sizeof ours);
    memset(theirs, 0xEE, sizeof theirs);
    if (size > LONGEST)
        return 0;
    list.at = records;
    list.many = 0;
    right = assemble(theirs, data, size);
    reply = xm23_assemble(ours, sizeof ours, data, size);
#ifdef WRONG
    if (XM23_REFUSAL(reply) == XM23_REFUSED_SOURCE_VALUE)
        reply ^= 1;
#endif
    must(reply == right, "assemble", reply, right);
    must(memcmp(ours, theirs, sizeof ours) == 0, "memory", reply, right);
    listed(data, size, right, XM23_PLACE_SIZE * (size + 1));
    listed(data, size, right, XM23_PLACE_SIZE * list.many);
    listed(data, size, right, list.many ? XM23_PLACE_SIZE * list.many - 1 : 0);
    listed(data, size, right, 0);
    return 0;
}
