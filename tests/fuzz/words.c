/*
 * A target of libFuzzer: xm23_decode, xm23_encode, xm23_range, xm23_count, xm23_next and xm23_text beside a decoder, an
 * encoder and a printer in C, written from section 14's rows and compiled with the fuzzer's counters. The string is up
 * to eight bytes: an instruction's number, a word in the first two, its place in the next, a length in the last. Held
 * for each: the calls answer as the judge does; what encodes decodes to itself, and what decodes encodes to itself;
 * what is printed assembles to itself.
 */
#include <inttypes.h>
#include <stdio.h>
#include <stdlib.h>
#include <string.h>

#include "xm23.h"

int LLVMFuzzerTestOneInput(const uint8_t *data, size_t size);

/* ---- the judge: section 14, row by row */

/* A field of a format: how far it is from bit 0, and how many values it may have. */
struct field {
    uint8_t shift;
    uint16_t values;
};

/* A format: its opcode bits, its one-byte fields in order, and its offset of some bits, 0 for none. */
struct format {
    uint16_t opcode, many;
    struct field fields[6];
    uint8_t offset_shift, offset_bits;
};

#define SOURCE {3, 8}
#define DESTINATION {0, 8}
#define WIDTH {6, 2}
#define IGNORED {6, 2}

static const struct format formats[19] = {
    [XM23_FORMAT_BL] = {0x0000, 0, {{0, 0}}, 0, 13},
    [XM23_FORMAT_BRANCH] = {0x2000, 1, {{10, 8}}, 0, 10},
    [XM23_FORMAT_ALU] = {0x4000, 5, {{8, 12}, {7, 2}, WIDTH, SOURCE, DESTINATION}, 0, 0},
    [XM23_FORMAT_MOV] = {0x4C00, 3, {WIDTH, SOURCE, DESTINATION}, 0, 0},
    [XM23_FORMAT_SWAP] = {0x4C80, 3, {SOURCE, DESTINATION, IGNORED}, 0, 0},
    [XM23_FORMAT_UNARY] = {0x4D00, 3, {{3, 3}, WIDTH, DESTINATION}, 0, 0},
    [XM23_FORMAT_SWPB] = {0x4D18, 2, {DESTINATION, IGNORED}, 0, 0},
    [XM23_FORMAT_SXT] = {0x4D20, 2, {DESTINATION, IGNORED}, 0, 0},
    [XM23_FORMAT_SETPRI] = {0x4D80, 1, {{0, 8}}, 0, 0},
    [XM23_FORMAT_SVC] = {0x4DA0, 1, {{0, 16}}, 0, 0},
    [XM23_FORMAT_SETCC] = {0x4DC0, 1, {{0, 32}}, 0, 0},
    [XM23_FORMAT_CLRCC] = {0x4DE0, 1, {{0, 32}}, 0, 0},
    [XM23_FORMAT_CEX] = {0x5000, 3, {{6, 16}, {3, 8}, {0, 8}}, 0, 0},
    [XM23_FORMAT_LD] = {0x5800, 6, {{9, 2}, {8, 2}, {7, 2}, WIDTH, SOURCE, DESTINATION}, 0, 0},
    [XM23_FORMAT_ST] = {0x5C00, 6, {{9, 2}, {8, 2}, {7, 2}, WIDTH, SOURCE, DESTINATION}, 0, 0},
    [XM23_FORMAT_MOVIMM] = {0x6000, 3, {{11, 4}, {3, 256}, DESTINATION}, 0, 0},
    [XM23_FORMAT_LDR] = {0x8000, 3, {WIDTH, SOURCE, DESTINATION}, 7, 7},
    [XM23_FORMAT_STR] = {0xC000, 3, {WIDTH, SOURCE, DESTINATION}, 7, 7},
};

/* The words of a format begin where its row says; each row ends where the next begins. */
static const struct {
    uint16_t first;
    uint8_t format;
} rows[] = {
    {0x0000, XM23_FORMAT_BL},      {0x2000, XM23_FORMAT_BRANCH},  {0x4000, XM23_FORMAT_ALU},
    {0x4C00, XM23_FORMAT_MOV},     {0x4C80, XM23_FORMAT_SWAP},    {0x4D00, XM23_FORMAT_UNARY},
    {0x4D18, XM23_FORMAT_SWPB},    {0x4D20, XM23_FORMAT_SXT},     {0x4D28, XM23_FORMAT_ILLEGAL},
    {0x4D40, XM23_FORMAT_UNARY},   {0x4D58, XM23_FORMAT_SWPB},    {0x4D60, XM23_FORMAT_SXT},
    {0x4D68, XM23_FORMAT_ILLEGAL}, {0x4D80, XM23_FORMAT_SETPRI},  {0x4D88, XM23_FORMAT_ILLEGAL},
    {0x4DA0, XM23_FORMAT_SVC},     {0x4DB0, XM23_FORMAT_ILLEGAL}, {0x4DC0, XM23_FORMAT_SETCC},
    {0x4DE0, XM23_FORMAT_CLRCC},   {0x4E00, XM23_FORMAT_ILLEGAL}, {0x5000, XM23_FORMAT_CEX},
    {0x5400, XM23_FORMAT_ILLEGAL}, {0x5800, XM23_FORMAT_LD},      {0x5C00, XM23_FORMAT_ST},
    {0x6000, XM23_FORMAT_MOVIMM},  {0x8000, XM23_FORMAT_LDR},     {0xC000, XM23_FORMAT_STR},
};

static uint8_t format_of(uint16_t word)
{
    size_t i = sizeof rows / sizeof *rows - 1;
    while (rows[i].first > word)
        i--;
    return rows[i].format;
}

/* The least power of two that is no less: a field of 3 or 12 values has 2 or 4 bits. */
static unsigned mask_of(unsigned values)
{
    unsigned power = 1;
    while (power < values)
        power *= 2;
    return power - 1;
}

static uint64_t judge_decode(uint16_t word)
{
    uint8_t format = format_of(word);
    const struct format *f = &formats[format];
    uint64_t number = format;
    for (unsigned i = 0; i < f->many; i++)
        number |= XM23_PUT_FIELD(1 + i, word >> f->fields[i].shift & mask_of(f->fields[i].values));
    if (f->offset_bits) {
        int sign = 1 << (f->offset_bits - 1), bits = word >> f->offset_shift & (2 * sign - 1);
        number |= XM23_PUT_OFFSET((bits ^ sign) - sign);
    }
    return number;
}

/* Counters that libFuzzer reads beside those of the branches: for each format, the byte that is refused, 0 for none. */
__attribute__((section("__libfuzzer_extra_counters"))) static volatile uint8_t verdicts[19][8];

static uint32_t refused(unsigned format, unsigned byte)
{
    verdicts[format][byte] = 1;
    return XM23_REFUSED_INSTRUCTION;
}

/* The first byte from `i` up to `end` that is not 0, or `end`. */
static unsigned first_used(uint64_t number, unsigned i, unsigned end)
{
    while (i < end && !XM23_FIELD(number, i))
        i++;
    return i;
}

static uint32_t judge_encode(uint64_t number)
{
    unsigned id = XM23_FORMAT(number), end, byte, word;
    const struct format *f;
    if (id == XM23_FORMAT_ILLEGAL || id > XM23_FORMAT_STR)
        return XM23_REFUSED_INSTRUCTION;
    f = &formats[id];
    word = f->opcode;
    for (unsigned i = 0; i < f->many; i++) {
        unsigned value = XM23_FIELD(number, 1 + i);
        if (value >= f->fields[i].values)
            return refused(id, 1 + i);
        word |= value << f->fields[i].shift;
    }
    end = f->offset_bits ? 6 : 8;
    byte = first_used(number, 1 + f->many, end);
    if (byte < end)
        return refused(id, byte);
    if (f->offset_bits) {
        int half = 1 << (f->offset_bits - 1), offset = XM23_OFFSET(number);
        if (offset < -half || offset >= half)
            return refused(id, 7);
        word |= ((unsigned)offset & (2 * (unsigned)half - 1)) << f->offset_shift;
    }
    verdicts[id][0] = 1;
    return (uint32_t)word << 16;
}

/* The operation of a word: the number of its format's first one, and the field that tells several apart. */
static unsigned judge_operation(uint16_t word)
{
    static const uint8_t first[19] = {0, 1, 2, 10, 22, 23, 24, 27, 28, 29, 30, 31, 32, 33, 34, 35, 36, 40, 41};
    uint64_t number = judge_decode(word);
    unsigned format = XM23_FORMAT(number);
    int several = format == XM23_FORMAT_BRANCH || format == XM23_FORMAT_ALU || format == XM23_FORMAT_UNARY ||
                  format == XM23_FORMAT_MOVIMM;
    return first[format] + (several ? XM23_FIELD(number, 1) : 0);
}

/* The range around each word, from neighbour to neighbour, worked out once. */
static uint64_t judge_range(uint16_t word)
{
    static uint16_t firsts[65536], lasts[65536];
    static uint8_t operations[65536];
    if (!lasts[0]) {
        for (int w = 0; w < 65536; w++) {
            operations[w] = (uint8_t)judge_operation((uint16_t)w);
            firsts[w] = w && operations[w] == operations[w - 1] ? firsts[w - 1] : (uint16_t)w;
        }
        for (int w = 65535; w >= 0; w--)
            lasts[w] = w < 65535 && operations[w] == operations[w + 1] ? lasts[w + 1] : (uint16_t)w;
    }
    return (uint64_t)operations[word] << 8 | (uint64_t)firsts[word] << 16 | (uint64_t)lasts[word] << 32;
}

/* The words of each operation, counted once. */
static uint32_t judge_count(uint32_t operation)
{
    static uint32_t counts[256];
    if (!counts[0])
        for (int w = 0; w < 65536; w++)
            counts[judge_range((uint16_t)w) >> 8 & 0xFF]++;
    return operation < 256 ? counts[operation] << 8 : 0;
}

/* The next word of an operation, from range to range. */
static uint64_t judge_next(uint32_t operation, uint32_t word)
{
    while (operation && word < 65536) {
        uint64_t range = judge_range((uint16_t)word);
        if ((range >> 8 & 0xFF) == operation)
            return 1 << 8 | (uint64_t)word << 16;
        word = (uint32_t)(range >> 32) + 1;
    }
    return 0;
}

/* Adds a register with its adjustment; 0 where there is no notation for it. */
static int judge_address(char *text, uint64_t number, unsigned reg)
{
    static const char *const forms[8] = {"%s", "%s+", "%s-", NULL, NULL, "+%s", "-%s", NULL};
    static const char *const names[8] = {"R0", "R1", "R2", "R3", "R4", "LR", "SP", "PC"};
    const char *form = forms[4 * XM23_FIELD(number, 1) + 2 * XM23_FIELD(number, 2) + XM23_FIELD(number, 3)];
    return form && sprintf(text, form, names[reg]);
}

/* The operands of an instruction; 0 where it has no notation. */
static int judge_operands(char *text, uint64_t number, uint16_t word, unsigned place)
{
    static const char *const names[8] = {"R0", "R1", "R2", "R3", "R4", "LR", "SP", "PC"};
    static const char *const constants[8] = {"#0", "#1", "#2", "#4", "#8", "#16", "#32", "#-1"};
    static const char conditions[] = "EQNECSCCMIPLVSVCHILSGELTGTLETRFL";
    const char *src = names[word >> 3 & 7], *dst = names[word & 7];
    char address[8];
    int offset = XM23_OFFSET(number);
    switch (XM23_FORMAT(number)) {
    case XM23_FORMAT_ILLEGAL: return 0;
    case XM23_FORMAT_BL:
    case XM23_FORMAT_BRANCH:
        return place % 2 == 0 && sprintf(text, "$%04X", (place + 2 + 2 * (unsigned)offset) & 0xFFFF);
    case XM23_FORMAT_ALU: return sprintf(text, "%s,%s", word & 0x80 ? constants[word >> 3 & 7] : src, dst);
    case XM23_FORMAT_MOV: return sprintf(text, "%s,%s", src, dst);
    case XM23_FORMAT_SWAP: return !(word & 0x40) && sprintf(text, "%s,%s", src, dst);
    case XM23_FORMAT_UNARY: return sprintf(text, "%s", dst);
    case XM23_FORMAT_SWPB:
    case XM23_FORMAT_SXT: return !(word & 0x40) && sprintf(text, "%s", dst);
    case XM23_FORMAT_SETPRI:
    case XM23_FORMAT_SVC: return sprintf(text, "#%u", XM23_FIELD(number, 1));
    case XM23_FORMAT_SETCC:
    case XM23_FORMAT_CLRCC:
        return sprintf(text, "%s%s%s%s%s", word & 16 ? "V" : "", word & 8 ? "S" : "", word & 4 ? "N" : "",
                       word & 2 ? "Z" : "", word & 1 ? "C" : "");
    case XM23_FORMAT_CEX:
        return sprintf(text, "%.2s,#%u,#%u", conditions + 2 * XM23_FIELD(number, 1), word >> 3 & 7u, word & 7u);
    case XM23_FORMAT_LD: return judge_address(address, number, word >> 3 & 7) && sprintf(text, "%s,%s", address, dst);
    case XM23_FORMAT_ST: return judge_address(address, number, word & 7) && sprintf(text, "%s,%s", src, address);
    case XM23_FORMAT_MOVIMM: return sprintf(text, "$%02X,%s", word >> 3 & 0xFFu, dst);
    case XM23_FORMAT_LDR: return sprintf(text, "%s,#%d,%s", src, offset, dst);
    default: return sprintf(text, "%s,%s,#%d", src, dst, offset);
    }
}

/* The text of a word at a place: its length. */
static size_t judge_text(char *text, uint16_t word, unsigned place)
{
    static const char *const mnemonics[42] = {
        "",    "BL",  "BEQ", "BNE", "BC",  "BNC",  "BN",  "BGE", "BLT", "BRA",  "ADD",  "ADDC", "SUB",    "SUBC",
        "DADD", "CMP", "XOR", "AND", "OR",  "BIT",  "BIC", "BIS", "MOV", "SWAP", "SRA",  "RRC",  "COMP",   "SWPB",
        "SXT", "SETPRI", "SVC", "SETCC", "CLRCC", "CEX", "LD", "ST", "MOVL", "MOVLZ", "MOVLS", "MOVH", "LDR", "STR"};
    uint64_t number = judge_decode(word);
    unsigned format = XM23_FORMAT(number);
    int sized = format == XM23_FORMAT_ALU || format == XM23_FORMAT_MOV || format == XM23_FORMAT_UNARY ||
                (format >= XM23_FORMAT_LD && format != XM23_FORMAT_MOVIMM);
    char operands[24];
    if (!judge_operands(operands, number, word, place))
        return (size_t)sprintf(text, "WORD $%04X", (unsigned)word);
    return (size_t)sprintf(text, "%s%s %s", mnemonics[judge_operation(word)], sized && word & 0x40 ? ".B" : "",
                           operands);
}

/* ---- what is held */

static void check(const char *what, uint64_t given, uint64_t got, uint64_t expected)
{
    if (got == expected)
        return;
    fprintf(stderr, "%s %016" PRIX64 ": %016" PRIX64 ", expected %016" PRIX64 "\n", what, given, got, expected);
    abort();
}

static void check_word(uint16_t word)
{
    uint64_t number = xm23_decode(word);
    uint32_t back = (uint32_t)word << 16;
    check("decoding", word, number, judge_decode(word));
    check("the range around", word, xm23_range(word), judge_range(word));
    check("encoding what was decoded from", word, xm23_encode(number), number ? back : XM23_REFUSED_INSTRUCTION);
}

static void check_number(uint64_t number)
{
    uint32_t reply = xm23_encode(number);
    check("encoding", number, reply, judge_encode(number));
    if (XM23_REFUSAL(reply) == XM23_ACCEPTED)
        check("decoding what was encoded from", number, xm23_decode(XM23_ENCODED(reply)), number);
}

static void check_list(uint32_t operation, uint32_t word)
{
    check("the words of", operation, xm23_count(operation), judge_count(operation));
    check("the next word of", (uint64_t)operation << 32 | word, xm23_next(operation, word),
          judge_next(operation, word));
}

/* A text in a buffer of some bytes; and assembled again, at an even place. */
static void check_text(uint16_t word, uint16_t place, size_t room)
{
    static uint8_t memory[XM23_MEMORY_SIZE];
    char expected[80], source[80];
    uint8_t text[32];
    size_t length = judge_text(expected, word, place), i;
    uint64_t given = (uint64_t)room << 32 | (uint64_t)place << 16 | word;
    int fits = room >= XM23_TEXT_SIZE;
    memset(text, 0xA5, sizeof text);
    check("text of", given, xm23_text(word, place, text, room), fits ? length << 8 : XM23_REFUSED_ROOM);
    for (i = 0; i < sizeof text; i++)
        check("a byte of the text of", given, text[i], fits && i < length ? (uint8_t)expected[i] : 0xA5);
    if (place % 2)
        return;
    snprintf(source, sizeof source, "ORG $%04X\n%s\nEND\n", (unsigned)place, expected);
    check("assembling", given, xm23_assemble(memory, sizeof memory, (const uint8_t *)source, strlen(source)), 0);
    check("what was assembled of", given, memory[place] | (uint64_t)memory[place + 1] << 8, word);
}

int LLVMFuzzerTestOneInput(const uint8_t *data, size_t size)
{
    uint64_t number = 0;
    for (size_t i = 0; i < size && i < 8; i++)
        number |= (uint64_t)data[i] << 8 * i;
    check_word((uint16_t)number);
    check_text((uint16_t)number, (uint16_t)(number >> 16), number >> 56 & 31);
    check_text((uint16_t)number, (uint16_t)(number >> 16), 24 + (number >> 56 & 7));
    check_number(number);
    check_list((uint32_t)(number >> 32), (uint32_t)number);
    check_list((uint32_t)(number >> 32) % 44, (uint32_t)number % 66000);
    return 0;
}
