/*
 * xm23 card: the reference card of the XM-23 as one page of HTML, for a screen and for A4 paper.
 *
 * A row for each operation: the bits of its words, how to write it, how many words mean it, which flags it changes and
 * an example. Names stand here; all else, texts too, is asked of the library. The bits that vary are those in which an
 * operation's words differ, and a field is the byte of the decoded number that such a bit changes; flags are those that
 * runs of the operation on a range of states have changed; the example is a run of one step.
 */
#include <stdio.h>
#include <stdlib.h>
#include <string.h>
#include <unistd.h>

#include "desk.h"
#include "file.h"
#include "machine.h"
#include "word.h"

#define START 0x1000 /* where the instruction stands */
#define PLACE 0x2000 /* where memory is looked at */

enum { C = XM23_FLAG_C, Z = XM23_FLAG_Z, N = XM23_FLAG_N, V = XM23_FLAG_V };

/* What is shown of a state beside the registers that the example names and the flags that it changes. */
enum { REGISTERS = 1, FLAGS = 2, TARGET = 4, LINK = 8, MEMORY = 16, LEVEL = 32, STACK = 64, COUNTS = 128 };

/* An operation: how it is written; and its example: low bits of its word, R0, R1, PSW before, what is shown. */
struct operation {
    const char *name, *operands;
    uint16_t low, r0, r1, psw;
    unsigned shown;
};

static const struct operation operations[] = {
    {"illegal", "", 0, 0, 0, 0, 0},
    {"BL", "target", 2, 0, 0, 0, TARGET | LINK},
    {"BEQ", "target", 2, 0, 0, Z, FLAGS | TARGET},
    {"BNE", "target", 2, 0, 0, Z, FLAGS | TARGET},
    {"BC", "target", 2, 0, 0, C, FLAGS | TARGET},
    {"BNC", "target", 2, 0, 0, C, FLAGS | TARGET},
    {"BN", "target", 2, 0, 0, N, FLAGS | TARGET},
    {"BGE", "target", 2, 0, 0, N | V, FLAGS | TARGET},
    {"BLT", "target", 2, 0, 0, N, FLAGS | TARGET},
    {"BRA", "target", 2, 0, 0, 0, TARGET},
    {"ADD", "src,dst", 1, 0x0001, 0x7FFF, 0, REGISTERS | FLAGS},
    {"ADDC", "src,dst", 1, 0x00FF, 0x1200, C, REGISTERS | FLAGS},
    {"SUB", "src,dst", 1, 0x0003, 0x0002, 0, REGISTERS | FLAGS},
    {"SUBC", "src,dst", 1, 0x0003, 0x0005, 0, REGISTERS | FLAGS},
    {"DADD", "src,dst", 1, 0x0199, 0x2801, 0, REGISTERS | FLAGS},
    {"CMP", "src,dst", 1, 0x0005, 0x0005, 0, REGISTERS | FLAGS},
    {"XOR", "src,dst", 1, 0x0FF0, 0x00FF, 0, REGISTERS | FLAGS},
    {"AND", "src,dst", 1, 0x0FF0, 0x00FF, 0, REGISTERS | FLAGS},
    {"OR", "src,dst", 1, 0x8FF0, 0x00FF, 0, REGISTERS | FLAGS},
    {"BIT", "src,dst", 1, 0x0100, 0x00FF, 0, REGISTERS | FLAGS},
    {"BIC", "bit,dst", 1, 0x0004, 0x00FF, 0, REGISTERS | FLAGS},
    {"BIS", "bit,dst", 1, 0x000F, 0x00FF, 0, REGISTERS | FLAGS},
    {"MOV", "src,dst", 1, 0x1234, 0xABCD, 0, REGISTERS},
    {"SWAP", "src,dst", 1, 0x1234, 0xABCD, 0, REGISTERS},
    {"SRA", "dst", 1, 0, 0x8003, 0, REGISTERS | FLAGS},
    {"RRC", "dst", 1, 0, 0x0002, C, REGISTERS | FLAGS},
    {"COMP", "dst", 1, 0, 0x0F0F, 0, REGISTERS | FLAGS},
    {"SWPB", "dst", 1, 0, 0x1234, 0, REGISTERS | FLAGS},
    {"SXT", "dst", 1, 0, 0x1280, 0, REGISTERS | FLAGS},
    {"SETPRI", "level", 2, 0, 0, 5 << 5, LEVEL},
    {"SVC", "vector", 3, 0, 0, 0, TARGET | STACK | LEVEL},
    {"SETCC", "flags", V | C, 0, 0, 0, FLAGS},
    {"CLRCC", "flags", N | Z, 0, 0, V | N | Z | C, FLAGS},
    {"CEX", "cond,true,false", 0x0A, 0, 0, Z, FLAGS | COUNTS},
    {"LD", "address,dst", 0x81, PLACE, 0x0000, 0, REGISTERS | MEMORY},
    {"ST", "src,address", 0x301, 0x1234, PLACE + 2, 0, REGISTERS | MEMORY},
    {"MOVL", "byte,dst", 0x401, 0, 0x1234, 0, REGISTERS},
    {"MOVLZ", "byte,dst", 0x401, 0, 0x1234, 0, REGISTERS},
    {"MOVLS", "byte,dst", 0x401, 0, 0x1234, 0, REGISTERS},
    {"MOVH", "byte,dst", 0x401, 0, 0x1234, 0, REGISTERS},
    {"LDR", "addr,offset,dst", 0x201, PLACE - 4, 0x0000, 0, REGISTERS | MEMORY},
    {"STR", "src,addr,offset", 0x3F01, 0x1234, PLACE + 2, 0, REGISTERS | MEMORY},
};

/* The fields of each format, in the order of its number's bytes; the offset has bytes 6 and 7 to itself. */
static const char *const fields[][6] = {
    {""}, {""}, {"condition"}, {"operation", "r", "w", "src", "dst"}, {"w", "src", "dst"},
    {"src", "dst", "&middot;"}, {"operation", "w", "dst"}, {"dst", "&middot;"}, {"dst", "&middot;"},
    {"level"}, {"vector"}, {"V S N Z C"}, {"V S N Z C"}, {"condition", "true", "false"},
    {"p", "d", "i", "w", "src", "dst"}, {"p", "d", "i", "w", "src", "dst"}, {"operation", "byte", "dst"},
    {"w", "src", "dst"}, {"w", "src", "dst"},
};

static struct machine machine;
static uint8_t *const memory = machine.memory, *const record = machine.record;
static struct text *page;

static uint16_t first_word(unsigned operation)
{
    return XM23_NEXT_WORD(xm23_next(operation, 0));
}

/* A machine that stands before one instruction. Vector 3 has priority 6 and leads to #4000. */
static void prepare(uint16_t word, uint16_t r0, uint16_t r1, uint16_t psw)
{
    memset(&machine, 0, sizeof machine);
    put_word(memory, START, word);
    put_word(memory, PLACE, 0xABCD);
    put_word(memory, 0xFFC0 + 4 * 3, 6 << 5);
    put_word(memory, 0xFFC0 + 4 * 3 + 2, 0x4000);
    put_word(record, XM23_RECORD_REGISTER(0), r0);
    put_word(record, XM23_RECORD_REGISTER(1), r1);
    put_word(record, XM23_RECORD_REGISTER(6), 0x8000);
    put_word(record, XM23_RECORD_REGISTER(7), START);
    put_word(record, XM23_RECORD_PSW, psw);
}

static void step(void)
{
    static const struct paper none;
    struct outcome o = {0};
    run_machine(&machine, &none, 1, &o);
    if (o.refusal != XM23_ACCEPTED) {
        say_text("card: %s", xm23_refusal_text(o.refusal));
        exit(REFUSED);
    }
}

/* ---- bits */

/* The bits in which the operation's words differ. */
static unsigned varying(unsigned operation)
{
    unsigned bits = 0;
    uint64_t reply;
    for (uint32_t word = 0; XM23_NEXT_FOUND(reply = xm23_next(operation, word)); word = XM23_NEXT_WORD(reply) + 1u)
        bits |= XM23_NEXT_WORD(reply) ^ first_word(operation);
    return bits;
}

/* The field that a bit is of, as the byte of the decoded number that it changes. */
static const char *field(unsigned operation, unsigned bit)
{
    uint64_t a = xm23_decode(first_word(operation)), b = xm23_decode((uint16_t)(first_word(operation) ^ 1u << bit));
    unsigned format = XM23_FORMAT(a), byte = 1;
    while (byte < 7 && XM23_FIELD(a, byte) == XM23_FIELD(b, byte))
        byte++;
    if (byte > 5 && format != XM23_FORMAT_LD && format != XM23_FORMAT_ST)
        return "offset";
    return fields[format][byte - 1];
}

static void bits(unsigned operation)
{
    unsigned vary = varying(operation);
    for (int bit = 15; bit >= 0;) {
        const char *name = vary >> bit & 1 ? field(operation, (unsigned)bit) : NULL;
        int end = bit - 1;
        if (!name) {
            addf(page, "<td class=fixed>%u</td>", first_word(operation) >> bit & 1u);
        } else {
            while (end >= 0 && vary >> end & 1 && field(operation, (unsigned)end) == name)
                end--;
            addf(page, "<td class=field colspan=%d>%s</td>", bit - end, name);
        }
        bit = end;
    }
}

/* ---- flags */

/*
 * Those that runs of the operation have changed: up to 65 of its words, each on ten pairs of values and sixteen
 * settings of the flags. A step that ends in a fault is no work of the operation.
 */
static unsigned flags_changed(unsigned operation)
{
    static const uint16_t values[] = {0x0000, 0x0001, 0x0002, 0x7FFF, 0x8000, 0xFFFE, 0x9999, 0x1234, 0x00FE, 0x8080};
    unsigned changed = 0, words = XM23_COUNT(xm23_count(operation)), stride = words / 64 + 1;
    uint64_t reply;
    for (uint32_t word = 0; XM23_NEXT_FOUND(reply = xm23_next(operation, word)); word = XM23_NEXT_WORD(reply) + stride)
        for (unsigned i = 0; i < sizeof values / sizeof *values; i++)
            for (unsigned psw = 0; psw < 32; psw++) {
                if (psw & XM23_FLAG_SLP)
                    continue;
                prepare(XM23_NEXT_WORD(reply), values[i], values[(i * 7 + psw) % (sizeof values / sizeof *values)],
                        (uint16_t)psw);
                step();
                if (!(get_word(record, XM23_RECORD_PSW) & XM23_PSW_FLT))
                    changed |= get_word(record, XM23_RECORD_PSW) ^ psw;
            }
    return changed;
}

static void flags(unsigned operation)
{
    unsigned changed = flags_changed(operation);
    addf(page, "<td class=flags>");
    for (int bit = 4; bit >= 0; bit--)
        if (bit != 3 || changed & XM23_FLAG_SLP)
            addf(page, "<i class=%s>%c</i>", changed >> bit & 1 ? "on" : "off", "CZNSV"[bit]);
    addf(page, "</td>");
}

/* ---- examples */

/* The parts of a state that an example shows, each as text. */
struct shown {
    unsigned many;
    char part[8][24];
};

static void put_part(struct shown *s, const char *name, unsigned value)
{
    snprintf(s->part[s->many++], sizeof s->part[0], "%s %04X", name, value);
}

static struct shown look(const struct operation *o, const struct text *text)
{
    struct shown s = {0, {{0}}};
    unsigned psw = get_word(record, XM23_RECORD_PSW), cex = get_word(record, XM23_RECORD_CEX);
    if (o->shown & REGISTERS && strstr(text->at, "R0"))
        put_part(&s, "R0", get_word(record, XM23_RECORD_REGISTER(0)));
    if (o->shown & REGISTERS)
        put_part(&s, "R1", get_word(record, XM23_RECORD_REGISTER(1)));
    if (o->shown & MEMORY)
        put_part(&s, "[2000]", get_word(memory, PLACE));
    if (o->shown & TARGET)
        put_part(&s, "PC", get_word(record, XM23_RECORD_REGISTER(7)));
    if (o->shown & LINK)
        put_part(&s, "LR", get_word(record, XM23_RECORD_REGISTER(5)));
    if (o->shown & STACK)
        put_part(&s, "SP", get_word(record, XM23_RECORD_REGISTER(6)));
    if (o->shown & LEVEL)
        snprintf(s.part[s.many++], sizeof s.part[0], "level %u", XM23_PSW_CURRENT(psw));
    if (o->shown & COUNTS)
        snprintf(s.part[s.many++], sizeof s.part[0], "counts %u,%u", XM23_CEX_STATE_TRUE(cex),
                 XM23_CEX_STATE_FALSE(cex));
    if (o->shown & FLAGS)
        snprintf(s.part[s.many++], sizeof s.part[0], "%c%c%c%c", psw & V ? 'V' : '-', psw & N ? 'N' : '-',
                 psw & Z ? 'Z' : '-', psw & C ? 'C' : '-');
    return s;
}

/* Prints a state; what is another than before is bold. */
static void show(const struct shown *s, const struct shown *before)
{
    addf(page, "<td class=state>");
    for (unsigned i = 0; i < s->many; i++)
        addf(page, strcmp(s->part[i], before->part[i]) ? "<b>%s</b> " : "<span>%s</span> ", s->part[i]);
    addf(page, "</td>");
}

static void example(unsigned operation)
{
    const struct operation *o = &operations[operation];
    uint16_t word = (uint16_t)(first_word(operation) | o->low);
    struct text text = {0};
    struct shown before, after;
    add_statement(&text, START, word);
    prepare(word, o->r0, o->r1, o->psw);
    before = look(o, &text);
    step();
    after = look(o, &text);
    addf(page, "<td class=example>%s</td><td class=word>%04X</td>", text.at, word);
    show(&before, &before);
    show(&after, &before);
    drop_text(&text);
}

/* ---- the page */

static void head(void)
{
    addf(page, "<!DOCTYPE html>\n<html lang=en>\n<head>\n<meta charset=utf-8>\n<title>XM-23 reference card</title>\n"
           "<style>\n"
           "@page { size: A4; margin: 8mm; }\n"
           "body { font: 9px/1.2 'DejaVu Sans', Verdana, sans-serif; color: #111; background: #fff; }\n"
           "body { margin: 0 auto; width: 194mm; }\n"
           "@media screen { body { zoom: 1.35; padding: 5mm 0; } }\n"
           "h1 { font-size: 18px; margin: 0 0 1mm; }\n"
           "p { margin: 1.2mm 0 0; }\n"
           "table { border-collapse: collapse; width: 194mm; table-layout: fixed; }\n"
           "th { text-align: left; padding: 1px 3px; vertical-align: bottom; border-bottom: 1px solid #111; }\n"
           "th.bit { text-align: center; font-weight: normal; padding: 1px 0; }\n"
           "td { padding: 0 3px; height: 5.7mm; border-bottom: 1px solid #ccc; white-space: nowrap; }\n"
           "td.fixed, td.field { border: 1px solid #555; text-align: center; padding: 0; }\n"
           "td.fixed { font-weight: bold; }\n"
           "td.field { background: #e8eef6; font-size: 8px; }\n"
           "td.field { -webkit-print-color-adjust: exact; print-color-adjust: exact; }\n"
           "td.name b { font-size: 10px; }\n"
           "td.name span { color: #333; font-size: 7.8px; }\n"
           "td.count, th.count { text-align: right; }\n"
           "td.flags i { font-style: normal; padding-right: 2px; }\n"
           "td.flags i.on { font-weight: bold; }\n"
           "td.flags i.off { color: #bbb; }\n"
           "td.example, td.word, td.state { font-family: 'DejaVu Sans Mono', monospace; font-size: 7.6px; }\n"
           "td.example, th.example { border-left: 2px solid #111; }\n"
           "td.word { color: #444; }\n"
           "td.state { white-space: normal; line-height: 1.15; }\n"
           "td.state b, td.state span { white-space: nowrap; }\n"
           "</style>\n</head>\n<body>\n<h1>XM-23 reference card</h1>\n");
}

/* The columns' widths: operation, sixteen bits, and in tenths of a millimetre the rest. */
static void columns(void)
{
    static const int rest[] = {115, 130, 235, 90, 275, 275};
    addf(page, "<colgroup><col style=\"width: 26.0mm\">");
    for (int bit = 15; bit >= 0; bit--)
        addf(page, "<col style=\"width: 3.5mm\">");
    for (unsigned i = 0; i < sizeof rest / sizeof *rest; i++)
        addf(page, "<col style=\"width: %d.%dmm\">", rest[i] / 10, rest[i] % 10);
    addf(page, "</colgroup>\n");
}

static void rows(void)
{
    addf(page, "<table>\n");
    columns();
    addf(page, "<thead><tr><th>Operation</th>");
    for (int bit = 15; bit >= 0; bit--)
        addf(page, "<th class=bit>%d</th>", bit);
    addf(page, "<th class=count>Words</th><th>Flags</th><th class=example>Example</th><th>Word</th><th>before</th>"
           "<th>after</th></tr></thead>\n<tbody>\n");
    for (unsigned o = XM23_OPERATION_BL; o <= XM23_OPERATION_STR; o++) {
        addf(page, "<tr><td class=name><b>%s</b> <span>%s</span></td>", operations[o].name, operations[o].operands);
        bits(o);
        addf(page, "<td class=count>%u</td>", XM23_COUNT(xm23_count(o)));
        flags(o);
        example(o);
        addf(page, "</tr>\n");
    }
    addf(page, "</tbody>\n</table>\n");
}

static void legend(void)
{
    addf(page, "<p><b>w</b> 0 word, 1 byte: the name ends in .B. <b>r</b> 0 register, 1 constant: src 0 to 7 is "
           "#0 #1 #2 #4 #8 #16 #32 #-1. <b>&middot;</b> is ignored.\n"
           "Registers 0 to 7: R0 R1 R2 R3 R4 LR SP PC. <b>p d i</b> of LD and ST: 001 R+, 010 R-, 101 +R, 110 -R.\n"
           "Conditions of CEX, 0 to 15: EQ NE CS CC MI PL VS VC HI LS GE LT GT LE TR FL. "
           "Target: the branch's own address, plus 2, plus twice the offset.\n"
           "In examples: numbers in base sixteen, [2000] the word at that address, a flag's letter where it is set, "
           "bold what the step changes. In statements $ base sixteen, # base ten.</p>\n");
}

/* The ranges of words that mean nothing, from range to range. */
static void illegal(void)
{
    uint32_t word = 0;
    unsigned many = 0, version = xm23_version();
    addf(page, "<p class=illegal><b>Illegal</b>, %u words:", XM23_COUNT(xm23_count(XM23_OPERATION_ILLEGAL)));
    while (word < 65536) {
        uint64_t reply = xm23_range((uint16_t)word);
        if (XM23_RANGE_OPERATION(reply) == XM23_OPERATION_ILLEGAL)
            addf(page, "%s<span>%04X-%04X</span>", many++ ? ", " : " ", XM23_RANGE_FIRST(reply),
                XM23_RANGE_LAST(reply));
        word = XM23_RANGE_LAST(reply) + 1u;
    }
    addf(page, ". Words, bits, flags and examples are what the proved machine, version %u.%u.%u, answers.</p>\n",
           version >> 16, version >> 8 & 0xFF, version & 0xFF);
}

static int add_card(struct text *to)
{
    uint32_t sum = 0;
    for (unsigned o = XM23_OPERATION_ILLEGAL; o <= XM23_OPERATION_STR; o++)
        sum += XM23_COUNT(xm23_count(o));
    if (sum != 65536) {
        say_text("card: the counts add up to %lu", (unsigned long)sum);
        return 0;
    }
    page = to;
    head();
    rows();
    legend();
    illegal();
    addf(page, "</body>\n</html>\n");
    return 1;
}

int xm23_desk_card(int argc, char **argv)
{
    struct text t = {0};
    const char *to = "-";
    int option, status;
    while ((option = getopt(argc, argv, "+:o:")) != -1) {
        if (option != 'o')
            return wrong_option("card", option, NULL);
        to = optarg;
    }
    if (argc != optind)
        return wrong_words("card", argc - optind, argv + optind, 0);
    status = add_card(&t) ? write_file(to, &t) : REFUSED;
    drop_text(&t);
    return status;
}
