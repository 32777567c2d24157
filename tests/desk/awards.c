/*
 * The one comparison of awards and what stands around it, over desk/award.c alone: a table of relations, of what is
 * found and of what is wanted; each subject at the ends of its range; sums of points. The last line is 'N passed, M
 * failed'.
 */
#include <stdio.h>
#include <string.h>

#include "../../desk/award.h"
#include "xm23.h"

static unsigned passed, failed;

static void same(const char *what, unsigned long row, unsigned long got, unsigned long expected)
{
    passed += got == expected;
    failed += got != expected;
    if (got != expected)
        printf("%s, row %lu: %lu, not %lu\n", what, row, got, expected);
}

static struct value number(uint32_t n)
{
    struct value v = {n, NULL, 0};
    return v;
}

static struct value bytes(const char *b, size_t length)
{
    struct value v = {0, (const uint8_t *)b, length};
    return v;
}

/* ---- numbers: of each pair by =, !=, <=, >=, has */

static void try_numbers(void)
{
    static const struct {
        uint32_t found, wanted;
        uint8_t is[RELATIONS];
    } table[] = {
        {0, 0, {1, 0, 1, 1, 0}},
        {0, 1, {0, 1, 1, 0, 0}},
        {1, 0, {0, 1, 0, 1, 0}},
        {31, 31, {1, 0, 1, 1, 0}},
        {0x7FFF, 0x8000, {0, 1, 1, 0, 0}},
        {0x8000, 0x7FFF, {0, 1, 0, 1, 0}}, /* no number has a sign */
        {0xFFFF, 0x0000, {0, 1, 0, 1, 0}},
        {0x00FF, 0xFF00, {0, 1, 1, 0, 0}},
        {0x1234, 0x3412, {0, 1, 1, 0, 0}},
        {0x7FFFFFFF, 0x80000000, {0, 1, 1, 0, 0}},
        {0xFFFFFFFF, 0xFFFFFFFF, {1, 0, 1, 1, 0}},
        {0xFFFFFFFF, 0, {0, 1, 0, 1, 0}},
    };
    for (size_t i = 0; i < sizeof table / sizeof *table; i++)
        for (unsigned how = 0; how < RELATIONS; how++) {
            struct value found = number(table[i].found), wanted = number(table[i].wanted);
            same("numbers", 10 * i + how, (unsigned)holds((enum relation)how, &found, &wanted), table[i].is[how]);
        }
}

/* ---- bytes, by the same */

#define B(text) text, sizeof text - 1

static void try_bytes(void)
{
    static const struct {
        const char *found;
        size_t found_length;
        const char *wanted;
        size_t wanted_length;
        uint8_t is[RELATIONS];
    } table[] = {
        {B(""), B(""), {1, 0, 0, 0, 1}},
        {B(""), B("a"), {0, 1, 0, 0, 0}},
        {B("a"), B(""), {0, 1, 0, 0, 1}},
        {B("a"), B("a"), {1, 0, 0, 0, 1}},
        {B("a"), B("b"), {0, 1, 0, 0, 0}},
        {B("ab"), B("a"), {0, 1, 0, 0, 1}},
        {B("ab"), B("b"), {0, 1, 0, 0, 1}},
        {B("ab"), B("ba"), {0, 1, 0, 0, 0}},
        {B("ab"), B("abc"), {0, 1, 0, 0, 0}},
        {B("aab"), B("ab"), {0, 1, 0, 0, 1}},
        {B("abab"), B("abb"), {0, 1, 0, 0, 0}},
        {B("SUM"), B("SUM\n"), {0, 1, 0, 0, 0}},
        {B("SUM\n"), B("SUM"), {0, 1, 0, 0, 1}},
        {B("sum"), B("SUM"), {0, 1, 0, 0, 0}},
        {B("a\0b"), B("a\0c"), {0, 1, 0, 0, 0}}, /* a zero byte ends nothing */
        {B("a\0b"), B("\0b"), {0, 1, 0, 0, 1}},
        {B("\0"), B("\0\0"), {0, 1, 0, 0, 0}},
        {B("\xFF\x80"), B("\xFF\x80"), {1, 0, 0, 0, 1}},
        {B("\x7F"), B("\xFF"), {0, 1, 0, 0, 0}},
    };
    for (size_t i = 0; i < sizeof table / sizeof *table; i++)
        for (unsigned how = 0; how < RELATIONS; how++) {
            struct value found = bytes(table[i].found, table[i].found_length);
            struct value wanted = bytes(table[i].wanted, table[i].wanted_length);
            same("bytes", 10 * i + how, (unsigned)holds((enum relation)how, &found, &wanted), table[i].is[how]);
        }
}

/* A number and bytes never stand in a relation, nor do any by a relation that there is not. */
static void try_others(void)
{
    struct value n = number(0), b = bytes("", 0);
    for (unsigned how = 0; how < RELATIONS; how++) {
        same("a number and bytes", how, (unsigned)holds((enum relation)how, &n, &b), 0);
        same("bytes and a number", how, (unsigned)holds((enum relation)how, &b, &n), 0);
    }
    same("no relation", 0, (unsigned)holds(RELATIONS, &n, &n), 0);
    same("no relation", 1, (unsigned)holds(RELATIONS, &b, &b), 0);
}

/* ---- what is found */

static uint8_t memory[XM23_MEMORY_SIZE], record[XM23_RECORD_SIZE];
static struct text shown[8];

static struct closing closed(void)
{
    struct closing c = {memory, record, 1, 70000, shown, 1, 0};
    for (unsigned i = 0; i < sizeof memory; i++)
        memory[i] = (uint8_t)(i ^ i >> 8);
    for (unsigned i = 0; i < sizeof record; i++)
        record[i] = (uint8_t)(0x80 + i);
    shown[2].at = (char *)"ab\0c";
    shown[2].length = 4;
    return c;
}

static void try_subjects(void)
{
    static const struct {
        enum subject subject;
        unsigned number, at;
        uint32_t found;
    } table[] = {
        {OF_REGISTER, 0, 0, 0x8180}, {OF_REGISTER, 1, 0, 0x8382}, {OF_REGISTER, 5, 0, 0x8B8A},
        {OF_REGISTER, 7, 0, 0x8F8E}, {OF_PSW, 0, 0, 0x9190}, {OF_CEX, 0, 0, 0x9392}, {OF_BYTE, 0, 0, 0},
        {OF_BYTE, 0, 0x1234, 0x26}, {OF_BYTE, 0, 0xFFFF, 0}, {OF_WORD, 0, 0x1234, 0x2726}, {OF_WORD, 0, 0xFFFE, 0x0001},
        {OF_REASON, 0, 0, 1}, {OF_DEPTH, 0, 0, 70000}, {OF_SOUND, 0, 0, 1}, {OF_UNDISTURBED, 0, 0, 0},
    };
    struct closing c = closed();
    for (size_t i = 0; i < sizeof table / sizeof *table; i++) {
        struct award a = {table[i].subject, table[i].number, table[i].at, IS, {0, NULL, 0}, 1, 1};
        struct value v = value_found(&a, &c);
        same("found", i, v.number, table[i].found);
        same("found as a number", i, v.bytes == NULL, 1);
    }
}

static void try_found_bytes(void)
{
    struct closing c = closed();
    struct award some = {OF_BYTES, 0, 0x0100, IS, {0, (const uint8_t *)"\1\0\3", 3}, 1, 1};
    struct award last = {OF_BYTES, 0, 0xFFFE, IS, {0, (const uint8_t *)"\1\0\0\0", 4}, 1, 1};
    struct award screen = {OF_SCREEN, 2, 0, HAS, {0, (const uint8_t *)"\0c", 2}, 1, 1};
    struct award silent = {OF_SCREEN, 3, 0, IS, {0, (const uint8_t *)"", 0}, 1, 1};
    struct value v = value_found(&some, &c);
    same("bytes of memory", 0, v.length == 3 && memcmp(v.bytes, "\1\0\3", 3) == 0, 1);
    v = value_found(&last, &c);
    same("not behind the last", 0, v.length, 2);
    v = value_found(&screen, &c);
    same("what a device showed", 0, v.length == 4 && holds(HAS, &v, &screen.wanted), 1);
    v = value_found(&silent, &c);
    same("what none showed", 0, v.bytes && !v.length && holds(IS, &v, &silent.wanted), 1);
}

/* ---- points */

static void try_points(void)
{
    static struct awards a;
    struct closing c = closed();
    uint64_t met;
    same("of no award", 0, most_of(&a), 0);
    same("who passes without a line", 0, passes(&a, UINT64_MAX) == -1, 1);
    for (unsigned i = 0; i < MOST_AWARDS; i++) {
        struct award one = {OF_BYTE, 0, i, i % 3 ? IS : IS_NOT, {i, NULL, 0}, MOST_POINTS - i, i + 1};
        a.list[a.many++] = one;
    }
    a.pass = 50000;
    a.pass_line = 1;
    met = judge_awards(&a, &c);
    for (unsigned i = 0; i < MOST_AWARDS; i++)
        same("met", i, met >> i & 1, i % 3 != 0);
    same("of the last", 0, points_of(&a, 62, met), 1000 - 62);
    same("of one that is not met", 0, points_of(&a, 63, met), 0);
    same("all", 0, most_of(&a), 64000 - 63 * 64 / 2);
    same("total", 0, total_of(&a, met), 61984 - (22000 - 3 * 21 * 22 / 2));
    same("not enough", 0, (unsigned)passes(&a, met), 0);
    a.pass = total_of(&a, met);
    same("just enough", 0, (unsigned)passes(&a, met), 1);
    a.pass++;
    same("one too few", 0, (unsigned)passes(&a, met), 0);
    same("none", 0, (unsigned)passes(&a, 0), 0);
    same("no verdict is asked for", 0, (unsigned)asks_verdict(&a), 0);
    a.list[40].subject = OF_UNDISTURBED;
    same("one is", 0, (unsigned)asks_verdict(&a), 1);
}

int main(void)
{
    try_numbers();
    try_bytes();
    try_others();
    try_subjects();
    try_found_bytes();
    try_points();
    printf("%u passed, %u failed\n", passed, failed);
    return failed != 0;
}
