/* Words of one operation: xm23_range and xm23_next_word. */
#include "host.h"

static void range(const char *what, uint16_t word, unsigned operation, uint16_t first, uint16_t last)
{
    uint64_t reply = xm23_range(word);
    same(what, XM23_RANGE_OPERATION(reply), operation);
    same(what, XM23_RANGE_FIRST(reply), first);
    same(what, XM23_RANGE_LAST(reply), last);
    same(what, reply & 0xFFFF0000000000FF, 0);
}

/* Ranges by hand, and every range from #0000 up: each begins where the one before it ends, with another operation. */
static void ranges(void)
{
    unsigned count = 0, before = XM23_OPERATION_ILLEGAL;
    uint32_t word = 0;
    range("first word", 0x0000, XM23_OPERATION_BL, 0x0000, 0x1FFF);
    range("byte form", 0x4040, XM23_OPERATION_ADD, 0x4000, 0x40FF);
    range("mov", 0x4C7F, XM23_OPERATION_MOV, 0x4C00, 0x4C7F);
    range("swap", 0x4C80, XM23_OPERATION_SWAP, 0x4C80, 0x4CFF);
    range("sra", 0x4D07, XM23_OPERATION_SRA, 0x4D00, 0x4D07);
    range("sra.b", 0x4D43, XM23_OPERATION_SRA, 0x4D40, 0x4D47);
    range("illegal", 0x4D3F, XM23_OPERATION_ILLEGAL, 0x4D28, 0x4D3F);
    range("illegal again", 0x4D9F, XM23_OPERATION_ILLEGAL, 0x4D88, 0x4D9F);
    range("movh", 0x7FFF, XM23_OPERATION_MOVH, 0x7800, 0x7FFF);
    range("last word", 0xFFFF, XM23_OPERATION_STR, 0xC000, 0xFFFF);
    while (word <= 0xFFFF) {
        uint64_t reply = xm23_range((uint16_t)word);
        same("begins there", XM23_RANGE_FIRST(reply), word);
        same("another operation", XM23_RANGE_OPERATION(reply) != before, 1);
        same("an operation", XM23_RANGE_OPERATION(reply) <= XM23_OPERATION_STR, 1);
        before = XM23_RANGE_OPERATION(reply);
        word = (uint32_t)XM23_RANGE_LAST(reply) + 1;
        count++;
    }
    same("ranges", count, 52);
}

static void next(const char *what, uint32_t operation, uint32_t word, unsigned found, uint16_t expected)
{
    uint64_t reply = xm23_next(operation, word);
    same(what, XM23_NEXT_FOUND(reply), found);
    same(what, XM23_NEXT_WORD(reply), expected);
    same(what, reply & 0xFFFFFFFF000000FF, 0);
}

/* Counts and next words by hand, and every operation's list: rising, of its words alone, as many as are counted. */
static void lists(void)
{
    uint32_t operation, sum = 0;
    same("illegal words", XM23_COUNT(xm23_count(XM23_OPERATION_ILLEGAL)), 1624);
    same("words of bl", XM23_COUNT(xm23_count(XM23_OPERATION_BL)), 8192);
    same("words of swap", XM23_COUNT(xm23_count(XM23_OPERATION_SWAP)), 128);
    same("words of sxt", XM23_COUNT(xm23_count(XM23_OPERATION_SXT)), 16);
    same("words of no operation", xm23_count(XM23_OPERATION_STR + 1), 0);
    same("words of the last number", xm23_count(UINT32_MAX), 0);
    next("first of swap", XM23_OPERATION_SWAP, 0, 1, 0x4C80);
    next("at", XM23_OPERATION_SWAP, 0x4CBF, 1, 0x4CBF);
    next("ignored bit set", XM23_OPERATION_SWAP, 0x4CC0, 1, 0x4CC0);
    next("the next range", XM23_OPERATION_SWAP, 0x4D00, 0, 0);
    next("second range", XM23_OPERATION_SXT, 0x4D28, 1, 0x4D60);
    next("last word", XM23_OPERATION_STR, 0xFFFF, 1, 0xFFFF);
    next("above all words", XM23_OPERATION_STR, 0x10000, 0, 0);
    next("above all numbers", XM23_OPERATION_BL, UINT32_MAX, 0, 0);
    next("illegal", XM23_OPERATION_ILLEGAL, 0x4D28, 0, 0);
    next("no operation", XM23_OPERATION_STR + 1, 0, 0, 0);
    next("the last number", UINT32_MAX, 0, 0, 0);
    for (operation = 0; operation <= XM23_OPERATION_STR; operation++) {
        uint32_t many = 0, word = 0, alike = 0;
        uint64_t reply;
        for (; XM23_NEXT_FOUND(reply = xm23_next(operation, word)); word = (uint32_t)XM23_NEXT_WORD(reply) + 1) {
            many++;
            alike += XM23_NEXT_WORD(reply) >= word &&
                     XM23_RANGE_OPERATION(xm23_range(XM23_NEXT_WORD(reply))) == operation;
        }
        same("of the operation, rising", alike, many);
        same("as many", many, operation ? XM23_COUNT(xm23_count(operation)) : 0);
        sum += XM23_COUNT(xm23_count(operation));
    }
    same("sum of the counts", sum, 65536);
}

void range_calls(void)
{
    ranges();
    lists();
}
