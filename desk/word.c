/* A word as the assembler writes it, which the library says, and in a comment what a WORD is to the machine. */
#include <string.h>

#include "word.h"
#include "xm23.h"

void add_statement(struct text *t, unsigned place, uint16_t word)
{
    uint8_t text[XM23_TEXT_SIZE];
    add_bytes(t, text, XM23_TEXT_LENGTH(xm23_text(word, (uint16_t)place, text, sizeof text)));
}

/* Whether the text of a word is WORD: it has no notation of its own. */
static int is_plain(unsigned place, uint16_t word)
{
    uint8_t text[XM23_TEXT_SIZE];
    xm23_text(word, (uint16_t)place, text, sizeof text);
    return memcmp(text, "WORD", 4) == 0;
}

/* The instruction without its ignored bit. */
static uint64_t without_ignored(uint64_t instruction)
{
    switch (XM23_FORMAT(instruction)) {
    case XM23_FORMAT_SWAP:
        return instruction & ~XM23_PUT_FIELD(3, 0xFF);
    case XM23_FORMAT_SWPB:
    case XM23_FORMAT_SXT:
        return instruction & ~XM23_PUT_FIELD(2, 0xFF);
    default:
        return instruction;
    }
}

uint16_t plain_word(uint16_t word)
{
    uint64_t instruction = xm23_decode(word), plain = without_ignored(instruction);
    return plain == instruction ? word : XM23_ENCODED(xm23_encode(plain));
}

/* The instruction without its ignored bit, or without an adjustment: the same one, where it moves nothing. */
static uint64_t without(uint64_t instruction)
{
    switch (XM23_FORMAT(instruction)) {
    case XM23_FORMAT_LD:
    case XM23_FORMAT_ST:
        return instruction & ~(XM23_PUT_FIELD(1, 0xFF) | XM23_PUT_FIELD(2, 0xFF) | XM23_PUT_FIELD(3, 0xFF));
    default:
        return without_ignored(instruction);
    }
}

void add_remark(struct text *t, const char *before, unsigned place, uint16_t word)
{
    uint64_t instruction = xm23_decode(word);
    uint16_t twin = XM23_ENCODED(xm23_encode(without(instruction)));
    unsigned format = XM23_FORMAT(instruction);
    if (!is_plain(place, word))
        return;
    if (format == XM23_FORMAT_ILLEGAL)
        addf(t, "%sillegal", before);
    else if (format == XM23_FORMAT_SETCC || format == XM23_FORMAT_CLRCC)
        addf(t, "%sno flag", before);
    else if (twin != word) {
        addf(t, "%sas ", before);
        add_statement(t, place, twin);
    }
}

void add_instruction(struct text *t, unsigned place, uint16_t word)
{
    add_statement(t, place, word);
    add_remark(t, " ; ", place, word);
}
