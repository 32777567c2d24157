/* What stands where in a source: xm23_places. */
#include "host.h"

static uint8_t table[128], table_before[sizeof table];

static uint64_t places(const char *source, size_t length)
{
    size_t i;
    for (i = 0; i < sizeof table; i++)
        table[i] = (uint8_t)(0xA0 + i);
    memcpy(table_before, table, sizeof table);
    return xm23_places((const uint8_t *)source, strlen(source), table, length);
}

/* A refused source, its line at fault, and a table as it was. */
static void not_placed(const char *what, const char *source, size_t length, unsigned refusal, uint32_t line)
{
    uint64_t reply = places(source, length);
    same(what, XM23_REFUSAL(reply), refusal);
    same(what, XM23_ASSEMBLE_LINE(reply), line);
    same(what, reply, refusal | (uint64_t)line << 32);
    same(what, (uint64_t)memcmp(table, table_before, sizeof table), 0);
}

static void places_told(void)
{
    static const char source[] = "N EQU #-2\n ORG $0100\nL MOVL N,R0\n BYTE #7 ; c\nB BSS #3\nX\n BRA L\n END\nJUNK";
    static const uint8_t records[] = {0xFE, 0xFF, 0xFF, 0xFF, 5, 0, 1, 0, 0, 0, 0, 0, 4, 0, 0, 0, 0, 1, 0, 0, 1, 2,
                                      1,    0,    2,    1,    0, 0, 2, 1, 0, 0, 3, 1, 0, 0, 6, 0, 1, 0, 6, 1, 0, 0,
                                      0,    0,    1,    0,    6, 1, 0, 0, 1, 2, 0, 0, 8, 1, 0, 0, 7, 0, 0, 0};
    const uint8_t *third = table + 2 * XM23_PLACE_SIZE;
    same("places", places(source, sizeof table), (uint64_t)8 << 32);
    same("places", XM23_REFUSAL(places(source, sizeof table)), XM23_ACCEPTED);
    same("number of places", XM23_PLACES(places(source, sizeof table)), 8);
    same("records", (uint64_t)memcmp(table, records, sizeof records), 0);
    same("past the records", (uint64_t)memcmp(table + 64, table_before + 64, sizeof table - 64), 0);
    same("EQU's value", (uint64_t)(XM23_PLACE_VALUE_OF(table) == -2), 1);
    same("EQU's bits", XM23_PLACE_NUMBER_OF(table), 0xFFFFFFFE);
    same("EQU", table[XM23_PLACE_KIND], XM23_PLACE_EQU);
    same("a place", XM23_PLACE_NUMBER_OF(third + XM23_PLACE_NUMBER), 0x0100);
    same("a place, signed", (uint64_t)XM23_PLACE_VALUE_OF(third), 0x0100);
    same("an instruction", third[XM23_PLACE_KIND], XM23_PLACE_INSTRUCTION);
    same("its bytes", third[XM23_PLACE_BYTES], 2);
    same("its name", third[XM23_PLACE_NAMED], 1);
    same("its zero", third[XM23_PLACE_ZERO], 0);
    same("exactly enough", places(source, 64), (uint64_t)8 << 32);
    same("the byte behind", table[64], table_before[64]);
    same("END alone", places("END", 8), (uint64_t)1 << 32);
    same("END", table[XM23_PLACE_KIND], XM23_PLACE_END);
    same("a WORD", places("WORD #1\nBYTE #1\nORG #70000\nBSS #0\n;\nEND", 48), (uint64_t)6 << 32);
    same("a WORD", table[XM23_PLACE_KIND], XM23_PLACE_WORD);
    same("a BYTE", table[8 + XM23_PLACE_KIND], XM23_PLACE_BYTE);
    same("ORG", table[16 + XM23_PLACE_KIND], XM23_PLACE_ORG);
    same("BSS", table[24 + XM23_PLACE_KIND], XM23_PLACE_BSS);
    same("beyond memory", XM23_PLACE_NUMBER_OF(table + 24), 70000);
    same("nothing", table[32 + XM23_PLACE_KIND], XM23_PLACE_NOTHING);

    not_placed("a byte short", source, 63, XM23_REFUSED_ROOM, 0);
    not_placed("no table", source, 0, XM23_REFUSED_ROOM, 0);
    not_placed("END missing", "BYTE #1\nBYTE X\n", sizeof table, XM23_REFUSED_SOURCE_FORM, 3);
    not_placed("no statement", "BYTE #1\nRET\nEND", 0, XM23_REFUSED_SOURCE_FORM, 2);
    not_placed("name unknown", "BYTE #1\nBYTE X\nEND", 0, XM23_REFUSED_SOURCE_NAME, 2);
    not_placed("a value too large", "BYTE #1\nBYTE #300\nEND", 1, XM23_REFUSED_SOURCE_VALUE, 2);
    same("nothing lent", xm23_places(NULL, 0, NULL, 0), XM23_REFUSED_SOURCE_FORM | (uint64_t)1 << 32);
    same("END and no table", xm23_places((const uint8_t *)"END", 3, NULL, 0), XM23_REFUSED_ROOM);
}

void places_calls(void)
{
    places_told();
}
