/* Words as text: xm23_text. */
#include "host.h"

static void word_text(const char *what, uint16_t word, uint16_t place, const char *expected)
{
    uint8_t line[XM23_TEXT_SIZE + 1];
    uint32_t reply;
    size_t i;
    memset(line, 0xEE, sizeof line);
    reply = xm23_text(word, place, line, sizeof line);
    same(what, XM23_REFUSAL(reply), XM23_ACCEPTED);
    same(what, XM23_TEXT_LENGTH(reply), strlen(expected));
    same(what, (uint64_t)memcmp(line, expected, strlen(expected)), 0);
    for (i = strlen(expected); i < sizeof line; i++)
        same(what, line[i], 0xEE);
}

static void texts_of_words(void)
{
    uint8_t line[XM23_TEXT_SIZE];
    size_t room, i;
    word_text("BL", 0x1FFF, 0x0000, "BL $0000");
    word_text("a branch", 0x3FFD, 0x1004, "BRA $1000");
    word_text("a branch across the end", 0x2001, 0xFFFE, "BEQ $0002");
    word_text("a branch at an odd place", 0x2001, 0xFFFF, "WORD $2001");
    word_text("ALU", 0x40FD, 0, "ADD.B #-1,LR");
    word_text("MOV", 0x4C34, 0, "MOV SP,R4");
    word_text("SWAP", 0x4C93, 0, "SWAP R2,R3");
    word_text("the ignored bit", 0x4CD3, 0, "WORD $4CD3");
    word_text("SETPRI", 0x4D87, 0, "SETPRI #7");
    word_text("SVC", 0x4DAF, 0, "SVC #15");
    word_text("all flags", 0x4DDF, 0, "SETCC VSNZC");
    word_text("no flag", 0x4DE0, 0, "WORD $4DE0");
    word_text("CEX", 0x53F8, 0, "CEX FL,#7,#0");
    word_text("LD", 0x5B4F, 0, "LD.B -R1,PC");
    word_text("ST", 0x5C93, 0, "ST R2,R3+");
    word_text("an adjustment that moves nothing", 0x5F80, 0, "WORD $5F80");
    word_text("MOVIMM", 0x7D55, 0, "MOVH $AA,LR");
    word_text("LDR", 0xA051, 0, "LDR.B R2,#-64,R1");
    word_text("STR", 0xDF8F, 0, "STR R1,PC,#63");
    word_text("an illegal word", 0x4E00, 0, "WORD $4E00");
    memset(line, 0xEE, sizeof line);
    for (room = 0; room < XM23_TEXT_SIZE; room++)
        same("a buffer too short", xm23_text(0x4E00, 0, line, room), XM23_REFUSED_ROOM);
    same("no buffer", xm23_text(0xFFFF, 0xFFFF, NULL, 0), XM23_REFUSED_ROOM);
    for (i = 0; i < sizeof line; i++)
        same("a buffer too short is kept", line[i], 0xEE);
    same("just long enough", xm23_text(0x4E00, 0, line, XM23_TEXT_SIZE), (uint64_t)10 << 8);
}

void text_calls(void)
{
    texts_of_words();
}
