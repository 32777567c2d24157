/* Sources: xm23_assemble. */
#include "host.h"

#include <stdio.h>

static uint64_t assemble(const char *source)
{
    memcpy(memory_before, memory, sizeof memory);
    return xm23_assemble(memory, memory_len, (const uint8_t *)source, strlen(source));
}

/* A refused source, its line at fault, and memory as it was. */
static void not_assembled(const char *what, const char *source, unsigned refusal, uint32_t line)
{
    uint64_t reply = assemble(source);
    same(what, XM23_REFUSAL(reply), refusal);
    same(what, XM23_ASSEMBLE_LINE(reply), line);
    same(what, reply, refusal | (uint64_t)line << 32);
    same(what, (uint64_t)memcmp(memory, memory_before, sizeof memory), 0);
}

static void sources(void)
{
    static const char program[] = "        ORG $0100\r\n"
                                  "SUM     WORD (#1+#2*#3) ; seven\n"
                                  "        BSS #2\n"
                                  "        BYTE #-1\n"
                                  "        ORG $1000\n"
                                  "START   MOVL SUM,R0\n"
                                  "        MOVH SUM,R0\n"
                                  "        BRA START\n"
                                  "        ORG $FFFF\n"
                                  "        BYTE $AA\n"
                                  "        END\n"
                                  "what follows is not read";
    example();
    memset(memory, 0xEE, XM23_MEMORY_SIZE);
    same("assembled", assemble(program), XM23_ACCEPTED);
    same("before it", memory[0x00FF], 0xEE);
    same("a WORD", two(memory + 0x0100), 7);
    same("BSS", two(memory + 0x0102), 0xEEEE);
    same("a BYTE", two(memory + 0x0104), 0xEEFF);
    same("MOVL of a name", two(memory + 0x1000), 0x6000);
    same("MOVH of a name", two(memory + 0x1002), 0x7808);
    same("a branch", two(memory + 0x1004), 0x3FFD);
    same("after it", memory[0x1006], 0xEE);
    same("last byte", memory[0xFFFF], 0xAA);
    same("END alone", assemble("END"), XM23_ACCEPTED);
    same("no byte", (uint64_t)memcmp(memory, memory_before, sizeof memory), 0);

    not_assembled("no source", "", XM23_REFUSED_SOURCE_FORM, 1);
    not_assembled("END missing", "BYTE #1\nBYTE X\n", XM23_REFUSED_SOURCE_FORM, 3);
    not_assembled("no statement", "BYTE #1\nRET\nEND", XM23_REFUSED_SOURCE_FORM, 2);
    not_assembled("17 brackets", "WORD (((((((((((((((((#1)))))))))))))))))\nEND", XM23_REFUSED_SOURCE_FORM, 1);
    not_assembled("name unknown", "BYTE #1\nBYTE X\nEND", XM23_REFUSED_SOURCE_NAME, 2);
    not_assembled("name given twice", "A\nB\nA\nEND", XM23_REFUSED_SOURCE_NAME, 3);
    not_assembled("18 before 19", "BYTE #300\nBYTE X\nEND", XM23_REFUSED_SOURCE_NAME, 2);
    not_assembled("a value too large", "BYTE #1\nBYTE #300\nEND", XM23_REFUSED_SOURCE_VALUE, 2);
    not_assembled("division by zero", "BYTE (#1/#0)\nEND", XM23_REFUSED_SOURCE_VALUE, 1);
    not_assembled("odd address", "BYTE #1\nADD R0,R1\nEND", XM23_REFUSED_SOURCE_VALUE, 2);
    not_assembled("past #FFFF", "ORG $FFFF\nBYTE #1\nBYTE #1\nEND", XM23_REFUSED_SOURCE_VALUE, 3);
    memory_len = XM23_MEMORY_SIZE - 1;
    not_assembled("memory too short", "END", XM23_REFUSED_MEMORY, 0);
    memory_len = XM23_MEMORY_SIZE + 1;
    not_assembled("memory too long", "?", XM23_REFUSED_MEMORY, 0);
    same("nothing", xm23_assemble(NULL, 0, NULL, 0), XM23_REFUSED_MEMORY);
    same("no source", xm23_assemble(memory, XM23_MEMORY_SIZE, NULL, 0), XM23_REFUSED_SOURCE_FORM | (uint64_t)1 << 32);

    /* 1,024 names are lawful, and no more. */
    {
        static char names[8192];
        int i, length = 0;
        memory_len = XM23_MEMORY_SIZE;
        for (i = 0; i < 1024; i++)
            length += sprintf(names + length, "N%d\n", i);
        strcpy(names + length, "END");
        same("1,024 names", assemble(names), XM23_ACCEPTED);
        strcpy(names + length, "A END");
        not_assembled("1,025 names", names, XM23_REFUSED_SOURCE_NAME, 1025);
    }
}

void assemble_calls(void)
{
    sources();
}
