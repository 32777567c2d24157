/* The printed line: xm23_sheet. */
#include "host.h"

static void sheets(void)
{
    static uint8_t input[4 + XM23_RECORD_SIZE + XM23_MEMORY_SIZE];
    static const char expected[] = "0 3 0000 0000 0000 0000 0000 0000 0000 1000 0000 00 00000000 0\n";
    uint8_t line[XM23_LINE_SIZE + 1];
    uint32_t reply;
    size_t i;
    memset(input, 0, sizeof input);
    input[0] = 3;
    input[4 + XM23_RECORD_REGISTER(7) + 1] = 0x10;
    input[4 + XM23_RECORD_SIZE + 0x1000] = 0xFF; /* BRA $1000 */
    input[4 + XM23_RECORD_SIZE + 0x1001] = 0x3F;
    memset(line, 0xEE, sizeof line);
    reply = xm23_sheet(input, sizeof input, line, sizeof line);
    same("a sheet", XM23_REFUSAL(reply), XM23_ACCEPTED);
    same("its length", XM23_LINE_LENGTH(reply), strlen(expected));
    same("its line", (uint64_t)memcmp(line, expected, strlen(expected)), 0);
    for (i = strlen(expected); i < sizeof line; i++)
        same("bytes past the line", line[i], 0xEE);
    reply = xm23_sheet(input, 35, line, XM23_LINE_SIZE);
    same("a refused run is a line", reply, (uint64_t)3 << 8);
    same("R3", (uint64_t)memcmp(line, "R3\n", 3), 0);
    reply = xm23_sheet(NULL, 0, line, XM23_LINE_SIZE);
    same("no input", reply, (uint64_t)3 << 8);
    same("short memory", xm23_sheet(input, sizeof input - 1, line, XM23_LINE_SIZE), (uint64_t)3 << 8);
    same("R1", (uint64_t)memcmp(line, "R1\n", 3), 0);
    memset(line, 0xEE, sizeof line);
    for (i = 0; i < XM23_LINE_SIZE; i++)
        same("a buffer too short", xm23_sheet(input, sizeof input, line, i), XM23_REFUSED_ROOM);
    same("no buffer", xm23_sheet(NULL, 0, NULL, 0), XM23_REFUSED_ROOM);
    for (i = 0; i < sizeof line; i++)
        same("a buffer too short is kept", line[i], 0xEE);
}

void sheet_calls(void)
{
    sheets();
}
