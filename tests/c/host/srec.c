/* S-records: xm23_load_srec and xm23_write_srec. */
#include "host.h"

static uint8_t text[XM23_SREC_LENGTH(XM23_MEMORY_SIZE) + 1], text_before[sizeof text];

static uint64_t load(const char *lines, uint16_t pc)
{
    memcpy(memory_before, memory, sizeof memory);
    return xm23_load_srec(memory, memory_len, (const uint8_t *)lines, strlen(lines), pc);
}

/* The text is refused at a line; the PC is the one handed in, and memory is as it was. */
static void not_loaded(const char *what, const char *lines, unsigned refusal, uint32_t line)
{
    uint64_t reply = load(lines, 0xABCD);
    same(what, XM23_REFUSAL(reply), refusal);
    same(what, XM23_LOAD_LINE(reply), line);
    same(what, XM23_LOAD_PC(reply), 0xABCD);
    same(what, reply & 0xFF00, 0);
    same(what, (uint64_t)memcmp(memory, memory_before, sizeof memory), 0);
}

static void loads(void)
{
    uint64_t reply;
    example();
    reply = load("S00600004844521B\r\nS1061000112233 83\nS9031000EC", 1);
    same("a blank", XM23_REFUSAL(reply), XM23_REFUSED_SREC_FORM);
    reply = load("S00600004844521B\r\nS106100011223383\nS104FFFFAa53\r\nS104100199 51\n", 1);
    same("a blank in line 4", XM23_LOAD_LINE(reply), 4);
    reply = load("S00600004844521B\r\nS106100011223383\nS104FFFFAa53\r\nS10410019951\nS9031001EB", 1);
    same("loaded", reply, (uint64_t)0x1001 << 16);
    same("PC", XM23_LOAD_PC(reply), 0x1001);
    same("no line", XM23_LOAD_LINE(reply), 0);
    same("a later line wins", memory[0x1001], 0x99);
    same("around it", two(memory + 0x0FFF) | (uint64_t)two(memory + 0x1002) << 16, 0x331100);
    same("last byte", memory[0xFFFF], 0xAA);

    example();
    not_loaded("no text", "", XM23_REFUSED_SREC_FORM, 1);
    not_loaded("no S9", "S106100011223383\n", XM23_REFUSED_SREC_FORM, 2);
    not_loaded("no record", "S106100011223383\nS5030001FB\nS9031000EC\n", XM23_REFUSED_SREC_FORM, 2);
    not_loaded("S9 not last", "S9031000EC\nS9031000EC\n", XM23_REFUSED_SREC_FORM, 1);
    not_loaded("wrong count", "S107100011223383\nS9031000EC\n", XM23_REFUSED_SREC_FORM, 1);
    not_loaded("lone CR", "S106100011223383\rS9031000EC\n", XM23_REFUSED_SREC_FORM, 1);
    not_loaded("checksum", "S106100011223383\nS9031000ED\n", XM23_REFUSED_SREC_CHECKSUM, 2);
    not_loaded("past #FFFF", "S106FFFE11223396\nS9031000EC\n", XM23_REFUSED_SREC_ROOM, 1);
    memory_len = XM23_MEMORY_SIZE - 1;
    not_loaded("memory too short", "S9031000EC\n", XM23_REFUSED_MEMORY, 0);
    memory_len = XM23_MEMORY_SIZE + 1;
    not_loaded("memory too long", "", XM23_REFUSED_MEMORY, 0);
    same("nothing", xm23_load_srec(NULL, 0, NULL, 0, 0), XM23_REFUSED_MEMORY);
    same("no text", xm23_load_srec(memory, XM23_MEMORY_SIZE, NULL, 0, 0), XM23_REFUSED_SREC_FORM | (uint64_t)1 << 32);
}

static uint64_t write_text(uint16_t start, uint32_t length, size_t text_len)
{
    memset(text, 0x5A, sizeof text);
    memcpy(text_before, text, sizeof text);
    return xm23_write_srec(memory, memory_len, start, length, 0x1000, text, text_len);
}

/* The text is as given, and the buffer past it as it was. */
static void written(const char *what, uint16_t start, uint32_t length, const char *lines)
{
    size_t size = strlen(lines);
    uint64_t reply = write_text(start, length, sizeof text);
    same(what, XM23_REFUSAL(reply), XM23_ACCEPTED);
    same(what, XM23_WRITTEN(reply), size);
    same(what, XM23_SREC_LENGTH(length), size);
    same(what, (uint64_t)memcmp(text, lines, size), 0);
    same(what, (uint64_t)memcmp(text + size, text_before + size, sizeof text - size), 0);
    same(what, write_text(start, length, size), reply);
    same(what, write_text(start, length, size - 1), XM23_REFUSED_SREC_ROOM);
    same(what, (uint64_t)memcmp(text, text_before, sizeof text), 0);
}

static void not_written(const char *what, uint16_t start, uint32_t length, unsigned refusal)
{
    same(what, write_text(start, length, sizeof text), refusal);
    same(what, (uint64_t)memcmp(text, text_before, sizeof text), 0);
}

static void writes(void)
{
    size_t i;
    uint64_t reply;
    example();
    for (i = 0; i < XM23_MEMORY_SIZE; i++)
        memory[i] = (uint8_t)(i * 31 + (i >> 8));
    written("no bytes", 0x1234, 0, "S9031000EC\n");
    written("three bytes to the end", 0xFFFD, 3, "S106FFFDA2C1E0BA\nS9031000EC\n");
    written("a line and a byte", 0x0010, 17,
            "S1130010F00F2E4D6C8BAAC9E80726456483A2C154\nS1040020E0FB\nS9031000EC\n");
    not_written("span past #FFFF", 0xFFFD, 4, XM23_REFUSED_SREC_ROOM);
    not_written("a long span", 0, 65537, XM23_REFUSED_SREC_ROOM);
    not_written("the longest span", 0xFFFF, UINT32_MAX, XM23_REFUSED_SREC_ROOM);
    memory_len = XM23_MEMORY_SIZE - 1;
    not_written("memory too short", 0, 1, XM23_REFUSED_MEMORY);
    memory_len = 0;
    not_written("no memory", 0, UINT32_MAX, XM23_REFUSED_MEMORY);

    /* All of memory, written and loaded into another. */
    memory_len = XM23_MEMORY_SIZE;
    reply = write_text(0, 65536, sizeof text);
    same("all of memory", XM23_WRITTEN(reply), 176139);
    memcpy(memory_before, memory, sizeof memory);
    memset(memory, 0, sizeof memory);
    same("loaded back", xm23_load_srec(memory, memory_len, text, XM23_WRITTEN(reply), 0), (uint64_t)0x1000 << 16);
    same("every byte", (uint64_t)memcmp(memory, memory_before, sizeof memory), 0);
}

void srec_calls(void)
{
    loads();
    writes();
}
