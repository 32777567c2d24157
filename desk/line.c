/* The line of the sheet, which the library prints, and what each of its fields says. */
#include <stdio.h>
#include <stdlib.h>
#include <string.h>
#include <unistd.h>

#include "desk.h"
#include "line.h"

/* What the sheet is asked with: n, the state record, memory, events. Room for it is kept from one to the next. */
static const uint8_t *input_of(const struct machine *m, const struct paper *p, uint64_t steps, size_t *length)
{
    static uint8_t *input;
    static size_t room;
    size_t events = XM23_EVENT_SIZE * p->many_events, memory = 4 + XM23_RECORD_SIZE, end = memory + XM23_MEMORY_SIZE;
    *length = end + events;
    if (*length > room) {
        input = (uint8_t *)room_for(input, *length);
        room = *length;
    }
    put_word(input, 0, (unsigned)(steps & 0xFFFF));
    put_word(input, 2, (unsigned)(steps >> 16));
    memcpy(input + 4, m->record, XM23_RECORD_SIZE);
    memcpy(input + memory, m->memory, XM23_MEMORY_SIZE);
    if (events)
        memcpy(input + end, p->event_bytes, events);
    return input;
}

void add_line(struct text *t, const struct machine *m, const struct paper *p, uint64_t steps)
{
    uint8_t line[XM23_LINE_SIZE];
    size_t length;
    const uint8_t *input = input_of(m, p, steps, &length);
    uint32_t reply = xm23_sheet(input, length, line, sizeof line);
    add_bytes(t, line, XM23_LINE_LENGTH(reply) - 1);
}

/* ---- what it says */

static void psw_says(unsigned psw, char *says, size_t room)
{
    static const struct {
        unsigned bit;
        const char *name;
    } flags[] = {{XM23_FLAG_V, " V"}, {XM23_FLAG_SLP, " SLP"}, {XM23_FLAG_N, " N"}, {XM23_FLAG_Z, " Z"},
                 {XM23_FLAG_C, " C"}, {XM23_PSW_FLT, " FLT"}};
    int length =
        snprintf(says, room, "priority %u, previous %u, flags:", XM23_PSW_CURRENT(psw), XM23_PSW_PREVIOUS(psw));
    unsigned many = 0;
    for (size_t i = 0; i < sizeof flags / sizeof *flags; i++)
        if (psw & flags[i].bit) {
            length += snprintf(says + length, room - (size_t)length, "%s", flags[i].name);
            many++;
        }
    if (!many)
        snprintf(says + length, room - (size_t)length, " none");
}

static void cex_says(unsigned cex, char *says, size_t room)
{
    if (!cex)
        snprintf(says, room, "clear");
    else
        snprintf(says, room, "true count %u, false count %u, condition %s", XM23_CEX_STATE_TRUE(cex),
                 XM23_CEX_STATE_FALSE(cex), cex & XM23_CEX_STATE_HELD ? "held" : "not held");
}

/* Eight digits, device 7 first. */
static void lines_say(unsigned long lines, char *says, size_t room)
{
    int length = snprintf(says, room, "events waiting:"), many = 0;
    for (int d = 0; d < 8; d++)
        if (lines >> 4 * d & 15)
            length += snprintf(says + length, room - (size_t)length, "%s %u of device %d", many++ ? "," : "",
                               (unsigned)(lines >> 4 * d & 15), d);
    if (!many)
        snprintf(says + length, room - (size_t)length, " none");
}

/* What a field says, by its number in the line. */
static void field_says(int i, const char *value, char *says, size_t room)
{
    static const char *const registers[] = {"", "", "", "", "", "LR", "SP", "PC"};
    unsigned long number = strtoul(value, NULL, 16);
    if (i == 0)
        snprintf(says, room, "%s", number == XM23_REASON_HALTED ? "halted" : "all steps are done");
    else if (i == 1)
        snprintf(says, room, "done");
    else if (i < 10)
        snprintf(says, room, "%s", registers[i - 2]);
    else if (i == 10)
        psw_says((unsigned)number, says, room);
    else if (i == 11)
        cex_says((unsigned)number, says, room);
    else if (i == 12)
        lines_say(number, says, room);
    else
        snprintf(says, room, "frames open together at most");
}

int line_fields(const char *line, struct field *rows)
{
    static const struct field refused = {"refusal", "", ""};
    static const char *const names[FIELDS] = {"reason", "steps", "R0", "R1",  "R2",  "R3",    "R4",
                                              "R5",     "R6",    "R7", "PSW", "CEX", "lines", "depth"};
    if (*line == 'R') {
        *rows = refused;
        snprintf(rows->value, sizeof rows->value, "%s", line + 1);
        snprintf(rows->says, sizeof rows->says, "%s", xm23_refusal_text((unsigned)strtoul(line + 1, NULL, 10)));
        return 1;
    }
    for (int i = 0; i < FIELDS; i++) {
        size_t length = strcspn(line, " ");
        snprintf(rows[i].name, sizeof rows[i].name, "%s", names[i]);
        snprintf(rows[i].value, sizeof rows[i].value, "%.*s", (int)length, line);
        field_says(i, rows[i].value, rows[i].says, sizeof rows[i].says);
        line += length + (line[length] == ' ');
    }
    return FIELDS;
}

void add_legend(struct text *t, const char *line)
{
    struct field rows[FIELDS];
    int many = line_fields(line, rows);
    for (int i = 0; i < many; i++) {
        addf(t, "  %-8s%-10s%s", rows[i].name, rows[i].value, rows[i].says);
        while (t->length && t->at[t->length - 1] == ' ')
            t->at[--t->length] = 0;
        addf(t, "\n");
    }
}

/* ---- the command */

/* The first line of some bytes, which was printed, and its legend. A number other than 0 is that of the line at fault. */
static int tell_printed(const char *name, uint32_t number, const char *bytes, size_t length)
{
    struct text t = {0};
    size_t end = 0;
    int status = REFUSED;
    char *line;
    while (end < length && bytes[end] != '\r' && bytes[end] != '\n')
        end++;
    line = take_printed(name, number, bytes, bytes + end);
    if (line) {
        addf(&t, "%s\n\n", line);
        add_legend(&t, line);
        status = write_file("-", &t);
    }
    free(line);
    drop_text(&t);
    return status;
}

static int tell_input(void)
{
    struct text why = {0};
    size_t length;
    char *bytes = read_file("/dev/stdin", ANY_FILE, MOST_TEXT, &length, &why);
    int status = bytes ? tell_printed("standard input", 1, bytes, length) : UNREADABLE;
    if (!bytes)
        say_at("standard input", 0, "%s", why.at);
    free(bytes);
    drop_text(&why);
    return status;
}

int xm23_desk_line(int argc, char **argv)
{
    struct text words = {0};
    int option = getopt(argc, argv, "+:"), status;
    if (option != -1)
        return wrong_option("line", option, NULL);
    if (optind == argc)
        return tell_input();
    for (int i = optind; i < argc; i++)
        addf(&words, "%s ", argv[i]);
    status = tell_printed("xm23", 0, words.at, words.length);
    drop_text(&words);
    return status;
}
