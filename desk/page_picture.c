/*
 * The whole run on a page, as a picture that needs no script: what the trace tells of entries, returns, faults and
 * events, in columns. Columns are stretched to the width of the page, words are not. However long the run, a row is
 * drawn as one path of a third as many pieces as there are columns at most, so that a picture has 50 KB at most.
 */
#include <string.h>

#include "machine.h"
#include "picture.h"

enum { LEAST = 2, QUARTERS = 4 }; /* columns of a piece, which has one free behind it; labels of the axis */

/* ---- drawing */

/* A handler that is open: the step of its entry, from the first of the run on, and its row. */
struct bar {
    uint32_t step;
    uint8_t row;
};

/* Those that are open, the oldest first: room for them is kept from one run to the next. */
static struct bar *bars;

void begin_picture(struct picture *d, const uint8_t *record, uint32_t steps)
{
    memset(d, 0, sizeof *d);
    d->start = get_long(record, XM23_RECORD_COUNT);
    d->steps = steps;
}

static unsigned column(const struct picture *d, uint32_t step)
{
    return (unsigned)((uint64_t)step * COLUMNS / d->steps);
}

/* From a column as far as another, and wide enough to be seen. */
static void paint_columns(struct picture *d, unsigned row, unsigned from, unsigned past)
{
    if (from > COLUMNS - LEAST)
        from = COLUMNS - LEAST;
    if (past < from + LEAST)
        past = from + LEAST;
    memset(d->rows[row] + from, 1, past - from);
}

static void open_bar(struct picture *d, unsigned row, uint32_t step)
{
    static size_t room;
    if (d->open == room) {
        room = 2 * room + 64;
        bars = (struct bar *)room_for(bars, room * sizeof *bars);
    }
    bars[d->open].step = step;
    bars[d->open++].row = (uint8_t)row;
}

static void count_bar(struct picture *d, const struct bar *b, uint32_t past)
{
    d->busy[(b->row - ROW_DEVICES) % 8] += past - b->step;
}

/* The newest handler ends before a step: one column stays free, so that the next one's bar is another. */
static void close_bar(struct picture *d, uint32_t step)
{
    unsigned past = column(d, step);
    if (!d->open) {
        d->strays++;
        return;
    }
    d->open--;
    count_bar(d, &bars[d->open], step);
    paint_columns(d, bars[d->open].row, column(d, bars[d->open].step), past ? past - 1 : 0);
}

static void draw_record(struct picture *d, const uint8_t *record)
{
    unsigned kind = record[XM23_TRACE_KIND], lane = XM23_PSW_CURRENT(get_word(record, XM23_TRACE_VALUE));
    uint32_t step = get_long(record, XM23_TRACE_STEP) - d->start;
    unsigned at = column(d, step);
    d->told[kind & 15]++;
    if (kind == XM23_KIND_EVENT)
        paint_columns(d, ROW_EVENTS, at, at);
    if (kind == XM23_KIND_FAULT || kind == XM23_KIND_HALT)
        paint_columns(d, ROW_FAULTS, at, at);
    if (kind == XM23_KIND_PULL)
        close_bar(d, step + 1);
    if (kind == XM23_KIND_CHAIN)
        close_bar(d, step);
    if (kind == XM23_KIND_CHAIN || kind == XM23_KIND_ACCEPT)
        open_bar(d, ROW_DEVICES + lane, step);
    if (kind == XM23_KIND_TRAP || kind == XM23_KIND_FAULT)
        open_bar(d, ROW_OTHERS + lane, step);
}

void draw_trace(struct picture *d, const uint8_t *trace, uint32_t records)
{
    for (uint32_t i = 0; i < records; i++)
        draw_record(d, trace + XM23_TRACE_SIZE * i);
}

/* Handlers that never returned end with the run. */
void end_picture(struct picture *d)
{
    for (size_t i = 0; i < d->open; i++) {
        count_bar(d, &bars[i], d->steps);
        paint_columns(d, bars[i].row, column(d, bars[i].step), COLUMNS);
    }
}

/* ---- the picture */

enum { TOP = 18, TICK = 10, LANES_TOP = 36, LANE = 16, FAULTS_TOP = LANES_TOP + 8 * LANE + 6, AXIS = FAULTS_TOP + 16 };

/* The end of the piece that begins at a column; the column itself where none does. */
static unsigned end_of_piece(const uint8_t *columns, unsigned at)
{
    while (at < COLUMNS && columns[at])
        at++;
    return at;
}

/* A row's pieces, along a line at a height: each begins so far behind the one before. */
static void add_pieces(struct text *t, const uint8_t *columns, unsigned height)
{
    unsigned pen = 0, end;
    if (!memchr(columns, 1, COLUMNS))
        return;
    addf(t, "M0 %u", height);
    for (unsigned at = 0; at < COLUMNS; at = end > at ? end : at + 1) {
        end = end_of_piece(columns, at);
        if (end > at) {
            addf(t, "m%u 0h%u", at - pen, end - at);
            pen = end;
        }
    }
}

/* Rows from one on, of so many lanes, the last of them the highest, as one path. */
static void add_path(struct text *t, const struct picture *d, const char *class, unsigned row, unsigned lanes,
                     unsigned height)
{
    addf(t, "<path class=\"%s\" d=\"", class);
    for (unsigned i = lanes; i-- > 0; height += LANE)
        add_pieces(t, d->rows[row + i], height);
    addf(t, "\"/>\n");
}

/* What is stretched: ticks and bars. */
static void add_columns(struct text *t, const struct picture *d)
{
    addf(t, "<svg x=\"64\" width=\"100%%\" height=\"%u\" viewBox=\"0 0 %u %u\" preserveAspectRatio=\"none\">\n",
        (unsigned)AXIS, (unsigned)COLUMNS, (unsigned)AXIS);
    add_path(t, d, "tick", ROW_EVENTS, 1, TOP + TICK / 2);
    add_path(t, d, "high", ROW_DEVICES, 8, LANES_TOP + LANE / 2);
    add_path(t, d, "low", ROW_OTHERS, 8, LANES_TOP + LANE / 2);
    add_path(t, d, "tick", ROW_FAULTS, 1, FAULTS_TOP + TICK / 2);
    addf(t, "</svg>\n");
}

static void add_label(struct text *t, unsigned height, const char *word)
{
    addf(t, "<text x=\"58\" y=\"%u\" text-anchor=\"end\">%s</text>\n", height, word);
}

static void add_labels(struct text *t)
{
    static const char *const lanes[] = {"priority 7", "6", "5", "4", "3", "2", "1", "0"};
    add_label(t, TOP + TICK - 1, "events");
    for (unsigned i = 0; i < 8; i++)
        add_label(t, LANES_TOP + i * LANE + 12, lanes[i]);
    add_label(t, FAULTS_TOP + TICK - 1, "faults");
    add_label(t, AXIS + 16, "step");
}

/* A line down at a step, and its words at a height: beside it where there is room. */
static void add_mark(struct text *t, const struct picture *d, const char *class, uint32_t step, unsigned height,
                     const char *words)
{
    unsigned at = column(d, step);
    const char *anchor = at < COLUMNS / 8 ? "start" : at > COLUMNS - COLUMNS / 8 ? "end" : "middle";
    addf(t, "<line class=\"%s\" x1=\"%u.%u%%\" x2=\"%u.%u%%\" ", class, at / 10, at % 10, at / 10, at % 10);
    addf(t, "y1=\"%u\" y2=\"%u\"/>\n", (unsigned)TOP - 2, (unsigned)AXIS);
    addf(t, "<text class=\"%s\" x=\"%u.%u%%\" y=\"%u\" text-anchor=\"%s\">%s%lu</text>\n", class, at / 10, at % 10,
        height, anchor, words, (unsigned long)d->start + step);
}

static void open_unstretched(struct text *t)
{
    addf(t, "<svg x=\"64\" width=\"100%%\" height=\"%u\" overflow=\"visible\">\n", (unsigned)AXIS);
}

/* A band behind every other lane, and the axis with a number at each quarter: on a narrow page at each half. */
static void add_axis(struct text *t, const struct picture *d)
{
    open_unstretched(t);
    for (unsigned lane = 0; lane < 8; lane += 2)
        addf(t, "<rect width=\"100%%\" y=\"%u\" height=\"%u\"/>\n", LANES_TOP + lane * LANE, (unsigned)LANE);
    addf(t, "<line class=\"axis\" x1=\"0\" x2=\"100%%\" y1=\"%u\" y2=\"%u\"/>\n", (unsigned)AXIS, (unsigned)AXIS);
    for (unsigned i = 0; i <= QUARTERS; i++)
        if (d->steps >= QUARTERS || i % QUARTERS == 0)
            add_mark(t, d, i % 2 ? "grid odd" : "grid", (uint32_t)((uint64_t)d->steps * i / QUARTERS), AXIS + 16, "");
    addf(t, "</svg>\n");
}

static void add_walk_mark(struct text *t, const struct picture *d, uint32_t walk)
{
    open_unstretched(t);
    add_mark(t, d, "walk", walk - d->start, 10, "the walk begins: step ");
    addf(t, "</svg>\n");
}

/* ---- in words */

/* How long handlers were open: where many short ones are drawn as one bar, this tells them from a long one. */
static void add_busy(struct text *t, const struct picture *d)
{
    unsigned many = 0;
    for (unsigned lane = 8; lane-- > 0;)
        if (d->busy[lane]) {
            addf(t, "%s%llu at %s%u", many ? ", " : " Steps with a handler open: ", (unsigned long long)d->busy[lane],
                many ? "" : "priority ", lane);
            many++;
        }
    if (many)
        addf(t, ".");
}

static void add_counts(struct text *t, const struct picture *d)
{
    unsigned long devices = d->told[XM23_KIND_ACCEPT] + d->told[XM23_KIND_CHAIN];
    addf(t, "%lu step%s, %lu event%s due, %lu fault%s%s. ", (unsigned long)d->steps, d->steps == 1 ? "" : "s",
        d->told[XM23_KIND_EVENT], d->told[XM23_KIND_EVENT] == 1 ? "" : "s",
        d->told[XM23_KIND_FAULT] + d->told[XM23_KIND_HALT],
        d->told[XM23_KIND_FAULT] + d->told[XM23_KIND_HALT] == 1 ? "" : "s",
        d->told[XM23_KIND_HALT] ? ", the last of which halts" : "");
    addf(t, "Handlers entered: %lu of devices, %lu of SVC, %lu of faults. ", devices, d->told[XM23_KIND_TRAP],
        d->told[XM23_KIND_FAULT]);
    addf(t, "Open at the close: %lu.", (unsigned long)d->open);
    if (d->strays)
        addf(t, " Returns with no handler open: %lu.", d->strays);
    add_busy(t, d);
}

static void add_key(struct text *t, const struct picture *d)
{
    uint32_t most = (d->steps + COLUMNS - 1) / COLUMNS;
    addf(t, "<p class=\"small\">Steps go across. A bar is a handler, from the step that enters it to the one that "
        "returns, in the lane of the priority that it is entered with: a high bar of a device, a low one of SVC or of "
        "a fault. Ticks above are events that came due, ticks below are faults. The dashed line is where the walk "
        "begins.");
    if (most > 1)
        addf(t, " A column has %lu steps or fewer: bars and ticks that are closer together are drawn as one.",
            (unsigned long)most);
    addf(t, "</p>\n");
}

void add_picture(struct text *t, const struct picture *d, uint32_t walk)
{
    addf(t, "<h2>The whole run</h2>\n");
    if (!d->steps) {
        addf(t, "<p>No step was taken.</p>\n");
        return;
    }
    addf(t, "<p>");
    add_counts(t, d);
    addf(t, "</p>\n<svg id=\"run\" role=\"img\" aria-labelledby=\"run_title run_desc\" height=\"%u\">\n", AXIS + 22u);
    addf(t, "<title id=\"run_title\">Picture of the whole run</title>\n<desc id=\"run_desc\">");
    add_counts(t, d);
    addf(t, "</desc>\n");
    add_labels(t);
    add_axis(t, d);
    add_columns(t, d);
    add_walk_mark(t, d, walk);
    addf(t, "</svg>\n");
    add_key(t, d);
}
