/* Runs that keep their steps, and steps back: xm23_run_journal and xm23_back. */
#include "host.h"

/* Four records, and one that no call is lent. */
static uint8_t journal[XM23_JOURNAL_SIZE * 5], journal_before[sizeof journal];
static size_t journal_len;
static uint32_t kept, place;

/* A program that stores R1, which it counts up, in the words from #0100 on; an empty journal. */
static void writer(void)
{
    example();
    put_two(record + XM23_RECORD_REGISTER(1), 0xA000);
    put_two(record + XM23_RECORD_REGISTER(2), 0x0100);
    put_two(record + XM23_RECORD_REGISTER(7), 0x1000);
    put_two(memory + 0x1000, 0x5C8A); /* ST R1,R2+ */
    put_two(memory + 0x1002, 0x4089); /* ADD #1,R1 */
    put_two(memory + 0x1004, 0x3FFD); /* BRA to the store */
    memset(journal, 0x5A, sizeof journal);
    journal_len = 4 * XM23_JOURNAL_SIZE;
    kept = 0;
    place = 3;
}

static uint64_t run_kept(uint64_t n)
{
    memcpy(memory_before, memory, sizeof memory);
    memcpy(record_before, record, sizeof record);
    memcpy(events_before, events, sizeof events);
    memcpy(log_before, screen, sizeof screen);
    memcpy(journal_before, journal, sizeof journal);
    return xm23_run_journal(memory, memory_len, record, record_len, events, events_len, screen, log_len, &deepest,
                            journal, journal_len, &kept, &place, n);
}

/* Everything that is lent and handed over is as it was. */
static void as_it_was(const char *what, uint32_t deep, uint32_t many, uint32_t next)
{
    same(what, (uint64_t)memcmp(memory, memory_before, sizeof memory), 0);
    same(what, (uint64_t)memcmp(record, record_before, sizeof record), 0);
    same(what, (uint64_t)memcmp(events, events_before, sizeof events), 0);
    same(what, (uint64_t)memcmp(screen, log_before, sizeof screen), 0);
    same(what, (uint64_t)memcmp(journal, journal_before, sizeof journal), 0);
    same(what, deepest, deep);
    same(what, kept, many);
    same(what, place, next);
}

static void not_kept(const char *what, uint64_t n, unsigned refusal)
{
    uint32_t deep = deepest, many = kept, next = place;
    same(what, run_kept(n), refusal);
    as_it_was(what, deep, many, next);
}

static uint32_t back(uint64_t k)
{
    memcpy(memory_before, memory, sizeof memory);
    memcpy(record_before, record, sizeof record);
    memcpy(events_before, events, sizeof events);
    memcpy(log_before, screen, sizeof screen);
    memcpy(journal_before, journal, sizeof journal);
    return xm23_back(memory, memory_len, record, record_len, journal, journal_len, &kept, &place, k);
}

static void not_back(const char *what, uint64_t k, unsigned refusal)
{
    uint32_t deep = deepest, many = kept, next = place;
    same(what, back(k), refusal);
    as_it_was(what, deep, many, next);
}

static void journals(void)
{
    static uint8_t memory_then[sizeof memory], record_then[sizeof record];
    const uint8_t *newest = journal + XM23_JOURNAL_SIZE * 2;
    unsigned i;
    writer();
    same("six steps", run_kept(6), (uint64_t)6 << 16);
    same("six steps, kept", kept, 4);
    same("six steps, place", place, 1);
    same("depth", deepest, 0);
    same("behind the journal",
         (uint64_t)memcmp(journal + journal_len, journal_before + journal_len, XM23_JOURNAL_SIZE), 0);
    /* Step 3 stored #A001 at #0102; it is the third of the four that are kept, at place 2. */
    same("state before the step", two(newest + XM23_JOURNAL_RECORD + XM23_RECORD_REGISTER(7)), 0x1000);
    same("its count", two(newest + XM23_JOURNAL_RECORD + XM23_RECORD_COUNT), 3);
    same("device bytes", (uint64_t)memcmp(newest + XM23_JOURNAL_DEVICES, memory, 16), 0);
    same("address", two(newest + XM23_JOURNAL_ADDRESS), 0x0102);
    for (i = 0; i < 8; i++)
        same("the eight bytes", newest[XM23_JOURNAL_BYTES + i], 0);
    for (i = 0; i < 6; i++)
        same("zeros", newest[XM23_JOURNAL_ZERO + i], 0);

    memcpy(memory_then, memory, sizeof memory);
    memcpy(record_then, record, sizeof record);
    same("back 3", back(3), XM23_ACCEPTED);
    same("kept", kept, 1);
    same("place, wrapped", place, 2);
    same("the journal stays", (uint64_t)memcmp(journal, journal_before, sizeof journal), 0);
    same("count", two(record + XM23_RECORD_COUNT), 3);
    same("the word is gone", two(memory + 0x0102), 0);
    same("the one before it is there", two(memory + 0x0100), 0xA000);
    same("on again", XM23_RUN_STEPS(run_kept(3)), 3);
    same("the same memory", (uint64_t)memcmp(memory, memory_then, sizeof memory), 0);
    same("the same record", (uint64_t)memcmp(record, record_then, sizeof record), 0);
    same("back 0", back(0), XM23_ACCEPTED);
    same("nothing", (uint64_t)memcmp(record, record_then, sizeof record), 0);
    not_back("five", 5, XM23_REFUSED_BACK);
    not_back("all there are", UINT64_MAX, XM23_REFUSED_BACK);
    same("all four", back(4), XM23_ACCEPTED);
    same("none left", kept, 0);
    same("count, then", two(record + XM23_RECORD_COUNT), 2);
    not_back("one more", 1, XM23_REFUSED_BACK);
}

static void refused_journals(void)
{
    static const size_t lengths[] = {0, 1, 63, 65, 128 + 32};
    size_t i;
    for (i = 0; i < sizeof lengths / sizeof *lengths; i++) {
        writer();
        place = 0;
        journal_len = lengths[i];
        not_kept("length of the journal", 1, XM23_REFUSED_JOURNAL);
        not_kept("no step asked for", 0, XM23_REFUSED_JOURNAL);
        not_back("length of the journal, back", 0, XM23_REFUSED_JOURNAL);
    }
    writer();
    kept = 5;
    not_kept("number kept", 1, XM23_REFUSED_JOURNAL);
    not_back("number kept, back", 5, XM23_REFUSED_JOURNAL);
    writer();
    place = 4;
    not_kept("next place", 1, XM23_REFUSED_JOURNAL);
    not_back("14 before 15", 1, XM23_REFUSED_JOURNAL);
    kept = place = UINT32_MAX;
    not_kept("both numbers", 1, XM23_REFUSED_JOURNAL);

    /* 14 comes last of a run, and after 1 and 3 of going back; each of the others is a run's too. */
    log_len = 7;
    not_kept("9 before 14", 1, XM23_REFUSED_LOG);
    events_len = 2 * XM23_EVENT_SIZE;
    not_kept("13 before 9", 1, XM23_REFUSED_EVENT_TWINS);
    put_event(0, 1, 0, 0);
    not_kept("7", 1, XM23_REFUSED_EVENT_ORDER);
    put_event(0, 1, 8, 0);
    not_kept("6", 1, XM23_REFUSED_EVENT_FIELDS);
    events_len = 1;
    not_kept("5", 1, XM23_REFUSED_EVENTS);
    record[XM23_RECORD_ZERO] = 1;
    not_kept("4", 1, XM23_REFUSED_RECORD_BITS);
    not_back("4 is not tested", 1, XM23_REFUSED_JOURNAL);
    not_kept("2", XM23_MAX_STEPS + 1, XM23_REFUSED_STEPS);
    record_len = 31;
    not_kept("3", 1, XM23_REFUSED_RECORD);
    not_back("3 before 14", 1, XM23_REFUSED_RECORD);
    memory_len = 65535;
    not_kept("1", 1, XM23_REFUSED_MEMORY);
    not_back("1 before 3", 1, XM23_REFUSED_MEMORY);
    same("nothing", xm23_back(NULL, 0, NULL, 0, NULL, 0, &kept, &place, 0), XM23_REFUSED_MEMORY);
    same("nothing", xm23_run_journal(NULL, 0, NULL, 0, NULL, 0, NULL, 0, &deepest, NULL, 0, &kept, &place, 0),
         XM23_REFUSED_MEMORY);
}

void journal_calls(void)
{
    journals();
    refused_journals();
}
