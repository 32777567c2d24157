/* The prints of a program. What a register is in a word, and its ignored bit, is asked of the library. */
#include <stdlib.h>
#include <string.h>

#include "prints.h"
#include "word.h"

/* ---- words, by the library */

/* Whether a word of two letters is a register, which the assembler says; asked once of each. */
static int is_register_name(const char *name)
{
    static uint8_t memory[XM23_MEMORY_SIZE], known[128][128];
    uint8_t *told = &known[name[0] & 127][name[1] & 127];
    struct text t = {0};
    if (!*told) {
        addf(&t, "SXT %.2s\nEND\n", name);
        *told = XM23_REFUSAL(xm23_assemble(memory, sizeof memory, (const uint8_t *)t.at, t.length)) ? 1 : 2;
        drop_text(&t);
    }
    return *told == 2;
}

static int in_word(char c)
{
    return (c >= 'A' && c <= 'Z') || (c >= '0' && c <= '9') || c == '$' || c == '#';
}

static uint64_t mixed(uint64_t hash, uint64_t value)
{
    hash = (hash ^ value) * 0x9E3779B97F4A7C15u;
    return hash ^ hash >> 29;
}

/* The text of a word without its ignored bit, at place 0, an R for each register. */
static uint64_t shape_of(uint16_t word)
{
    struct text t = {0};
    uint64_t hash = 1;
    add_statement(&t, 0, plain_word(word));
    for (size_t i = 0, length; i < t.length; i += length) {
        for (length = 0; in_word(t.at[i + length]);)
            length++;
        if (length == 2 && i && is_register_name(t.at + i))
            hash = mixed(hash, 'R');
        else
            for (size_t k = 0; k < (length ? length : 1); k++)
                hash = mixed(hash, (unsigned char)t.at[i + k]);
        length += !length;
    }
    drop_text(&t);
    return hash;
}

/* The same, kept from one call to the next. */
static uint64_t kept_shape(uint16_t word)
{
    static uint64_t shapes[65536];
    if (!shapes[word])
        shapes[word] = shape_of(word);
    return shapes[word];
}

/* ---- the words of a program */

void take_words(struct words *w, const struct paper *p, const struct assembled *a)
{
    w->many = 0;
    for (unsigned at = 0; at < XM23_MEMORY_SIZE; at += 2)
        if (a->set[at] && a->set[at + 1] && !p->set[at] && !p->set[at + 1]) {
            w->at[w->many] = (uint16_t)at;
            w->word[w->many++] = (uint16_t)get_word(a->memory, at);
        }
    memset(w->shared, 0, w->many);
}

/* The hash of the run that begins with a word; 0 where there is none, or it has too few different words. */
static uint64_t run_hash(const struct words *w, unsigned i)
{
    uint64_t hash = 2;
    unsigned different = 0;
    if (i + RUN > w->many || w->at[i + RUN - 1] - w->at[i] != 2 * (RUN - 1))
        return 0;
    for (unsigned k = 0; k < RUN; k++) {
        unsigned before = 0;
        while (before < k && w->word[i + before] != w->word[i + k])
            before++;
        different += before == k;
        hash = mixed(hash, w->word[i + k]);
    }
    return different < LEAST_WORDS ? 0 : hash | 1;
}

static int by_hash(const void *a, const void *b)
{
    uint64_t x = *(const uint64_t *)a, y = *(const uint64_t *)b;
    return (x > y) - (x < y);
}

static int has_hash(const uint64_t *hashes, size_t many, uint64_t hash)
{
    return many && bsearch(&hash, hashes, many, sizeof *hashes, by_hash) != NULL;
}

/* Every run's hash, in order; room for them is the caller's to free. */
static uint64_t *sorted_hashes(const struct words *w, size_t *many)
{
    uint64_t *hashes = (uint64_t *)room_for(NULL, w->many * sizeof *hashes);
    *many = 0;
    for (unsigned i = 0; i < w->many; i++)
        if ((hashes[*many] = run_hash(w, i)) != 0)
            ++*many;
    qsort(hashes, *many, sizeof *hashes, by_hash);
    return hashes;
}

/* The runs of what a paper lays, worked out once for it. */
static const uint64_t *paper_runs(const struct paper *p, size_t *many)
{
    static const struct paper *of;
    static uint64_t *hashes;
    static size_t kept;
    static struct words w;
    if (of != p) {
        w.many = 0;
        for (unsigned at = 0; at < XM23_MEMORY_SIZE; at += 2)
            if (p->set[at] && p->set[at + 1]) {
                w.at[w.many] = (uint16_t)at;
                w.word[w.many++] = (uint16_t)get_word(p->memory, at);
            }
        free(hashes);
        hashes = sorted_hashes(&w, &kept);
        of = p;
    }
    *many = kept;
    return hashes;
}

/* ---- prints */

static int digest_words(const struct words *w, struct prints *f)
{
    struct text same = {0}, shape = {0};
    int good = 1;
    for (unsigned i = 0; i < w->many; i++) {
        uint64_t kept = kept_shape(w->word[i]);
        add_bytes(&same, &w->word[i], sizeof w->word[i]);
        add_bytes(&shape, &kept, sizeof kept);
    }
    if (w->many >= RUN)
        good = sha256(same.at, same.length, f->same) && sha256(shape.at, shape.length, f->shape);
    drop_text(&same);
    drop_text(&shape);
    return good;
}

static void add_print(struct prints *f, uint64_t hash, uint16_t at, int ignored)
{
    struct print *x = &f->each[f->many];
    if (f->many == MOST_PRINTS)
        return;
    x->hash = hash;
    x->at = at;
    x->ignored = (uint8_t)ignored;
    f->many++;
}

/* Every run, or of too many every second, fourth and so on by its hash. */
static void add_runs(struct prints *f, const struct words *w, const struct paper *p)
{
    size_t many;
    const uint64_t *laid = paper_runs(p, &many);
    uint64_t mask = 0;
    while (w->many / (mask + 1) > MOST_PRINTS - MOST_IGNORED)
        mask = 2 * mask + 1;
    for (unsigned i = 0; i < w->many; i++) {
        uint64_t hash = run_hash(w, i);
        if (hash && (hash >> 40 & mask) == 0 && !has_hash(laid, many, hash))
            add_print(f, hash, w->at[i], 0);
    }
}

/* A word whose ignored bit is set, with the one before it and with the one behind it: data may look like one. */
static void add_ignored(struct prints *f, const struct words *w, unsigned i)
{
    if (i && w->at[i - 1] + 2 == w->at[i])
        add_print(f, mixed(mixed(3, w->word[i - 1]), w->word[i]) | 1, w->at[i], 1);
    if (i + 1 < w->many && w->at[i] + 2 == w->at[i + 1])
        add_print(f, mixed(mixed(4, w->word[i]), w->word[i + 1]) | 1, w->at[i], 1);
}

int take_prints(struct prints *f, const struct paper *p, const struct assembled *a)
{
    static struct words w;
    take_words(&w, p, a);
    memset(f, 0, sizeof *f);
    f->words = w.many;
    for (unsigned i = 0; i < w.many; i++)
        if (plain_word(w.word[i]) != w.word[i] && f->ignored++ < MOST_IGNORED / 2)
            add_ignored(f, &w, i);
    add_runs(f, &w, p);
    return digest_words(&w, f);
}

void pack_prints(struct text *t, const struct prints *f)
{
    size_t bytes = offsetof(struct prints, each) + f->many * sizeof *f->each;
    add_bytes(t, f, bytes);
}

int unpack_prints(const char *bytes, size_t length, struct prints *f)
{
    size_t head = offsetof(struct prints, each);
    if (length < head || length > sizeof *f)
        return 0;
    memcpy(f, bytes, length);
    f->same[sizeof f->same - 1] = f->shape[sizeof f->shape - 1] = 0;
    return f->many <= MOST_PRINTS && length == head + f->many * sizeof *f->each;
}

/* ---- two programs */

/* Marks the words of one in runs of the other; those that many programs have, or the paper, do not count. */
static void mark_shared(struct words *a, const uint64_t *hashes, size_t runs, const struct paper *p,
                        const uint64_t *common, size_t many)
{
    size_t laid_many;
    const uint64_t *laid = paper_runs(p, &laid_many);
    for (unsigned i = 0; i < a->many; i++) {
        uint64_t hash = run_hash(a, i);
        if (hash && has_hash(hashes, runs, hash) && !has_hash(laid, laid_many, hash) && !has_hash(common, many, hash))
            memset(a->shared + i, 1, RUN);
    }
}

/* Marks the words of one whose ignored bit is set, where the other has them and a word beside them. */
static void mark_ignored(struct words *a, const struct words *b)
{
    unsigned looked = 0;
    for (unsigned i = 0; i < a->many && looked < MOST_IGNORED / 2; i++) {
        if (plain_word(a->word[i]) == a->word[i])
            continue;
        looked++;
        for (unsigned k = 0; k < b->many; k++)
            if (a->word[i] == b->word[k] && ((i && k && a->word[i - 1] == b->word[k - 1]) ||
                                             (i + 1 < a->many && k + 1 < b->many && a->word[i + 1] == b->word[k + 1])))
                a->shared[i] = 1;
    }
}

void find_shared(struct words *a, struct words *b, const struct paper *p, const uint64_t *common, size_t many)
{
    size_t of_a, of_b;
    uint64_t *in_a = sorted_hashes(a, &of_a), *in_b = sorted_hashes(b, &of_b);
    mark_shared(a, in_b, of_b, p, common, many);
    mark_shared(b, in_a, of_a, p, common, many);
    mark_ignored(a, b);
    mark_ignored(b, a);
    free(in_a);
    free(in_b);
}
