/* Programs that are alike, found by their prints. Nothing is decided here: a person looks at what is told. */
#include <stdlib.h>
#include <string.h>

#include "alike.h"

#define MOST_SEEN ((size_t)1 << 20) /* prints that are kept: 16 MB */
#define MOST_HITS ((size_t)1 << 20) /* prints that two programs share: 16 MB */
#define MOST_SHOWN 200              /* bytes of a name */

struct seen {
    uint64_t hash;
    uint32_t program;
    uint16_t at;
    uint8_t ignored;
};

struct hit {
    uint32_t a, b;
    uint16_t at_a, at_b;
    uint8_t ignored;
};

/* What two programs share, and where a run stands that counts for nothing: both in order; of one program the words in
 * such a run. */
struct hits {
    struct hit *each;
    size_t many;
    struct spot {
        uint32_t program;
        uint16_t at;
    } *spots;
    size_t many_spots, next;
    uint32_t of;
    uint8_t words[XM23_MEMORY_SIZE / 2 + RUN];
};

void open_alike(struct alike *x, size_t many)
{
    memset(x, 0, sizeof *x);
    x->many = many;
    x->each = (struct kin *)room_for(NULL, many * sizeof *x->each);
    memset(x->each, 0, many * sizeof *x->each);
}

void drop_alike(struct alike *x)
{
    free(x->each);
    free(x->table);
    free(x->pairs);
    free(x->common);
    memset(x, 0, sizeof *x);
}

size_t most_common(const struct alike *x)
{
    size_t quarter = x->compared / 4;
    return quarter < LEAST_COMMON ? LEAST_COMMON : quarter > MOST_COMMON ? MOST_COMMON : quarter;
}

/* ---- taking */

static int is_kept(const struct alike *x, uint64_t hash)
{
    return (hash >> 20 & x->mask) == 0;
}

/* Half of the prints go, by their hashes. */
static void thin_out(struct alike *x)
{
    size_t kept = 0;
    x->mask = 2 * x->mask + 1;
    for (size_t i = 0; i < x->filled; i++)
        if (is_kept(x, x->table[i].hash))
            x->table[kept++] = x->table[i];
    x->filled = kept;
}

static void add_seen(struct alike *x, size_t i, const struct print *f)
{
    struct seen *s;
    while (x->filled == MOST_SEEN && x->mask < 0xFFFFF)
        thin_out(x);
    if (x->filled == MOST_SEEN || !is_kept(x, f->hash))
        return;
    s = &x->table[x->filled++];
    s->hash = f->hash;
    s->program = (uint32_t)i;
    s->at = f->at;
    s->ignored = f->ignored;
}

void take_alike(struct alike *x, size_t i, const struct prints *f)
{
    struct kin *k = &x->each[i];
    size_t room = x->filled + f->many < MOST_SEEN ? x->filled + f->many : MOST_SEEN;
    k->words = f->words;
    k->ignored = f->ignored;
    memcpy(k->same, f->same, sizeof k->same);
    memcpy(k->shape, f->shape, sizeof k->shape);
    x->compared++;
    if (room / 4096 != x->filled / 4096 || !x->table)
        x->table = (struct seen *)room_for(x->table, (room / 4096 + 1) * 4096 * sizeof *x->table);
    for (uint32_t n = 0; n < f->many; n++)
        add_seen(x, i, &f->each[n]);
}

/* ---- groups */

static const struct kin *sorted_kin;

static int by_same(const void *a, const void *b)
{
    uint32_t x = *(const uint32_t *)a, y = *(const uint32_t *)b;
    int order = strcmp(sorted_kin[x].same, sorted_kin[y].same);
    return order ? order : (x > y) - (x < y);
}

static int by_shape(const void *a, const void *b)
{
    uint32_t x = *(const uint32_t *)a, y = *(const uint32_t *)b;
    int order = strcmp(sorted_kin[x].shape, sorted_kin[y].shape);
    return order ? order : (x > y) - (x < y);
}

static const char *same_of(const struct kin *k)
{
    return k->same;
}

static const char *shape_of(const struct kin *k)
{
    return k->shape;
}

/* Tells every program the first that has its digest, another that has it, and how many do. */
static void group(struct alike *x, const uint32_t *order, const char *(*digest)(const struct kin *),
                  void (*tell)(struct kin *, uint32_t first, uint32_t other, uint32_t many))
{
    for (size_t from = 0, to; from < x->many; from = to) {
        for (to = from + 1; to < x->many; to++)
            if (strcmp(digest(&x->each[order[from]]), digest(&x->each[order[to]])) != 0)
                break;
        for (size_t i = from; i < to; i++) {
            struct kin *k = &x->each[order[i]];
            int alone = !digest(k)[0] || to - from == 1;
            tell(k, alone ? order[i] : order[from], alone ? order[i] : order[i == from ? i + 1 : from],
                 alone ? 1 : (uint32_t)(to - from));
        }
    }
}

static void tell_same(struct kin *k, uint32_t first, uint32_t other, uint32_t many)
{
    k->same_first = first;
    k->same_other = other;
    k->same_many = many;
}

static void tell_shape(struct kin *k, uint32_t first, uint32_t other, uint32_t many)
{
    k->shape_first = first;
    k->shape_other = other;
    k->shape_many = many;
}

static void find_groups(struct alike *x)
{
    uint32_t *order = (uint32_t *)room_for(NULL, x->many * sizeof *order);
    for (size_t i = 0; i < x->many; i++)
        order[i] = (uint32_t)i;
    sorted_kin = x->each;
    qsort(order, x->many, sizeof *order, by_same);
    group(x, order, same_of, tell_same);
    qsort(order, x->many, sizeof *order, by_shape);
    group(x, order, shape_of, tell_shape);
    free(order);
}

/* ---- runs that two share */

static int by_run(const void *a, const void *b)
{
    const struct seen *x = (const struct seen *)a, *y = (const struct seen *)b;
    if (x->hash != y->hash)
        return x->hash < y->hash ? -1 : 1;
    if (x->program != y->program)
        return x->program < y->program ? -1 : 1;
    return (x->at > y->at) - (x->at < y->at);
}

/* Of programs with the same words one stands for all. */
static void keep_one(struct alike *x)
{
    size_t kept = 0;
    for (size_t i = 0; i < x->filled; i++)
        if (x->each[x->table[i].program].same_first == x->table[i].program)
            x->table[kept++] = x->table[i];
    x->filled = kept;
    if (kept)
        qsort(x->table, kept, sizeof *x->table, by_run);
}

/* The pairs of programs that have one run. Those that are the same but for registers are told as a group. */
static void add_hits(const struct alike *x, const struct seen **in, size_t many, struct hits *all)
{
    for (size_t i = 0; i < many; i++)
        for (size_t k = i + 1; k < many && all->many < MOST_HITS; k++) {
            const struct seen *a = in[i], *b = in[k];
            struct hit *h;
            if (x->each[a->program].shape_many > 1 &&
                x->each[a->program].shape_first == x->each[b->program].shape_first)
                continue;
            if (all->many % 4096 == 0)
                all->each = (struct hit *)room_for(all->each, (all->many + 4096) * sizeof *all->each);
            h = &all->each[all->many];
            h->a = a->program;
            h->b = b->program;
            h->at_a = a->at;
            h->at_b = b->at;
            h->ignored = a->ignored;
            all->many++;
        }
}

/* A run that counts for nothing, and its places. */
static void add_common(struct alike *x, const struct seen *from, size_t many, struct hits *all)
{
    x->common[x->many_common++] = from->hash;
    for (size_t i = 0; i < many; i++) {
        all->spots[all->many_spots].program = from[i].program;
        all->spots[all->many_spots++].at = from[i].at;
    }
}

static int by_spot(const void *a, const void *b)
{
    const struct spot *x = (const struct spot *)a, *y = (const struct spot *)b;
    if (x->program != y->program)
        return x->program < y->program ? -1 : 1;
    return (x->at > y->at) - (x->at < y->at);
}

/* The programs that have one run, each by its first place, as far as there is room; how many there are. */
static size_t places_in(const struct seen *from, size_t many, const struct seen *in[MOST_COMMON])
{
    size_t programs = 0;
    for (size_t i = 0; i < many; i++)
        if (!i || from[i].program != from[i - 1].program) {
            if (programs < MOST_COMMON)
                in[programs] = &from[i];
            programs++;
        }
    return programs;
}

static void find_hits(struct alike *x, struct hits *all)
{
    memset(all, 0, sizeof *all);
    all->of = UINT32_MAX;
    all->spots = (struct spot *)room_for(NULL, x->filled * sizeof *all->spots);
    x->common = (uint64_t *)room_for(NULL, (x->filled / LEAST_COMMON + 1) * sizeof *x->common);
    for (size_t from = 0, to; from < x->filled; from = to) {
        const struct seen *in[MOST_COMMON];
        size_t programs;
        for (to = from + 1; to < x->filled && x->table[to].hash == x->table[from].hash;)
            to++;
        programs = places_in(x->table + from, to - from, in);
        if (programs > most_common(x))
            add_common(x, x->table + from, to - from, all);
        else
            add_hits(x, in, programs, all);
    }
    if (all->many_spots)
        qsort(all->spots, all->many_spots, sizeof *all->spots, by_spot);
}

static int by_pair(const void *a, const void *b)
{
    const struct hit *x = (const struct hit *)a, *y = (const struct hit *)b;
    if (x->a != y->a)
        return x->a < y->a ? -1 : 1;
    if (x->b != y->b)
        return x->b < y->b ? -1 : 1;
    if (x->ignored != y->ignored)
        return x->ignored < y->ignored ? -1 : 1;
    return (x->at_a > y->at_a) - (x->at_a < y->at_a);
}

/* The words of a program that stand in a run which counts for nothing, worked out once for the pairs of one. */
static const uint8_t *covered(struct hits *all, uint32_t program)
{
    if (all->of == program)
        return all->words;
    memset(all->words, 0, sizeof all->words);
    while (all->next < all->many_spots && all->spots[all->next].program < program)
        all->next++;
    for (; all->next < all->many_spots && all->spots[all->next].program == program; all->next++)
        memset(all->words + all->spots[all->next].at / 2, 1, RUN);
    all->of = program;
    return all->words;
}

/* One pair of its hits, runs by their places: words that are in any of them, and the longest that goes on in both. */
static void add_pair(struct pair *p, const struct hit *h, size_t many, const uint8_t *common)
{
    unsigned end = 0, length = 0;
    uint16_t from_a = 0, from_b = 0;
    memset(p, 0, sizeof *p);
    p->a = h->a;
    p->b = h->b;
    for (size_t i = 0; i < many; i++) {
        unsigned last = h[i].at_a + 2 * RUN;
        unsigned further = i ? (unsigned)(h[i].at_a - h[i - 1].at_a) : 0;
        int goes_on = i && further <= 2 * RUN && h[i].at_b - h[i - 1].at_b == (int)further;
        if (h[i].ignored) {
            p->ignored += !i || !h[i - 1].ignored || h[i - 1].at_a != h[i].at_a;
            continue;
        }
        for (unsigned at = h[i].at_a > end ? h[i].at_a : end; at < last; at += 2)
            p->words += !common[at / 2];
        end = last;
        length = goes_on ? length + further / 2 : RUN;
        from_a = goes_on ? from_a : h[i].at_a;
        from_b = goes_on ? from_b : h[i].at_b;
        if (length > p->longest) {
            p->longest = (uint16_t)length;
            p->at_a = from_a;
            p->at_b = from_b;
        }
    }
    if (!p->longest) {
        p->at_a = h->at_a;
        p->at_b = h->at_b;
    }
}

/* Those with ignored bits first, then by words. */
static int by_weight(const void *a, const void *b)
{
    const struct pair *x = (const struct pair *)a, *y = (const struct pair *)b;
    if (x->ignored != y->ignored)
        return x->ignored > y->ignored ? -1 : 1;
    if (x->words != y->words)
        return x->words > y->words ? -1 : 1;
    if (x->a != y->a)
        return x->a < y->a ? -1 : 1;
    return (x->b > y->b) - (x->b < y->b);
}

/* The pairs that have a run's words, those of runs that count for nothing left out, or an ignored bit. */
static void join_hits(struct alike *x, struct hits *all)
{
    const struct hit *h = all->each;
    for (size_t from = 0, to; from < all->many; from = to) {
        struct pair p;
        for (to = from + 1; to < all->many && h[to].a == h[from].a && h[to].b == h[from].b;)
            to++;
        add_pair(&p, h + from, to - from, covered(all, h[from].a));
        if (p.words < RUN && !p.ignored)
            continue;
        if (x->many_pairs % 1024 == 0)
            x->pairs = (struct pair *)room_for(x->pairs, (x->many_pairs + 1024) * sizeof *x->pairs);
        x->pairs[x->many_pairs++] = p;
    }
}

static void find_pairs(struct alike *x)
{
    static struct hits all;
    find_hits(x, &all);
    free(x->table);
    x->table = NULL;
    x->filled = 0;
    if (all.many)
        qsort(all.each, all.many, sizeof *all.each, by_pair);
    join_hits(x, &all);
    free(all.each);
    free(all.spots);
    if (x->many_pairs)
        qsort(x->pairs, x->many_pairs, sizeof *x->pairs, by_weight);
    for (size_t i = 0; i < x->many_pairs; i++) {
        struct kin *two[2] = {&x->each[x->pairs[i].a], &x->each[x->pairs[i].b]};
        for (unsigned k = 0; k < 2; k++)
            two[k]->best = two[k]->partners++ ? two[k]->best : (uint32_t)i + 1;
    }
}

void find_alike(struct alike *x)
{
    find_groups(x);
    keep_one(x);
    find_pairs(x);
}

/* ---- in words */

static void add_short(struct text *t, const char *name)
{
    size_t length = strlen(name);
    add_bytes(t, name, length < MOST_SHOWN ? length : MOST_SHOWN);
    addf(t, "%s", length < MOST_SHOWN ? "" : " ..");
}

static void add_others(struct text *t, unsigned long more)
{
    if (more)
        addf(t, " and %lu more", more);
}

static void add_bits(struct text *t, uint32_t ignored)
{
    if (ignored)
        addf(t, "%lu ignored bit%s set alike: ", (unsigned long)ignored, ignored == 1 ? "" : "s");
}

static void add_best(struct text *t, const struct alike *x, char **names, size_t i)
{
    const struct pair *p = &x->pairs[x->each[i].best - 1];
    add_bits(t, p->ignored);
    if (p->words)
        addf(t, "shares %lu words with ", (unsigned long)p->words);
    else
        addf(t, "as ");
    add_short(t, names[p->a == i ? p->b : p->a]);
    add_others(t, x->each[i].partners - 1ul);
}

void add_alike(struct text *t, const struct alike *x, char **names, size_t i)
{
    const struct kin *k = &x->each[i];
    if (k->same_many > 1) {
        add_bits(t, k->ignored);
        addf(t, "same as ");
        add_short(t, names[k->same_other]);
        add_others(t, k->same_many - 2ul);
    } else if (k->shape_many > 1) {
        addf(t, "same but for registers as ");
        add_short(t, names[k->shape_other]);
        add_others(t, k->shape_many - 2ul);
    } else if (k->best) {
        add_best(t, x, names, i);
    }
}
