/* A candidate's program, S-records or a source or a folder of both, which the library judges; a paper's machine before
 * its first step. */
#include <errno.h>
#include <fcntl.h>
#include <stdlib.h>
#include <string.h>
#include <strings.h>
#include <sys/stat.h>

#include "desk.h"
#include "source.h"
#include "way.h"

/* ---- reading */

static int read_one(int at, const char *last, enum reading kind, size_t most, struct program *p, struct text *why)
{
    size_t length = 0;
    char *bytes = read_file_at(at, last, kind, most, &length, why);
    if (bytes)
        add_file(p, p->name, bytes, length);
    return bytes != NULL;
}

/* Whether what is named is a folder; a link to one is where links are followed. */
static int is_folder(int at, const char *last, enum reading kind)
{
    struct stat is;
    return fstatat(at, last, &is, kind == REGULAR_FILE ? AT_SYMLINK_NOFOLLOW : 0) == 0 && S_ISDIR(is.st_mode);
}

int read_program(const char *name, enum reading kind, size_t shared, struct program *p, struct text *why)
{
    size_t most = kind == ANY_FILE ? MOST_TEXT : MOST_PROGRAM;
    const char *last = name;
    int at = kind == REGULAR_FILE ? open_way(name, shared, &last, why) : AT_FDCWD, good, problem;
    memset(p, 0, sizeof *p);
    p->name = name;
    if (at == -1)
        return 0;
    p->folder = is_folder(at, last, kind);
    good = p->folder ? read_program_folder(at, last, kind, most, p, why) : read_one(at, last, kind, most, p, why);
    problem = errno;
    close_way(at);
    errno = problem;
    return good;
}

/* DONE, or UNREADABLE with the reason told. */
static int told(const char *name, int good, struct text *why)
{
    if (!good)
        say_at(name, 0, "%s", why->at);
    drop_text(why);
    return good ? DONE : UNREADABLE;
}

int take_program(const char *name, struct program *p)
{
    struct text why = {0};
    int good = read_program(name, ANY_FILE, 0, p, &why);
    return told(name, good, &why);
}

int take_file(const char *name, struct program *p)
{
    struct text why = {0};
    int good;
    memset(p, 0, sizeof *p);
    p->name = name;
    good = read_one(AT_FDCWD, name, ANY_FILE, MOST_TEXT, p, &why);
    return told(name, good, &why);
}

void drop_program(struct program *p)
{
    for (unsigned i = 0; i < p->many; i++) {
        free(p->files[i].path);
        free(p->files[i].bytes);
    }
    memset(p, 0, sizeof *p);
}

/* ---- the files as they were handed in */

int digest_program(const struct program *p, char *digits)
{
    struct text t = {0};
    int good = 1;
    if (!p->folder)
        return sha256(p->files[0].bytes, p->files[0].length, digits);
    for (unsigned i = 0; good && i < p->many; i++) {
        good = sha256(p->files[i].bytes, p->files[i].length, digits);
        addf(&t, "%s  ", digits);
        add_bytes(&t, p->files[i].name, strlen(p->files[i].name) + 1);
    }
    good = good && sha256(t.at, t.length, digits);
    drop_text(&t);
    return good;
}

int overwrites_program(const char *to, const struct program *p)
{
    for (unsigned i = 0; i < p->many; i++)
        if (overwrites(to, p->files[i].path))
            return 1;
    return 0;
}

/* ---- loading */

/* A refused text; of a first line that is no S-record, what it may be, or how a source is told from S-records. */
static int refused(uint64_t reply, const char *text, size_t length, struct fault *f)
{
    f->refusal = XM23_REFUSAL(reply);
    f->line = XM23_LOAD_LINE(reply);
    addf(&f->why, "%s", xm23_refusal_text(f->refusal));
    if (f->refusal == XM23_REFUSED_SREC_FORM && f->line == 1)
        addf(&f->why, " (%s)", !length ? "the file is empty"
                               : has_order_mark(text, length) ? "it begins with a byte order mark"
                                                              : "a source's name ends in .asm");
    return 0;
}

/* Loaded over zeros and over ones: a byte that is the same in both is one that the S-records name. */
int load_srec(const char *text, size_t length, struct assembled *a, struct fault *f)
{
    const uint8_t *bytes = (const uint8_t *)text;
    uint64_t reply;
    memset(a->memory, 0, sizeof a->memory);
    memset(a->set, 0xFF, sizeof a->set);
    reply = xm23_load_srec(a->memory, sizeof a->memory, bytes, length, 0);
    if (XM23_REFUSAL(reply))
        return refused(reply, text, length, f);
    xm23_load_srec(a->set, sizeof a->set, bytes, length, 0);
    for (unsigned at = 0; at < XM23_MEMORY_SIZE; at++)
        a->set[at] = a->set[at] == a->memory[at];
    a->pc = XM23_LOAD_PC(reply);
    return 1;
}

int load_file(const struct handed *h, struct assembled *a, struct fault *f)
{
    return is_source(h->name) ? assemble_source(h->bytes, h->length, a, f) : load_srec(h->bytes, h->length, a, f);
}

unsigned starting_file(const struct program *p)
{
    for (unsigned i = 0; i < p->many; i++)
        if (strncasecmp(p->files[i].name, "program.", 8) == 0 && strlen(p->files[i].name) == 11)
            return i;
    return 0;
}

/* The bytes of a file among those of the files before it, each of which has an owner. 0 where two have a byte. */
static int merge_file(const struct program *p, unsigned i, const struct assembled *one, struct assembled *all,
                      uint8_t *owner, struct fault *f)
{
    for (unsigned at = 0; at < XM23_MEMORY_SIZE; at++) {
        if (one->set[at] && all->set[at]) {
            addf(&f->why, "%s and %s both have $%04X", p->files[owner[at]].name, p->files[i].name, at);
            return 0;
        }
        if (one->set[at]) {
            all->memory[at] = one->memory[at];
            all->set[at] = 1;
            owner[at] = (uint8_t)i;
        }
    }
    return 1;
}

static int load_folder(const struct program *p, struct assembled *a, struct fault *f)
{
    static struct assembled one;
    static uint8_t owner[XM23_MEMORY_SIZE];
    memset(a, 0, sizeof *a);
    for (unsigned i = 0; i < p->many; i++) {
        if (!load_file(&p->files[i], &one, f)) {
            f->file = &p->files[i];
            return 0;
        }
        if (!merge_file(p, i, &one, a, owner, f))
            return 0;
        if (i == starting_file(p))
            a->pc = one.pc;
    }
    return 1;
}

int load_program(const struct program *p, struct assembled *a, struct fault *f)
{
    return p->folder ? load_folder(p, a, f) : load_file(&p->files[0], a, f);
}

int open_program(const struct paper *p, const struct program *program, struct machine *m, struct fault *f)
{
    static struct assembled a;
    if (!load_program(program, &a, f))
        return 0;
    memcpy(m->memory, a.memory, sizeof m->memory);
    memcpy(m->record, p->record, sizeof m->record);
    if (!p->start_line[7])
        put_word(m->record, XM23_RECORD_REGISTER(7), a.pc);
    for (unsigned at = 0; at < XM23_MEMORY_SIZE; at++)
        if (p->set[at])
            m->memory[at] = p->memory[at];
    return 1;
}

int say_refusal(const char *name, uint32_t line, unsigned refusal, const char *words)
{
    say_at(name, line, "R%u: %s", refusal, words);
    return REFUSED;
}

int say_fault(const char *name, const struct fault *f)
{
    const char *told = f->file ? f->file->path : name;
    if (f->refusal)
        say_refusal(told, f->line, f->refusal, f->why.at);
    else
        say_at(name, 0, "%s", f->why.at);
    if (f->refusal == XM23_REFUSED_SREC_FORM && ends_in(told, ".paper"))
        say_at(told, 0, "by its name it is a paper: the program stands behind it");
    if (f->hint[0])
        say_at(told, f->line, "%s", f->hint);
    return REFUSED;
}
