/* xm23 stack: the stack bytes that the handlers of a paper can need together. */
#include <unistd.h>

#include "desk.h"
#include "stack.h"

/* A row for each device that the paper gives a use of, then the figure. */
static void add_rows(struct text *t, const struct paper *p, const uint8_t *vectors, uint32_t bytes)
{
    addf(t, "device  priority  use\n");
    for (unsigned d = 0; d < 8; d++)
        if (p->devices >> d & 1)
            addf(t, "%-8u%-10u%u\n", d, XM23_PSW_CURRENT(get_word(vectors, 4 * d)), get_word(p->uses, 2 * d));
    addf(t, "above priority %lu: %lu bytes\n", (unsigned long)p->priority, (unsigned long)bytes);
}

/* The line of the paper that a refused call is about. */
static uint32_t line_of(const struct paper *p)
{
    for (unsigned d = 0; d < 8; d++)
        if (get_word(p->uses, 2 * d) > XM23_MAX_USE)
            return p->use_line[d];
    return p->priority_line;
}

/* The vectors before the first step: the program's, and the paper's over them. */
static void lay_vectors(const struct paper *p, const struct assembled *a, uint8_t *vectors)
{
    for (unsigned i = 0; i < XM23_VECTORS_SIZE; i++)
        vectors[i] = p->set[XM23_VECTORS + i] ? p->memory[XM23_VECTORS + i] : a->memory[XM23_VECTORS + i];
}

/* The first device with a use whose vector's PSW, and so its priority, nobody lays; 8: none. */
static unsigned without_vector(const struct paper *p, const struct assembled *a)
{
    for (unsigned d = 0; d < 8; d++)
        for (unsigned at = XM23_VECTORS + 4 * d; p->devices >> d & 1 && at < XM23_VECTORS + 4 * d + 2; at++)
            if (!p->set[at] && !a->set[at])
                return d;
    return 8;
}

struct need stack_need(const struct paper *p, const struct assembled *a)
{
    uint8_t vectors[XM23_VECTORS_SIZE];
    struct need n;
    uint32_t reply;
    lay_vectors(p, a, vectors);
    reply = xm23_stack(vectors, sizeof vectors, p->devices, p->uses, XM23_USES_SIZE, (uint32_t)p->priority);
    n.refusal = XM23_REFUSAL(reply);
    n.bytes = XM23_STACK_BYTES(reply);
    n.without = without_vector(p, a);
    n.line = n.refusal ? line_of(p) : 0;
    return n;
}

static int no_vector(const struct paper *p, unsigned d, const char *program)
{
    if (program)
        say_at(p->name, p->use_line[d], "the vector of device %u is neither in the paper nor in %s", d, program);
    else
        say_at(p->name, p->use_line[d], "the vector of device %u, which has its priority, is not in the paper; "
               "'xm23 stack PAPER PROGRAM' takes it from a program", d);
    return REFUSED;
}

/* `program` is the name of the one that was given, or NULL. */
static int tell_bytes(const struct paper *p, const struct assembled *a, const char *program)
{
    struct need n = stack_need(p, a);
    uint8_t vectors[XM23_VECTORS_SIZE];
    struct text t = {0};
    int status;
    if (n.refusal)
        return say_refusal(p->name, n.line, n.refusal, xm23_refusal_text(n.refusal));
    if (!p->devices) {
        say_at(p->name, 0, "has no line 'use DEVICE BYTES'");
        return REFUSED;
    }
    if (n.without < 8)
        return no_vector(p, n.without, program);
    lay_vectors(p, a, vectors);
    add_rows(&t, p, vectors, n.bytes);
    status = write_file("-", &t);
    drop_text(&t);
    return status;
}

static int with_file(const struct paper *p, const char *name, struct assembled *a)
{
    struct program program = {0};
    struct fault f = {0};
    int status = take_program(name, &program);
    if (status == DONE)
        status = load_program(&program, a, &f) ? tell_bytes(p, a, name) : say_fault(name, &f);
    drop_text(&f.why);
    drop_program(&program);
    return status;
}

int xm23_desk_stack(int argc, char **argv)
{
    static struct assembled a;
    static struct paper p;
    int option = getopt(argc, argv, "+:"), status;
    if (option != -1)
        return wrong_option("stack", option, NULL);
    if (argc - optind < 1 || argc - optind > 2)
        return wrong_words("stack", argc - optind, argv + optind, 2);
    status = read_paper(argv[optind], &p);
    if (status == DONE) {
        status = argv[optind + 1] ? with_file(&p, argv[optind + 1], &a) : tell_bytes(&p, &a, NULL);
        drop_paper(&p);
    }
    return status;
}
