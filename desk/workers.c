/* Worker processes: one program at a time each, within limits, and what becomes of one that is ended. */
#include "workers.h"
#include "desk.h"
#include "page.h"

#include <errno.h>
#include <poll.h>
#include <signal.h>
#include <stdio.h>
#include <stdlib.h>
#include <string.h>
#include <sys/resource.h>
#include <sys/socket.h>
#include <sys/time.h>
#include <sys/wait.h>
#include <unistd.h>

#define MOST_ANSWER 65536 /* bytes of a row: its screen text is bounded */

/* The checks of a compiler reserve more memory than there is. */
#if defined(__SANITIZE_ADDRESS__)
#define CHECKED 1
#elif defined(__has_feature)
#if __has_feature(address_sanitizer)
#define CHECKED 1
#endif
#endif

/* ---- stopping */

static volatile sig_atomic_t asked_to_stop;

static void note_signal(int signal)
{
    asked_to_stop = signal;
}

int stop_signal(void)
{
    return asked_to_stop;
}

/* One that is ignored already stays so. */
void notice_stop(void)
{
    static const int signals[] = {SIGINT, SIGTERM, SIGHUP};
    struct sigaction now, then;
    memset(&then, 0, sizeof then);
    then.sa_handler = note_signal;
    for (unsigned i = 0; i < sizeof signals / sizeof *signals; i++)
        if (sigaction(signals[i], NULL, &now) == 0 && now.sa_handler != SIG_IGN)
            sigaction(signals[i], &then, NULL);
}

/* ---- whole reads and writes between the two; 0 where the other is gone */

static int get_whole(int line, void *to, size_t length)
{
    char *at = (char *)to;
    while (length) {
        ssize_t many = read(line, at, length);
        if (many == 0 || (many < 0 && errno != EINTR))
            return 0;
        at += many > 0 ? many : 0;
        length -= many > 0 ? (size_t)many : 0;
    }
    return 1;
}

static int put_whole(int line, const void *from, size_t length)
{
    struct text t = {(char *)from, length, 0};
    return write_all(line, &t);
}

/* ---- in a worker */

/* Signals that ask to stop are the marking's, which ends its workers. Time is counted anew for each program. */
static void set_limits(void)
{
    static const int ignored[] = {SIGINT, SIGTERM, SIGHUP};
    sigset_t none;
    for (unsigned i = 0; i < sizeof ignored / sizeof *ignored; i++)
        signal(ignored[i], SIG_IGN);
    signal(SIGPROF, SIG_DFL);
    sigemptyset(&none);
    sigprocmask(SIG_SETMASK, &none, NULL);
#ifndef CHECKED
    {
        struct rlimit memory;
        rlim_t most = (rlim_t)MOST_MEMORY << 20;
        if (getrlimit(RLIMIT_AS, &memory) == 0 && (memory.rlim_cur == RLIM_INFINITY || memory.rlim_cur > most)) {
            memory.rlim_cur = most;
            setrlimit(RLIMIT_AS, &memory);
        }
    }
#endif
}

static void start_clock(void)
{
    struct itimerval time = {{0, 0}, {MOST_SECONDS, 0}};
    setitimer(ITIMER_PROF, &time, NULL);
}

/* Marks a program and writes its page. What stood against the page is in the row. Where there is no room for a digest,
 * it ends as where there is none for a text. */
static void mark_one(const struct sitting *s, const struct folder *f, size_t i, struct marked *m)
{
    struct text path = {0}, page = {0};
    int problem;
    add_page_path(&path, s, i);
    if (!mark_program(s, s->names[i], m))
        _exit(UNREADABLE);
    add_page(&page, s, m);
    if (!sha256(page.at, page.length, m->row.page))
        _exit(UNREADABLE);
    problem = fill_file(f, path.at, &page);
    if (problem)
        m->row.problem = problem;
    drop_text(&path);
    drop_text(&page);
}

/* Until no program is handed to it, or the marking is gone. */
static void work(const struct sitting *s, const struct folder *f, int line)
{
    static struct marked m;
    uint64_t i;
    while (get_whole(line, &i, sizeof i) && i < s->many) {
        struct text answer = {0};
        uint32_t length;
        int told;
        start_clock();
        mark_one(s, f, (size_t)i, &m);
        pack_row(&answer, (size_t)i, &m.row);
        length = (uint32_t)answer.length;
        told = put_whole(line, &length, sizeof length) && put_whole(line, answer.at, answer.length);
        drop_text(&answer);
        drop_marked(&m);
        if (!told)
            return;
    }
}

/* ---- in the marking */

struct worker {
    pid_t pid; /* 0: none */
    int line;
    size_t at; /* the program that it has, or as many as there are */
};

struct crew {
    const struct sitting *s;
    const struct folder *f;
    struct rows *rows;
    struct worker workers[MOST_WORKERS];
    size_t next, done;
    int status, terminal;
};

static void show_progress(struct crew *c)
{
    char bar[41];
    size_t full = 40 * c->done / c->s->many, before = c->done ? 40 * (c->done - 1) / c->s->many : 41;
    if (!c->terminal || (full == before && c->done % 64))
        return;
    for (size_t i = 0; i < 40; i++)
        bar[i] = i < full ? '#' : '.';
    bar[40] = 0;
    fprintf(stderr, "\rmarking [%s] %lu of %lu", bar, (unsigned long)c->done, (unsigned long)c->s->many);
    fflush(stderr);
}

/* The marking cannot go on. */
static void give_up(struct crew *c, const char *what, const char *why)
{
    if (c->status == DONE)
        say_at(c->f->name, 0, "cannot be written: %s: %s", what, why);
    c->status = UNREADABLE;
}

/* A page is held to the digest that its worker told. */
static void take_row(struct crew *c, size_t i, const struct row *r)
{
    struct text path = {0};
    char digest[SHA256_TEXT] = "";
    int problem = r->problem > 0 ? r->problem : 0;
    add_page_path(&path, c->s, i);
    if (!problem && (!digest_file(c->f->at, path.at, digest) || strcmp(digest, r->page) != 0))
        give_up(c, path.at, "it is not what was written");
    else if (!problem)
        problem = keep_row(c->rows, i, r);
    if (problem)
        give_up(c, path.at, strerror(problem));
    drop_text(&path);
    c->done++;
    show_progress(c);
}

/* A row and a page for a program that no worker could mark; what there is of its page goes. */
static void take_unmarked(struct crew *c, size_t i, const char *why)
{
    static struct marked m;
    struct text path = {0}, page = {0};
    int problem;
    add_page_path(&path, c->s, i);
    unlinkat(c->f->at, path.at, 0);
    leave_unmarked(c->s, c->s->names[i], why, &m);
    add_page(&page, c->s, &m);
    problem = sha256(page.at, page.length, m.row.page) ? fill_file(c->f, path.at, &page) : EIO;
    if (problem)
        m.row.problem = problem;
    take_row(c, i, &m.row);
    drop_text(&path);
    drop_text(&page);
    drop_marked(&m);
}

/* Waits for a worker, whose line is closed, and gives how it ended. */
static int bury(struct worker *w)
{
    int how = 0;
    pid_t who;
    close(w->line);
    do
        who = waitpid(w->pid, &how, 0);
    while (who < 0 && errno == EINTR);
    w->pid = 0;
    return how;
}

static int start_worker(struct crew *c, struct worker *w)
{
    int ends[2];
    if (socketpair(AF_UNIX, SOCK_STREAM, 0, ends) != 0)
        return 0;
    w->pid = fork();
    if (w->pid == 0) {
        close(ends[0]);
        for (unsigned i = 0; i < MOST_WORKERS; i++)
            if (c->workers[i].pid > 0)
                close(c->workers[i].line);
        set_limits();
        work(c->s, c->f, ends[1]);
        _exit(DONE);
    }
    close(ends[1]);
    w->line = ends[0];
    if (w->pid < 0) {
        close(ends[0]);
        w->pid = 0;
    }
    return w->pid != 0;
}

/* The next program, or none. One that is gone is noticed when its answer is read. */
static void hand(struct crew *c, struct worker *w)
{
    uint64_t i = c->next;
    w->at = c->s->many;
    if (c->next == c->s->many || c->status != DONE)
        return;
    w->at = c->next++;
    (void)put_whole(w->line, &i, sizeof i);
}

/* Another worker, where that can be; without any the marking cannot go on. */
static void engage(struct crew *c, struct worker *w)
{
    unsigned many = 0;
    if (start_worker(c, w)) {
        hand(c, w);
        return;
    }
    for (unsigned i = 0; i < MOST_WORKERS; i++)
        many += c->workers[i].pid > 0;
    if (!many)
        give_up(c, "no worker", strerror(errno));
}

/* What a worker tells of the program that it has. 0 where it is gone, or talks nonsense. */
static int take_answer(struct crew *c, struct worker *w, struct row *r)
{
    uint32_t length = 0;
    char *answer;
    int good;
    memset(r, 0, sizeof *r);
    if (!get_whole(w->line, &length, sizeof length) || length > MOST_ANSWER)
        return 0;
    answer = (char *)room_for(NULL, length);
    good = get_whole(w->line, answer, length) && unpack_row(answer, length, w->at, r);
    r->name = c->s->names[w->at];
    free(answer);
    return good;
}

static void add_why(struct text *t, int how)
{
    if (WIFSIGNALED(how) && WTERMSIG(how) == SIGPROF)
        addf(t, "it takes more than %d seconds of processor time", MOST_SECONDS);
    else if (WIFEXITED(how) && WEXITSTATUS(how) == UNREADABLE)
        addf(t, "no memory is left for it, which may take %d MiB", MOST_MEMORY);
    else if (WIFSIGNALED(how))
        addf(t, "its worker was ended by signal %d", WTERMSIG(how));
    else
        addf(t, "its worker ended with status %d", WEXITSTATUS(how));
}

/* The next program is handed out before this one's page is looked at. */
static void hear(struct crew *c, struct worker *w)
{
    size_t i = w->at;
    struct text why = {0};
    struct row r;
    if (take_answer(c, w, &r)) {
        hand(c, w);
        take_row(c, i, &r);
    } else {
        kill(w->pid, SIGKILL);
        add_why(&why, bury(w));
        take_unmarked(c, i, why.at);
        engage(c, w);
    }
    drop_row(&r);
    drop_text(&why);
}

/* Waits for an answer, or for a signal. */
static void listen_once(struct crew *c)
{
    struct pollfd lines[MOST_WORKERS];
    struct worker *of[MOST_WORKERS];
    nfds_t many = 0;
    for (unsigned i = 0; i < MOST_WORKERS; i++) {
        struct worker *w = &c->workers[i];
        if (w->pid == 0 || w->at == c->s->many)
            continue;
        lines[many].fd = w->line;
        lines[many].events = POLLIN;
        of[many++] = w;
    }
    if (poll(lines, many, -1) <= 0)
        return;
    for (nfds_t i = 0; i < many && c->status == DONE; i++)
        if (lines[i].revents)
            hear(c, of[i]);
}

int mark_all(const struct sitting *s, const struct folder *f, struct rows *r)
{
    static struct crew c;
    memset(&c, 0, sizeof c);
    c.s = s;
    c.f = f;
    c.rows = r;
    c.terminal = isatty(STDERR_FILENO);
    show_progress(&c);
    for (unsigned i = 0; i < s->workers && i < s->many; i++)
        engage(&c, &c.workers[i]);
    while (c.done < s->many && c.status == DONE && !stop_signal())
        listen_once(&c);
    for (unsigned i = 0; i < MOST_WORKERS; i++) {
        if (c.workers[i].pid > 0 && c.workers[i].at != s->many)
            kill(c.workers[i].pid, SIGKILL);
        if (c.workers[i].pid > 0)
            bury(&c.workers[i]);
    }
    if (c.terminal)
        fputc('\n', stderr);
    return c.done < s->many ? UNREADABLE : c.status;
}
