/* The way to a program: folder by folder, and behind those that all names share by no link. */
#ifndef _GNU_SOURCE
#define _GNU_SOURCE /* O_PATH: a folder that may be passed through need not be one that may be read */
#endif
#include "way.h"

#include <errno.h>
#include <fcntl.h>
#include <limits.h>
#include <string.h>
#include <sys/stat.h>
#include <unistd.h>

#ifdef O_PATH
#define LOOK O_PATH
#else
#define LOOK O_RDONLY
#endif
#ifndef PATH_MAX
#define PATH_MAX 4096
#endif

/* ---- the folders of a name */

struct part {
    const char *at;
    size_t length;
};

/* The next folder of a name; none before its last part, to which `at` then points. Doubled slashes and `.` say
 * nothing; what ends in a slash has an empty last part. */
static int next_folder(const char **at, struct part *p)
{
    do {
        p->at = *at + strspn(*at, "/");
        p->length = strcspn(p->at, "/");
        *at = p->at[p->length] ? p->at + p->length : p->at;
    } while (p->at[p->length] && p->length == 1 && p->at[0] == '.');
    return p->at[p->length] != 0;
}

/* How many folders two names begin with alike. */
static size_t alike(const char *left, const char *right)
{
    struct part l, r;
    size_t many = 0;
    if ((*left == '/') != (*right == '/'))
        return 0;
    while (next_folder(&left, &l) && next_folder(&right, &r) && l.length == r.length &&
           memcmp(l.at, r.at, l.length) == 0)
        many++;
    return many;
}

size_t shared_folders(char *const *names, size_t many)
{
    size_t shared = 0;
    int other = 0; /* a name given twice is one name */
    for (size_t i = 1; i < many; i++) {
        size_t here = alike(names[0], names[i]);
        if (strcmp(names[0], names[i]) == 0)
            continue;
        shared = other && shared < here ? shared : here;
        other = 1;
    }
    return shared;
}

/* ---- on the way */

/* The reason, and errno as way.h has it. */
static int lost(struct text *why, int problem)
{
    if (problem)
        addf(why, "%s", strerror(problem));
    errno = problem;
    return -1;
}

/* What a name begins with, as far as its folders are shared: the system looks it up. */
static int open_shared(const char *name, size_t length, struct text *why)
{
    struct text path = {0};
    int folder, problem;
    if (!length && *name != '/')
        return AT_FDCWD;
    add_bytes(&path, length ? name : "/", length ? length : 1);
    folder = open(path.at, LOOK | O_DIRECTORY | O_CLOEXEC);
    problem = errno;
    drop_text(&path);
    return folder < 0 ? lost(why, problem) : folder;
}

/* One folder further, which is no link. */
static int open_next(int folder, const char *name, const struct part *p, struct text *why)
{
    struct text one = {0};
    struct stat is;
    int next, problem;
    add_bytes(&one, p->at, p->length);
    next = openat(folder, one.at, LOOK | O_DIRECTORY | O_NOFOLLOW | O_CLOEXEC);
    problem = errno;
    if (next < 0 && fstatat(folder, one.at, &is, AT_SYMLINK_NOFOLLOW) == 0 && S_ISLNK(is.st_mode)) {
        addf(why, "is reached by a link: %.*s", (int)(p->at + p->length - name), name);
        problem = 0;
    }
    drop_text(&one);
    return next < 0 ? lost(why, problem) : next;
}

int open_way(const char *name, size_t shared, const char **last, struct text *why)
{
    const char *at = name;
    struct part p;
    int folder;
    if (strlen(name) >= PATH_MAX)
        return lost(why, ENAMETOOLONG);
    while (shared > 0 && next_folder(&at, &p))
        shared--;
    folder = open_shared(name, (size_t)(at - name), why);
    while (folder != -1 && next_folder(&at, &p)) {
        int next = open_next(folder, name, &p, why), problem = errno;
        close_way(folder);
        errno = problem;
        folder = next;
    }
    *last = *at ? at : *name ? "." : "";
    return folder;
}

void close_way(int folder)
{
    if (folder >= 0)
        close(folder);
}
