/* A program that is a folder: its files that end in .s19 or .asm, at most nine, in the order of the bytes of their
 * names. Nobody typed these names: a link among them is followed where all links are, and no pipe or device is opened. */
#include <dirent.h>
#include <errno.h>
#include <fcntl.h>
#include <stdlib.h>
#include <string.h>
#include <strings.h>
#include <unistd.h>

#include "program.h"
#include "source.h"

/* ---- names */

struct listed {
    char *names[MOST_FILES];
    unsigned many;
};

static void drop_listed(struct listed *l)
{
    for (unsigned i = 0; i < l->many; i++)
        free(l->names[i]);
    l->many = 0;
}

/* Hidden files are some program's, and none of the candidate's own. */
static int is_handed_in(const char *name)
{
    size_t length = strlen(name);
    return name[0] != '.' && (is_source(name) || (length > 4 && strcasecmp(name + length - 4, ".s19") == 0));
}

static void add_listed(struct listed *l, const char *name)
{
    size_t length = strlen(name) + 1;
    l->names[l->many] = (char *)room_for(NULL, length);
    memcpy(l->names[l->many++], name, length);
}

static int by_bytes(const void *a, const void *b)
{
    return strcmp(*(char *const *)a, *(char *const *)b);
}

/* The reason, and errno with it. 0. */
static int fails(struct text *why, int problem)
{
    addf(why, "%s", strerror(problem));
    errno = problem;
    return 0;
}

/* The names that count. Those of more than so many are not read to the end: which they are does not matter then. */
static int list_names(DIR *folder, struct listed *l, struct text *why)
{
    const struct dirent *entry;
    for (errno = 0; (entry = readdir(folder)) != NULL; errno = 0) {
        if (!is_handed_in(entry->d_name))
            continue;
        if (l->many == MOST_FILES) {
            addf(why, "has more than %d files that end in .s19 or .asm", MOST_FILES);
            errno = 0;
            return 0;
        }
        add_listed(l, entry->d_name);
    }
    if (errno)
        return fails(why, errno);
    if (!l->many)
        addf(why, "is a folder, and no file in it ends in .s19 or .asm");
    qsort(l->names, l->many, sizeof *l->names, by_bytes);
    return l->many > 0;
}

/* ---- files */

void add_file(struct program *p, const char *name, char *bytes, size_t length)
{
    struct handed *h = &p->files[p->many++];
    struct text path = {0};
    size_t folder = p->folder ? strlen(p->name) : 0;
    add_bytes(&path, p->name, folder);
    if (folder && p->name[folder - 1] != '/')
        addf(&path, "/");
    folder = path.length;
    add_bytes(&path, name, strlen(name));
    h->path = path.at;
    h->name = path.at + folder;
    h->bytes = bytes;
    h->length = length;
}

/* All of them together may be as long as one. */
static int read_listed(int folder, const struct listed *l, enum reading kind, size_t most, struct program *p,
                       struct text *why)
{
    size_t all = 0;
    for (unsigned i = 0; i < l->many; i++) {
        struct text reason = {0};
        size_t length = 0;
        char *bytes = read_file_at(folder, l->names[i], kind, most, &length, &reason);
        int problem = errno;
        if (bytes)
            add_file(p, l->names[i], bytes, length);
        else
            addf(why, "%s: %s", l->names[i], reason.at);
        drop_text(&reason);
        errno = problem;
        if (!bytes)
            return 0;
        all += length;
        if (all > most) {
            addf(why, "has files of more than %lu bytes together", (unsigned long)most);
            errno = 0;
            return 0;
        }
    }
    return 1;
}

int read_program_folder(int at, const char *last, enum reading kind, size_t most, struct program *p, struct text *why)
{
    int how = O_RDONLY | O_DIRECTORY | O_CLOEXEC | O_NONBLOCK | (kind == REGULAR_FILE ? O_NOFOLLOW : 0);
    int file = openat(at, last, how), good, problem;
    DIR *folder = file < 0 ? NULL : fdopendir(file);
    struct listed l = {{NULL}, 0};
    if (!folder) {
        problem = errno;
        if (file >= 0)
            close(file);
        return fails(why, problem);
    }
    good = list_names(folder, &l, why) &&
           read_listed(file, &l, kind == LINKED_FILE ? LINKED_FILE : REGULAR_FILE, most, p, why);
    problem = errno;
    drop_listed(&l);
    closedir(folder);
    errno = problem;
    return good;
}
