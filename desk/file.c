/* Files: read whole, and written beside their place and then put there. */
#include <errno.h>
#include <fcntl.h>
#include <stdio.h>
#include <stdlib.h>
#include <string.h>
#include <sys/stat.h>
#include <unistd.h>

#include "file.h"
#include "desk.h"

/* ---- reading */

/* What stands against reading it, or NULL. */
static const char *wrong_kind(const struct stat *is, enum reading kind)
{
    if (S_ISDIR(is->st_mode))
        return "is a folder";
    if (S_ISLNK(is->st_mode))
        return "is a link";
    return kind != ANY_FILE && !S_ISREG(is->st_mode) ? "is no regular file" : NULL;
}

/* Where only regular files are read, nothing else is opened; should a name change its meaning meanwhile, nobody waits
 * for the other end of a pipe. */
static int open_file(int folder, const char *name, enum reading kind, struct text *why)
{
    int follow = kind == REGULAR_FILE ? AT_SYMLINK_NOFOLLOW : 0, file = -1, good, problem;
    int how = O_RDONLY | O_CLOEXEC | (kind == ANY_FILE ? 0 : O_NONBLOCK) | (follow ? O_NOFOLLOW : 0);
    const char *wrong = NULL;
    struct stat is;
    good = fstatat(folder, name, &is, follow) == 0;
    if (good)
        wrong = wrong_kind(&is, kind);
    if (good && !wrong) {
        file = openat(folder, name, how);
        good = file >= 0 && fstat(file, &is) == 0;
        wrong = good ? wrong_kind(&is, kind) : NULL;
    }
    if (good && !wrong)
        return file;
    problem = wrong ? 0 : errno;
    addf(why, "%s", wrong ? wrong : strerror(problem));
    if (file >= 0)
        close(file);
    errno = problem;
    return -1;
}

/* Reads to the end, or one byte more than is allowed at least. */
static int read_all(int file, size_t most, struct text *t)
{
    char part[65536];
    ssize_t many;
    do {
        many = read(file, part, sizeof part);
        if (many > 0)
            add_bytes(t, part, (size_t)many);
    } while ((many > 0 || (many < 0 && errno == EINTR)) && t->length <= most);
    return many >= 0 || t->length > most;
}

char *read_file_at(int folder, const char *name, enum reading kind, size_t most, size_t *length, struct text *why)
{
    struct text t = {0};
    int file = open_file(folder, name, kind, why), problem = 0;
    if (file < 0)
        return NULL;
    add_bytes(&t, "", 0);
    if (!read_all(file, most, &t))
        addf(why, "%s", strerror(problem = errno));
    else if (t.length > most)
        addf(why, "is longer than %lu bytes", (unsigned long)most);
    close(file);
    if (why->length) {
        drop_text(&t);
        errno = problem;
        return NULL;
    }
    *length = t.length;
    return t.at;
}

char *read_file(const char *name, enum reading kind, size_t most, size_t *length, struct text *why)
{
    return read_file_at(AT_FDCWD, name, kind, most, length, why);
}

int is_trouble(int problem)
{
    static const int theirs[] = {0, ENOENT, ENOTDIR, EISDIR, ELOOP, EACCES, ENAMETOOLONG};
    for (unsigned i = 0; i < sizeof theirs / sizeof *theirs; i++)
        if (problem == theirs[i])
            return 0;
    return 1;
}

/* ---- writing */

const char *unmade(const char *name, int problem)
{
    return problem == ENOENT && *name ? "the folder that it would be in is not there" : strerror(problem);
}

int write_all(int file, const struct text *t)
{
    size_t done = 0;
    while (done < t->length) {
        ssize_t many = write(file, t->at + done, t->length - done);
        if (many < 0 && errno != EINTR)
            return 0;
        done += many > 0 ? (size_t)many : 0;
    }
    return 1;
}

/* A device or a pipe has no place beside it: what it is given is written to it. */
static int no_regular(const char *name)
{
    struct stat is;
    return stat(name, &is) == 0 && !S_ISREG(is.st_mode) && !S_ISDIR(is.st_mode);
}

size_t short_length(const char *name)
{
    const char *slash = strrchr(name, '/');
    size_t start = slash ? (size_t)(slash + 1 - name) : 0, length = strlen(name);
    if (length - start <= MOST_BASE)
        return length;
    for (length = start + MOST_BASE; length > start && (name[length] & 0xC0) == 0x80;)
        length--;
    return length;
}

/* A new file beside the place of `name`: one that is there, or a link, is passed over. */
static int make_part(const char *name, mode_t mode, struct text *part)
{
    int file = -1;
    errno = EEXIST;
    for (unsigned i = 0; i < 1000 && file < 0 && errno == EEXIST; i++) {
        part->length = 0;
        addf(part, "%.*s.part-%ld-%u", (int)short_length(name), name, (long)getpid(), i);
        file = open(part->at, O_WRONLY | O_CREAT | O_EXCL | O_NOFOLLOW | O_CLOEXEC, mode);
    }
    return file;
}

/* Who may read and write what takes the place of a file: whoever could before; where that was somebody else's file,
 * only who also may by the usual mode. */
static int keep_mode(int file, const struct stat *was)
{
    struct stat is;
    mode_t mode;
    if (fstat(file, &is) != 0)
        return 0;
    mode = was->st_mode & 0777 & (was->st_uid == geteuid() ? 0777 : is.st_mode);
    return mode == (is.st_mode & 0777) || fchmod(file, mode) == 0;
}

/* Nothing is put in place of what was there unless all of it could be written, and is on the disk. */
static int write_beside(const char *name, const struct text *t)
{
    struct text part = {0};
    struct stat was;
    int there = stat(name, &was) == 0, file = make_part(name, there ? was.st_mode & 0666 : 0666, &part), problem = 0;
    if (file < 0) {
        problem = errno;
        drop_text(&part);
        return problem;
    }
    if ((there && !keep_mode(file, &was)) || !write_all(file, t) || (fsync(file) != 0 && errno != EINVAL))
        problem = errno;
    if (close(file) != 0 && !problem)
        problem = errno;
    if (!problem && rename(part.at, name) != 0)
        problem = errno;
    if (problem)
        unlink(part.at);
    drop_text(&part);
    return problem;
}

static int write_through(const char *name, const struct text *t)
{
    int file = open(name, O_WRONLY | O_CLOEXEC), problem = 0;
    if (file < 0)
        return errno;
    if (!write_all(file, t))
        problem = errno;
    if (close(file) != 0 && !problem)
        problem = errno;
    return problem;
}

int write_file(const char *name, const struct text *t)
{
    int output = strcmp(name, "-") == 0, problem;
    if (output)
        problem = write_all(STDOUT_FILENO, t) ? 0 : errno;
    else
        problem = no_regular(name) ? write_through(name, t) : write_beside(name, t);
    if (problem)
        say_at(output ? "standard output" : name, 0, "cannot be written: %s", unmade(name, problem));
    return problem ? UNREADABLE : DONE;
}
