/*
 * Put before the C library by LD_PRELOAD, so that a test can have the system fail, and see in which order it is called.
 * SHIM_NOTES names a file that gets a line for each call; SHIM_FAILS is CALL:ERRNO, or CALL:ERRNO:NTH. openat, read and
 * readdir fail of `trouble` and `trouble.s19`, fsync of folders.
 */
#define _GNU_SOURCE
#include <dirent.h>
#include <dlfcn.h>
#include <errno.h>
#include <fcntl.h>
#include <stdarg.h>
#include <stdio.h>
#include <stdlib.h>
#include <string.h>
#include <sys/resource.h>
#include <sys/stat.h>
#include <sys/time.h>
#include <unistd.h>

static unsigned char troubled[1024]; /* by the number of an open file */

static void note(const char *call, long value)
{
    const char *name = getenv("SHIM_NOTES");
    FILE *file = name ? fopen(name, "a") : NULL;
    if (file) {
        fprintf(file, "%s %ld\n", call, value);
        fclose(file);
    }
}

/* Whether this call is to fail; then errno says how. */
static int fails(const char *call)
{
    static long calls;
    const char *what = getenv("SHIM_FAILS");
    size_t length = strlen(call);
    char *end;
    long problem;
    if (!what || strncmp(what, call, length) != 0 || what[length] != ':')
        return 0;
    problem = strtol(what + length + 1, &end, 10);
    if (*end == ':' && strtol(end + 1, NULL, 10) != ++calls)
        return 0;
    errno = (int)problem;
    return 1;
}

static int opened(int folder, const char *name, int how, mode_t mode)
{
    int (*real)(int, const char *, int, ...) = (int (*)(int, const char *, int, ...))dlsym(RTLD_NEXT, "openat");
    int is = strcmp(name, "trouble") == 0 || strcmp(name, "trouble.s19") == 0, file;
    if (is && fails("openat"))
        return -1;
    file = real(folder, name, how, mode);
    if (file >= 0 && file < (int)sizeof troubled)
        troubled[file] = (unsigned char)is;
    return file;
}

int openat(int folder, const char *name, int how, ...)
{
    va_list list;
    mode_t mode = 0;
    va_start(list, how);
    if (how & O_CREAT)
        mode = va_arg(list, mode_t);
    va_end(list);
    return opened(folder, name, how, mode);
}

int __openat_2(int folder, const char *name, int how);
int __openat_2(int folder, const char *name, int how)
{
    return opened(folder, name, how, 0);
}

ssize_t read(int file, void *to, size_t most)
{
    ssize_t (*real)(int, void *, size_t) = (ssize_t (*)(int, void *, size_t))dlsym(RTLD_NEXT, "read");
    if (file >= 0 && file < (int)sizeof troubled && troubled[file] && fails("read"))
        return -1;
    return real(file, to, most);
}

struct dirent *readdir(DIR *folder)
{
    struct dirent *(*real)(DIR *) = (struct dirent * (*)(DIR *))dlsym(RTLD_NEXT, "readdir");
    int file = dirfd(folder);
    return file >= 0 && file < (int)sizeof troubled && troubled[file] && fails("readdir") ? NULL : real(folder);
}

int fsync(int file)
{
    int (*real)(int) = (int (*)(int))dlsym(RTLD_NEXT, "fsync");
    struct stat is;
    note("fsync", 0);
    return fstat(file, &is) == 0 && S_ISDIR(is.st_mode) && fails("fsync") ? -1 : real(file);
}

int syncfs(int file)
{
    int (*real)(int) = (int (*)(int))dlsym(RTLD_NEXT, "syncfs");
    note("syncfs", 0);
    return fails("syncfs") ? -1 : real(file);
}

int renameat(int from, const char *old, int to, const char *new)
{
    int (*real)(int, const char *, int, const char *) =
        (int (*)(int, const char *, int, const char *))dlsym(RTLD_NEXT, "renameat");
    note("renameat", 0);
    return fails("renameat") ? -1 : real(from, old, to, new);
}

/* Where SHIM_FAILS speaks of renameat, two names cannot be exchanged. */
int renameat2(int from, const char *old, int to, const char *new, unsigned how)
{
    int (*real)(int, const char *, int, const char *, unsigned) =
        (int (*)(int, const char *, int, const char *, unsigned))dlsym(RTLD_NEXT, "renameat2");
    const char *what = getenv("SHIM_FAILS");
    note("renameat2", 0);
    if (what && strncmp(what, "renameat", 8) == 0) {
        errno = EINVAL;
        return -1;
    }
    return real(from, old, to, new, how);
}

int setitimer(__itimer_which_t which, const struct itimerval *new, struct itimerval *old)
{
    int (*real)(__itimer_which_t, const struct itimerval *, struct itimerval *) =
        (int (*)(__itimer_which_t, const struct itimerval *, struct itimerval *))dlsym(RTLD_NEXT, "setitimer");
    note(which == ITIMER_PROF ? "setitimer" : "another timer", (long)new->it_value.tv_sec);
    return real(which, new, old);
}

int setrlimit(__rlimit_resource_t what, const struct rlimit *most)
{
    int (*real)(__rlimit_resource_t, const struct rlimit *) =
        (int (*)(__rlimit_resource_t, const struct rlimit *))dlsym(RTLD_NEXT, "setrlimit");
    note(what == RLIMIT_AS ? "setrlimit" : "another limit", (long)(most->rlim_cur >> 20));
    return real(what, most);
}
