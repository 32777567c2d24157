/* The folder of a marking: a new one beside its place, which takes that place when it is whole. */
#ifndef _GNU_SOURCE
#define _GNU_SOURCE /* renameat2, syncfs */
#endif
#include "folder.h"
#include "desk.h"

#include <dirent.h>
#include <errno.h>
#include <fcntl.h>
#include <stdio.h>
#include <string.h>
#include <sys/stat.h>
#include <unistd.h>

#define MOST_TRIES 1000 /* of names, or of ways in which others end markings in the same place */

static int cannot(const struct folder *f, const char *what)
{
    say_at(f->name, 0, "cannot be %s: %s", what, unmade(f->name, errno));
    return UNREADABLE;
}

/* ---- made */

/* Opens the folder in which the place is, and takes the last part of its name. */
static int find_place(struct folder *f)
{
    struct text parent = {0};
    size_t end = strlen(f->name), start;
    while (end > 1 && f->name[end - 1] == '/')
        end--;
    for (start = end; start > 0 && f->name[start - 1] != '/';)
        start--;
    add_bytes(&f->base, f->name + start, end - start);
    if (!f->base.length || strcmp(f->base.at, ".") == 0 || strcmp(f->base.at, "..") == 0) {
        say_at(f->name, 0, "cannot be replaced by a marking: give the folder a name of its own");
        return UNREADABLE;
    }
    add_bytes(&parent, start ? f->name : ".", start ? start : 1);
    f->parent = open(parent.at, O_RDONLY | O_DIRECTORY | O_CLOEXEC);
    drop_text(&parent);
    return f->parent < 0 ? cannot(f, "made") : DONE;
}

/* Nobody else can look or write into the new folder before it is whole. A name that is taken is passed over. */
static int make_beside(struct folder *f)
{
    int made = -1;
    errno = EEXIST;
    for (unsigned i = 0; i < MOST_TRIES && made != 0 && errno == EEXIST; i++) {
        f->beside.length = 0;
        addf(&f->beside, "%.*s.new-%ld-%u", (int)short_length(f->base.at), f->base.at, (long)getpid(), i);
        made = mkdirat(f->parent, f->beside.at, 0700);
    }
    if (made != 0) {
        int status = cannot(f, "made");
        f->beside.length = 0;
        return status;
    }
    f->at = openat(f->parent, f->beside.at, O_RDONLY | O_DIRECTORY | O_NOFOLLOW | O_CLOEXEC);
    if (f->at < 0 || mkdirat(f->at, "pages", 0777) != 0)
        return cannot(f, "made");
    return DONE;
}

static mode_t usual_mode(void)
{
    mode_t mask = umask(0);
    umask(mask);
    return 0777 & ~mask;
}

/* What stands in the place; what is not ours is told. */
static enum standing judge_place(const struct folder *f, struct sums *s, mode_t *mode)
{
    struct text why = {0};
    enum standing what = judge_standing(f, f->base.at, s, mode, &why);
    if (what == FOREIGN)
        say_at(f->name, 0, "%s; it is left as it is", why.at);
    drop_text(&why);
    return what;
}

int open_folder(struct folder *f, const char *name)
{
    struct sums earlier = {0};
    int status;
    memset(f, 0, sizeof *f);
    f->name = name;
    f->parent = f->at = -1;
    f->mode = usual_mode();
    status = find_place(f);
    if (status == DONE && judge_place(f, &earlier, &f->mode) == FOREIGN)
        status = UNREADABLE;
    if (status == DONE)
        status = make_beside(f);
    drop_sums(&earlier);
    if (status != DONE)
        leave_folder(f);
    return status;
}

/* ---- filled */

int make_file(const struct folder *f, const char *path)
{
    return openat(f->at, path, O_RDWR | O_CREAT | O_EXCL | O_NOFOLLOW | O_CLOEXEC, 0666);
}

int fill_file(const struct folder *f, const char *path, const struct text *t)
{
    int file = make_file(f, path), problem = 0;
    if (file < 0)
        return errno;
    if (!write_all(file, t))
        problem = errno;
    if (close(file) != 0 && !problem)
        problem = errno;
    return problem;
}

int digest_file(int folder, const char *path, char *digits)
{
    struct stat is;
    int file = -1, good;
    if (fstatat(folder, path, &is, AT_SYMLINK_NOFOLLOW) == 0 && S_ISREG(is.st_mode))
        file = openat(folder, path, O_RDONLY | O_NOFOLLOW | O_NONBLOCK | O_CLOEXEC);
    if (file < 0)
        return 0;
    good = fstat(file, &is) == 0 && S_ISREG(is.st_mode) && sha256_file(file, digits);
    close(file);
    return good;
}

size_t count_pages(const struct folder *f)
{
    int pages = openat(f->at, "pages", O_RDONLY | O_DIRECTORY | O_NOFOLLOW | O_CLOEXEC);
    DIR *all = pages < 0 ? NULL : fdopendir(pages);
    struct dirent *entry;
    size_t many = 0;
    while (all && (entry = readdir(all)) != NULL)
        many += entry->d_name[0] != '.';
    if (all)
        closedir(all);
    else if (pages >= 0)
        close(pages);
    return many;
}

/* ---- removed */

/* Files and links of an open folder, which is closed; folders stay. */
static void remove_files(int folder)
{
    DIR *all = folder < 0 ? NULL : fdopendir(folder);
    struct dirent *entry;
    while (all && (entry = readdir(all)) != NULL)
        unlinkat(folder, entry->d_name, 0);
    if (all)
        closedir(all);
}

void leave_folder(struct folder *f)
{
    if (f->at >= 0) {
        remove_files(openat(f->at, "pages", O_RDONLY | O_DIRECTORY | O_NOFOLLOW | O_CLOEXEC));
        unlinkat(f->at, "pages", AT_REMOVEDIR);
        remove_files(f->at);
    }
    if (f->beside.length && unlinkat(f->parent, f->beside.at, AT_REMOVEDIR) != 0 && errno != ENOENT)
        say_at(f->name, 0, "what was begun beside it, '%s', cannot be removed: %s", f->beside.at, strerror(errno));
    if (f->parent >= 0)
        close(f->parent);
    drop_text(&f->base);
    drop_text(&f->beside);
    f->parent = f->at = -1;
}

/* Of an earlier marking goes what its SHA256SUMS lists, and nothing else: no part of a name is looked up by way of a
 * link, whatever has taken the place of pages/ meanwhile. */
static int remove_listed(const struct folder *f, const struct sums *s)
{
    int folder = openat(f->parent, f->beside.at, O_RDONLY | O_DIRECTORY | O_NOFOLLOW | O_CLOEXEC);
    int pages = folder < 0 ? -1 : openat(folder, "pages", O_RDONLY | O_DIRECTORY | O_NOFOLLOW | O_CLOEXEC);
    for (size_t i = 0; folder >= 0 && i < s->many; i++) {
        const char *name = s->lines[i] + SHA256_TEXT;
        int below = strncmp(name, "pages/", 6) == 0;
        if (!below || pages >= 0)
            unlinkat(below ? pages : folder, below ? name + 6 : name, 0);
    }
    if (pages >= 0)
        close(pages);
    if (folder >= 0) {
        unlinkat(folder, "SHA256SUMS", 0);
        unlinkat(folder, "pages", AT_REMOVEDIR);
        close(folder);
    }
    return unlinkat(f->parent, f->beside.at, AT_REMOVEDIR) == 0;
}

/* What was in the place has the new folder's name by now: the earlier marking, or one that another has put there
 * meanwhile, which is looked at first. */
static int remove_earlier(const struct folder *f, struct sums *s)
{
    struct text why = {0};
    struct stat is;
    mode_t mode;
    int gone = fstatat(f->parent, f->beside.at, &is, AT_SYMLINK_NOFOLLOW) == 0;
    if (gone && (is.st_ino != s->inode || is.st_dev != s->device)) {
        drop_sums(s);
        gone = judge_standing(f, f->beside.at, s, &mode, &why) != FOREIGN;
    }
    gone = gone && remove_listed(f, s);
    if (!gone)
        say_at(f->name, 0, "is the new marking; what was there is '%s' beside it, and cannot be removed: %s",
               f->beside.at, why.length ? why.at : strerror(errno));
    drop_text(&why);
    return gone ? DONE : UNREADABLE;
}

/* ---- put in its place */

/* By way of a third name, where the system cannot exchange two at once. Once the new one has its place the earlier one
 * goes by whatever name it has. */
static int exchange_by_turns(struct folder *f)
{
    struct text aside = {0};
    int good;
    addf(&aside, "%s-earlier", f->beside.at);
    good = renameat(f->parent, f->base.at, f->parent, aside.at) == 0;
    if (good && renameat(f->parent, f->beside.at, f->parent, f->base.at) != 0) {
        int problem = errno;
        if (renameat(f->parent, aside.at, f->parent, f->base.at) != 0)
            say_at(f->name, 0, "what was there is '%s' beside it", aside.at);
        errno = problem;
        good = 0;
    }
    if (good && renameat(f->parent, aside.at, f->parent, f->beside.at) != 0) {
        f->beside.length = 0;
        add_bytes(&f->beside, aside.at, aside.length);
    }
    drop_text(&aside);
    return good;
}

/* Each of the two gets the other's name. */
static int exchange(struct folder *f)
{
#ifdef RENAME_EXCHANGE
    if (renameat2(f->parent, f->beside.at, f->parent, f->base.at, RENAME_EXCHANGE) == 0)
        return 1;
    if (errno != EINVAL && errno != ENOSYS)
        return 0;
#endif
    return exchange_by_turns(f);
}

/* All that was written is on the disk: one call for a whole sitting takes less than one for each page. */
static int keep(const struct folder *f)
{
#ifdef __linux__
    return syncfs(f->at) == 0;
#else
    sync();
    return fsync(f->at) == 0;
#endif
}

/* Over nothing, or over an empty folder, a rename destroys nothing: it fails over anything else. 0 where what stands
 * there is another by now. */
static int take_place(struct folder *f, struct sums *s, enum standing *what)
{
    mode_t mode;
    drop_sums(s);
    *what = judge_place(f, s, &mode);
    if (*what == FOREIGN)
        return 1;
    if (*what == MARKING ? exchange(f) : renameat(f->parent, f->beside.at, f->parent, f->base.at) == 0)
        return 1;
    if (errno == ENOENT || errno == ENOTEMPTY || errno == EEXIST || errno == ENOTDIR)
        return 0;
    cannot(f, "written");
    *what = FOREIGN;
    return 1;
}

/* The new one has its place. Until that is on the disk the earlier one stays whole: after a loss of power either may
 * have either name. A system that brings no folder to the disk says EINVAL. */
static int settle(const struct folder *f, enum standing what, struct sums *s)
{
    struct text stays = {0};
    if (fsync(f->parent) == 0 || errno == EINVAL)
        return what == MARKING ? remove_earlier(f, s) : DONE;
    addf(&stays, "%s", strerror(errno));
    if (what == MARKING)
        addf(&stays, "; what was there is '%s' beside it", f->beside.at);
    say_at(f->name, 0, "is the new marking, but may be lost with the power: its folder cannot be written: %s",
           stays.at);
    drop_text(&stays);
    return UNREADABLE;
}

int place_folder(struct folder *f)
{
    struct sums earlier = {0};
    enum standing what = FOREIGN;
    unsigned tries = 0;
    int status = UNREADABLE;
    if (fchmod(f->at, f->mode) != 0 || !keep(f)) {
        cannot(f, "written");
    } else {
        while (!take_place(f, &earlier, &what) && ++tries < MOST_TRIES)
            what = FOREIGN;
        if (tries == MOST_TRIES)
            cannot(f, "written");
    }
    if (what != FOREIGN) {
        close(f->at);
        f->at = -1;
        status = settle(f, what, &earlier);
        f->beside.length = 0;
    }
    drop_sums(&earlier);
    leave_folder(f);
    return status;
}
