/*
 * What stands in a marking's place already. It is an earlier marking where every file in it has a name that a marking
 * gives, and is what its SHA256SUMS says: so nothing that somebody else wrote, or changed, is ever removed.
 */
#ifndef _GNU_SOURCE
#define _GNU_SOURCE /* statx */
#endif
#include <dirent.h>
#include <errno.h>
#include <fcntl.h>
#include <stdlib.h>
#include <string.h>
#include <sys/stat.h>
#include <unistd.h>

#include "folder.h"

#define MOST_SUMS ((size_t)256 << 20) /* bytes of SHA256SUMS */
#define MOST_FILE ((off_t)1 << 32)    /* bytes of a file that is looked at */
#define MOST_TRIES 100                /* while others end markings in the same place */

void drop_sums(struct sums *s)
{
    free(s->text);
    free(s->lines);
    memset(s, 0, sizeof *s);
}

/* ---- SHA256SUMS */

/* pages/NNNNNN-NAME.html, as add_page_path forms it. */
static int is_page(const char *name)
{
    size_t length = strlen(name), digits;
    if (strncmp(name, "pages/", 6) != 0 || length < 18 || strcmp(name + length - 5, ".html") != 0)
        return 0;
    digits = strspn(name + 6, "0123456789");
    return digits >= 6 && name[6 + digits] == '-' && !strchr(name + 6, '/');
}

static int is_ours(const char *name)
{
    return strcmp(name, "index.html") == 0 || strcmp(name, "results.csv") == 0 || is_page(name);
}

/* One line, cut into digest and name. NULL where it is none. */
static char *take_line(char *line, char *end)
{
    if (end - line < SHA256_TEXT + 2 || strspn(line, "0123456789abcdef") != SHA256_TEXT - 1 || line[64] != ' ' ||
        line[65] != ' ')
        return NULL;
    *end = 0;
    memmove(line + 1, line, SHA256_TEXT - 1); /* so that the name stands behind its digest's 0 */
    line[SHA256_TEXT] = 0;
    return is_ours(line + SHA256_TEXT + 1) ? line + 1 : NULL;
}

static int by_name(const void *left, const void *right)
{
    return strcmp(*(char *const *)left + SHA256_TEXT, *(char *const *)right + SHA256_TEXT);
}

/* 0 where the text is not a marking's. */
static int take_sums(struct sums *s, size_t length)
{
    size_t room = 0;
    char *at = s->text, *end;
    for (; at < s->text + length; at = end + 1) {
        end = memchr(at, '\n', (size_t)(s->text + length - at));
        if (s->many == room)
            s->lines = (char **)room_for(s->lines, (room = 2 * room + 64) * sizeof *s->lines);
        if (!end || !(s->lines[s->many++] = take_line(at, end)))
            return 0;
    }
    if (s->many)
        qsort(s->lines, s->many, sizeof *s->lines, by_name);
    return 1;
}

/* None, or one that is no marking's, lists nothing. */
static void read_sums(int folder, struct sums *s)
{
    struct text why = {0};
    size_t length = 0;
    s->text = read_file_at(folder, "SHA256SUMS", REGULAR_FILE, MOST_SUMS, &length, &why);
    if (s->text && !take_sums(s, length))
        s->many = 0;
    drop_text(&why);
}

/* The digest that is listed for a name, or NULL. */
static const char *listed(const struct sums *s, const char *name)
{
    size_t low = 0, high = s->many;
    while (low < high) {
        size_t middle = low + (high - low) / 2;
        int side = strcmp(s->lines[middle] + SHA256_TEXT, name);
        if (side == 0)
            return s->lines[middle];
        if (side < 0)
            low = middle + 1;
        else
            high = middle;
    }
    return NULL;
}

/* ---- the folder */

/* What is wrong with it, and the first name of which it is so. */
struct finding {
    struct text name;
    const char *wrong;
    size_t many;
};

static const char *wrong_with(int folder, const struct sums *s, const char *name)
{
    const char *digest = listed(s, name);
    char now[SHA256_TEXT] = "";
    struct stat is;
    if (strcmp(name, "SHA256SUMS") == 0)
        return "is not a marking's";
    if (!digest)
        return "is not in its SHA256SUMS";
    if (fstatat(folder, name, &is, AT_SYMLINK_NOFOLLOW) != 0 || !S_ISREG(is.st_mode) || is.st_size > MOST_FILE)
        return "is no file of a marking";
    return digest_file(folder, name, now) && strcmp(now, digest) == 0 ? NULL : "is not as its SHA256SUMS says";
}

static void look_at(int folder, const struct sums *s, const char *name, struct finding *f)
{
    const char *wrong;
    if (f->name.length && strcmp(name, f->name.at) > 0)
        return;
    wrong = wrong_with(folder, s, name);
    if (wrong) {
        f->name.length = 0;
        f->wrong = wrong;
        addf(&f->name, "%s", name);
    }
}

/* Whether an entry of the folder itself is its SHA256SUMS, or pages/, which is looked through in its turn. */
static int is_known(int folder, const struct sums *s, const char *name)
{
    struct stat is;
    int found = fstatat(folder, name, &is, AT_SYMLINK_NOFOLLOW) == 0;
    return found && ((strcmp(name, "pages") == 0 && S_ISDIR(is.st_mode)) ||
                     (strcmp(name, "SHA256SUMS") == 0 && S_ISREG(is.st_mode) && s->many));
}

/* Every entry below `part`, which is empty or pages/. 0 where it cannot be read. */
static int look_through(int folder, const char *part, const struct sums *s, struct finding *f)
{
    int open = openat(folder, *part ? part : ".", O_RDONLY | O_DIRECTORY | O_NOFOLLOW | O_CLOEXEC);
    DIR *all = open < 0 ? NULL : fdopendir(open);
    struct dirent *entry;
    struct text name = {0};
    if (!all) {
        if (open >= 0)
            close(open);
        return 0;
    }
    while ((entry = readdir(all)) != NULL) {
        if (strcmp(entry->d_name, ".") == 0 || strcmp(entry->d_name, "..") == 0)
            continue;
        name.length = 0;
        addf(&name, "%s%s", part, entry->d_name);
        f->many++;
        if (*part || !is_known(folder, s, name.at))
            look_at(folder, s, name.at, f);
    }
    drop_text(&name);
    closedir(all);
    return 1;
}

/* A marking of which a file is gone is one that somebody changed. */
static void look_for(int folder, const struct sums *s, struct finding *f)
{
    struct stat is;
    for (size_t i = 0; i < s->many && !f->wrong; i++) {
        const char *name = s->lines[i] + SHA256_TEXT;
        if (fstatat(folder, name, &is, AT_SYMLINK_NOFOLLOW) != 0) {
            f->wrong = "is in its SHA256SUMS and is gone";
            addf(&f->name, "%s", name);
        }
    }
}

static enum standing judge_folder(int folder, struct sums *s, struct text *why)
{
    struct finding found = {{0}, NULL, 0};
    struct stat is;
    enum standing what = FOREIGN;
    read_sums(folder, s);
    if (!look_through(folder, "", s, &found) ||
        (fstatat(folder, "pages", &is, AT_SYMLINK_NOFOLLOW) == 0 && S_ISDIR(is.st_mode) &&
         !look_through(folder, "pages/", s, &found)))
        addf(why, "cannot be read: %s", strerror(errno));
    else
        look_for(folder, s, &found);
    if (!why->length && found.wrong)
        addf(why, "is there and is no marking: '%s' %s", found.name.at, found.wrong);
    else if (!why->length)
        what = found.many ? MARKING : EMPTY;
    drop_text(&found.name);
    return what;
}

/* Whether a folder is a mount point, which no rename moves and no other folder replaces. Where the system does not say
 * so, it is one whose device is another than its parent's. */
static int is_mount(const struct folder *f, const char *name, const struct stat *is)
{
    struct stat parent;
#ifdef STATX_ATTR_MOUNT_ROOT
    struct statx all;
    if (statx(f->parent, name, AT_SYMLINK_NOFOLLOW, STATX_BASIC_STATS, &all) == 0 &&
        all.stx_attributes_mask & STATX_ATTR_MOUNT_ROOT)
        return (all.stx_attributes & STATX_ATTR_MOUNT_ROOT) != 0;
#endif
    return fstat(f->parent, &parent) == 0 && parent.st_dev != is->st_dev;
}

static enum standing judge_once(const struct folder *f, const char *name, struct sums *s, mode_t *mode,
                                struct text *why)
{
    struct stat is;
    enum standing what = FOREIGN;
    int folder = openat(f->parent, name, O_RDONLY | O_DIRECTORY | O_NOFOLLOW | O_CLOEXEC);
    if (folder >= 0 && fstat(folder, &is) == 0) {
        if (is.st_uid == geteuid())
            *mode = is.st_mode & 0777;
        s->device = is.st_dev;
        s->inode = is.st_ino;
        if (is_mount(f, name, &is))
            addf(why, "is a mount point, whose place no folder can take: name a folder in it");
        else
            what = judge_folder(folder, s, why);
    } else if (errno == ENOENT) {
        what = NOTHING;
    } else if (errno == ENOTDIR || errno == ELOOP) {
        addf(why, "is there and is no folder");
    } else {
        addf(why, "cannot be read: %s", strerror(errno));
    }
    if (folder >= 0)
        close(folder);
    return what;
}

/* Whether the name is of another folder by now: another marking has ended. */
static int has_moved(const struct folder *f, const char *name, const struct sums *s)
{
    struct stat is;
    return s->inode && fstatat(f->parent, name, &is, AT_SYMLINK_NOFOLLOW) == 0 &&
           (is.st_ino != s->inode || is.st_dev != s->device);
}

enum standing judge_standing(const struct folder *f, const char *name, struct sums *s, mode_t *mode, struct text *why)
{
    enum standing what = judge_once(f, name, s, mode, why);
    for (unsigned i = 0; i < MOST_TRIES && what == FOREIGN && has_moved(f, name, s); i++) {
        drop_sums(s);
        drop_text(why);
        what = judge_once(f, name, s, mode, why);
    }
    return what;
}
