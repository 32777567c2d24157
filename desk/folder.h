/*
 * folder.h - the folder of a marking: made beside its place, filled, and put there whole.
 *
 * Nothing in it is a link, and no link is followed. What stands in its place already is either nothing, an empty
 * folder, or an earlier marking, which is removed when the new one is there; anything else is left alone.
 */
#ifndef FOLDER_H
#define FOLDER_H

#include <sys/types.h>

#include "file.h"

struct folder {
    const char *name;         /* its place, as it was given */
    struct text base, beside; /* the last part of that, and the name of the new folder beside it */
    int parent, at;           /* open: the folder of both, and the new one */
    mode_t mode;              /* what it may be read by in its place */
};

/* Makes the new folder. DONE, or a status that has been told: then there is none. */
int open_folder(struct folder *f, const char *name);

/* A new file in it, open, or -1 with errno; a new file of these bytes, 0 or errno. */
int make_file(const struct folder *f, const char *path);
int fill_file(const struct folder *f, const char *path, const struct text *t);

/* The digest of a file in it, or in another open folder. 0 where it is no regular file that can be read. */
int digest_file(int folder, const char *path, char *digits);

/* The pages that are in the new folder. */
size_t count_pages(const struct folder *f);

/* Puts it in its place, safe from a loss of power, and removes the earlier one. A status that has been told. */
int place_folder(struct folder *f);

/* Removes it. What is in its place stays. */
void leave_folder(struct folder *f);

/* ---- earlier.c: what stands in its place already */

/* The files that a marking has by its SHA256SUMS, in the order of their names. */
struct sums {
    char *text;
    char **lines; /* each 64 digits, 0, and a name, 0 behind it */
    size_t many;
    dev_t device; /* of the folder that has them */
    ino_t inode;
};

enum standing { NOTHING, EMPTY, MARKING, FOREIGN };

/* What a name in the folder of both is; `mode` is changed where it is a folder. Of what is FOREIGN `why` says so. */
enum standing judge_standing(const struct folder *f, const char *name, struct sums *s, mode_t *mode, struct text *why);
void drop_sums(struct sums *s);

#endif
