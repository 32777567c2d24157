/*
 * file.h - files, read and written; SHA-256, by libcrypto.
 */
#ifndef FILE_H
#define FILE_H

#include "text.h"

#define MOST_TEXT ((size_t)16 << 20)   /* bytes of a file that is read */
#define MOST_PROGRAM ((size_t)1 << 20) /* of a program of a sitting: 65,536 S1 lines of one byte, CR LF, have room */
#define MOST_BASE 200 /* bytes of the last part of a name in that of what is made beside it */

/* What is read: anything but a folder; regular files that no link names; regular files. Nothing else is opened. */
enum reading { ANY_FILE, REGULAR_FILE, LINKED_FILE };

/* All bytes of a file, 0 behind them, or NULL with the reason in `why`, and in errno, which is 0 where the system did
 * not fail; one by its name in an open folder. */
char *read_file(const char *name, enum reading kind, size_t most, size_t *length, struct text *why);
char *read_file_at(int folder, const char *name, enum reading kind, size_t most, size_t *length, struct text *why);

/* Whether what stands against a file is the machine's at this moment, and no word about what was handed in. */
int is_trouble(int problem);

/* As many bytes of a name as leave room for what marks a name beside it; no character is cut in two. */
size_t short_length(const char *name);

/* What stands against a file or a folder that is to be made, in words. */
const char *unmade(const char *name, int problem);

/* Writes all of a text to an open file. 0 with errno. */
int write_all(int file, const struct text *t);

/* Puts a file in its place whole, or leaves what was there; the reason is told. `-` is standard output. */
int write_file(const char *name, const struct text *t);

/* ---- same.c */

/* Whether `to` is the file `from`, by whatever path or link, which is then told. */
int overwrites(const char *to, const char *from);

/* ---- sha256.c */

#define SHA256_TEXT 65

/* The digest as 64 digits. 0 where the library fails; of an open file also where it cannot be read. */
int sha256(const void *bytes, size_t length, char *digits);
int sha256_file(int file, char *digits);

#endif
