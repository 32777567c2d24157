/* The rows of a sitting, kept in a file of the new folder that has lost its name. */
#include <errno.h>
#include <stdlib.h>
#include <string.h>
#include <unistd.h>

#include "workers.h"

int open_rows(struct rows *r, const struct folder *f, size_t many)
{
    memset(r, 0, sizeof *r);
    r->file = make_file(f, "rows");
    if (r->file < 0 || unlinkat(f->at, "rows", 0) != 0)
        return errno;
    r->places = (struct place *)room_for(NULL, many * sizeof *r->places);
    memset(r->places, 0, many * sizeof *r->places);
    return 0;
}

int keep_row(struct rows *r, size_t i, const struct row *row)
{
    struct text t = {0};
    int problem = 0;
    pack_row(&t, i, row);
    if (!write_all(r->file, &t))
        problem = errno;
    r->places[i].at = r->end;
    r->places[i].length = t.length;
    r->end += (off_t)t.length;
    drop_text(&t);
    return problem;
}

int get_row(const struct rows *r, const struct sitting *s, size_t i, struct row *row)
{
    size_t length = r->places[i].length, done = 0;
    char *bytes = (char *)room_for(NULL, length);
    ssize_t many = 1;
    int good;
    while (done < length && (many > 0 || (many < 0 && errno == EINTR))) {
        many = pread(r->file, bytes + done, length - done, r->places[i].at + (off_t)done);
        done += many > 0 ? (size_t)many : 0;
    }
    good = unpack_row(bytes, done, i, row);
    row->name = s->names[i];
    free(bytes);
    return good;
}

void drop_rows(struct rows *r)
{
    if (r->file >= 0)
        close(r->file);
    free(r->places);
    memset(r, 0, sizeof *r);
    r->file = -1;
}
