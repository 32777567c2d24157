/* Whether a file that is to be written is one that is read. */
#include <string.h>
#include <sys/stat.h>

#include "file.h"

int overwrites(const char *to, const char *from)
{
    struct stat written, read;
    if (strcmp(to, "-") == 0 || stat(to, &written) != 0 || stat(from, &read) != 0 || !S_ISREG(written.st_mode) ||
        written.st_dev != read.st_dev || written.st_ino != read.st_ino)
        return 0;
    say_at(to, 0, "cannot be written: it is the file that is read");
    return 1;
}
