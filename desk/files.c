/* files.c: files are read up to a bound, and appear whole or not at all. */
#define _GNU_SOURCE                             /* renameat2 */
#include "desk.h"
#include <errno.h>
#include <fcntl.h>
#include <stdlib.h>
#include <string.h>
#include <sys/stat.h>
#include <unistd.h>

enum status read_file(const char *name, uint8_t *into, size_t most, size_t *len)
{
    int why = 0, file = open(name, O_RDONLY | O_CLOEXEC);
    ssize_t got = 1;
    *len = 0;
    if (file < 0)
        return CANNOT;
    while (got > 0 && *len < most) {
        got = read(file, into + *len, most - *len);
        if (got > 0)
            *len += (size_t)got;
        else if (got < 0 && errno == EINTR)
            got = 1;
        else if (got < 0)
            why = errno;
    }
    close(file);
    if (got >= 0)
        return ALL_ACCEPTED;
    errno = why;
    return CANNOT;
}

enum status may_write(const char *name, bool replace)
{
    struct stat found;
    if (lstat(name, &found) != 0)
        return errno == ENOENT ? ALL_ACCEPTED : cannot_write(name);
    if (!S_ISREG(found.st_mode))
        say(name, "exists and is no plain file; nothing is written there: give -o another name");
    else if (!replace)
        say(name, "exists, and nothing is written over: give -o another name, or say --replace");
    else
        return ALL_ACCEPTED;
    return CANNOT;
}

/* Gives a finished file its name. Without `replace` a file that has got that name in the meantime is not touched: the
 * kernel says EEXIST. A file system that cannot rename so may know links. */
static bool take_name(const char *beside, const char *name, bool replace)
{
    if (replace)
        return rename(beside, name) == 0;
    if (renameat2(AT_FDCWD, beside, AT_FDCWD, name, RENAME_NOREPLACE) == 0)
        return true;
    return (errno == EINVAL || errno == ENOSYS) && link(beside, name) == 0 && unlink(beside) == 0;
}

/* Writes all, and sees it on the disk, with the rights that a new file gets. */
static bool write_all(int file, const uint8_t *from, size_t len)
{
    mode_t mask = umask(0);
    umask(mask);
    while (len > 0) {
        ssize_t put = write(file, from, len);
        if (put < 0 && errno != EINTR)
            return false;
        if (put > 0) {
            from += put;
            len -= (size_t)put;
        }
    }
    return fchmod(file, 0666 & ~mask) == 0 && fsync(file) == 0;
}

/* The name of a file beside another, for mkstemp, in memory from malloc; NULL where there is none. */
static char *beside_of(const char *name)
{
    static const char ending[] = ".new-XXXXXX";
    size_t len = strlen(name);
    char *beside = malloc(len + sizeof ending);
    if (beside == NULL)
        return NULL;
    memcpy(beside, name, len);
    memcpy(beside + len, ending, sizeof ending);
    return beside;
}

/* The file is whole on the disk before it takes its name. */
static enum status write_beside(const char *name, char *beside, const void *from, size_t len, bool replace)
{
    int why, file = mkostemp(beside, O_CLOEXEC);
    bool good;
    if (file < 0)
        return cannot_write(name);
    good = write_all(file, from, len);
    why = errno;
    if (close(file) != 0 && good) {
        good = false;
        why = errno;
    }
    if (good && take_name(beside, name, replace))
        return ALL_ACCEPTED;
    why = good ? errno : why;
    unlink(beside);
    errno = why;
    return cannot_write(name);
}

enum status write_file(const char *name, const void *from, size_t len, bool replace)
{
    char *beside = beside_of(name);
    enum status status;
    if (beside == NULL)
        return cannot_write(name);
    status = write_beside(name, beside, from, len, replace);
    free(beside);
    return status;
}
