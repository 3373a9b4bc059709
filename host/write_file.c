#include "write_file.h"

#include "files.h"
#include "message.h"

#include <errno.h>
#include <stdio.h>
#include <stdlib.h>
#include <string.h>
#include <sys/stat.h>
#include <unistd.h>

static bool is_same_file(const char *one, const char *other)
{
    struct stat a, b;
    return stat(one, &a) == 0 && stat(other, &b) == 0 && a.st_dev == b.st_dev &&
           a.st_ino == b.st_ino;
}

bool is_target(const char *path, const char *made, const char *source, const char *from)
{
    if (strcmp(path, "-") == 0)
        complain("a %s is binary: give a file to write, not -", made);
    else if (is_same_file(source, path))
        complain("%s: is the %s itself, give another file for the %s", path, from, made);
    else
        return true;
    return false;
}

/* The rights that the file has, or that a new file gets. */
static mode_t rights_of(const char *path)
{
    struct stat facts;
    if (stat(path, &facts) == 0)
        return facts.st_mode & 0777;
    mode_t mask = umask(0);
    umask(mask);
    return 0666 & ~mask;
}

/* Writes all bytes to the open file and closes it. */
static bool write_all(int file, const uint8_t *bytes, size_t length, mode_t rights)
{
    bool is_written = fchmod(file, rights) == 0;
    for (size_t done = 0; is_written && done < length;) {
        ssize_t count = write(file, bytes + done, length - done);
        is_written = count > 0 || (count < 0 && errno == EINTR);
        done += count > 0 ? (size_t)count : 0;
    }
    is_written = is_written && fsync(file) == 0;
    int fault = errno;
    if (close(file) != 0)
        return false;
    errno = fault;
    return is_written;
}

/* Writes the bytes to a new file beside the path and renames it. */
static bool replace(const char *path, const uint8_t *bytes, size_t length)
{
    static const char ending[] = ".XXXXXX";
    char *beside = malloc(strlen(path) + sizeof ending);
    if (!beside)
        return false;
    strcpy(beside, path);
    strcat(beside, ending);
    int file = mkstemp(beside);
    bool is_done = file >= 0 && write_all(file, bytes, length, rights_of(path)) &&
                   rename(beside, path) == 0;
    int fault = errno;
    if (!is_done && file >= 0)
        unlink(beside);
    free(beside);
    errno = fault;
    return is_done;
}

int write_file(const char *path, const uint8_t *bytes, size_t length)
{
    struct stat facts;
    bool exists = stat(path, &facts) == 0;
    if (exists && !S_ISREG(facts.st_mode)) {
        complain("%s: is %s, give a file to write", shown_path(path),
                 S_ISDIR(facts.st_mode) ? "a directory" : "no regular file");
        return STATUS_USAGE;
    }
    /* the file behind a link is replaced, not the link */
    char *real = exists ? realpath(path, NULL) : NULL;
    bool is_done = (!exists || real) && replace(real ? real : path, bytes, length);
    int fault = errno;
    free(real);
    if (is_done)
        return STATUS_DONE;
    complain("%s: cannot be written: %s", shown_path(path), strerror(fault));
    return STATUS_USAGE;
}
