#include "files.h"

#include "message.h"

#include <errno.h>
#include <string.h>
#include <sys/stat.h>

FILE *open_to_read(const char *path)
{
    if (strcmp(path, "-") == 0)
        return stdin;
    FILE *file = fopen(path, "rb");
    struct stat facts;
    if (file && fstat(fileno(file), &facts) == 0 && !S_ISDIR(facts.st_mode))
        return file;
    complain("%s: %s", shown_path(path), file ? "is a directory, give a file" : strerror(errno));
    if (file)
        fclose(file);
    return NULL;
}

void close_read(FILE *file)
{
    if (file != stdin)
        fclose(file);
}

const char *shown_path(const char *path)
{
    if (*path == '\0')
        return "''";
    return strcmp(path, "-") == 0 ? "standard input" : path;
}

bool is_regular(FILE *file, unsigned long long *size)
{
    struct stat facts;
    if (fstat(fileno(file), &facts) != 0 || !S_ISREG(facts.st_mode))
        return false;
    *size = (unsigned long long)facts.st_size;
    return true;
}
