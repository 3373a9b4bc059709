/* Runs the target on every file of a folder: replay FOLDER. */
#define _DEFAULT_SOURCE

#include "target.h"

#include <dirent.h>
#include <stdio.h>
#include <stdlib.h>

#define MOST_INPUT 65536

static bool replay(const char *folder, const char *name)
{
    static uint8_t bytes[MOST_INPUT];
    char path[4096];
    snprintf(path, sizeof path, "%s/%s", folder, name);
    FILE *file = fopen(path, "rb");
    if (!file) {
        perror(path);
        return false;
    }
    size_t size = fread(bytes, 1, sizeof bytes, file);
    fclose(file);
    LLVMFuzzerTestOneInput(bytes, size);
    return true;
}

int main(int count, char **words)
{
    struct dirent **entries;
    if (count != 2) {
        fprintf(stderr, "usage: replay FOLDER\n");
        return 2;
    }
    int entry_count = scandir(words[1], &entries, NULL, alphasort);
    if (entry_count < 0) {
        perror(words[1]);
        return 1;
    }
    bool all = true;
    for (int i = 0; i < entry_count; i++) {
        if (entries[i]->d_name[0] != '.')
            all = replay(words[1], entries[i]->d_name) && all;
        free(entries[i]);
    }
    free(entries);
    return show_target() && all ? 0 : 1;
}
