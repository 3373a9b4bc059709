/* Shows the classes that a run of libFuzzer met, when it ends. */
#include "target.h"

#include <stdlib.h>

static void show(void)
{
    show_target();
}

int LLVMFuzzerInitialize(int *count, char ***words);

int LLVMFuzzerInitialize(int *count, char ***words)
{
    (void)count, (void)words;
    return atexit(show);
}
