/* target.h: what libFuzzer and the replay both run. */
#ifndef TARGET_H
#define TARGET_H

#include <stdbool.h>
#include <stddef.h>
#include <stdint.h>

/* Makes requests of the bytes and has them judged. */
int LLVMFuzzerTestOneInput(const uint8_t *bytes, size_t size);

/* Prints the classes of the calls that were made and answers whether none of them
 * is empty. */
bool show_target(void);

#endif
