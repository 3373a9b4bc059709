/* Lines of ELM327-class adapters that are no frames. */
#ifndef ADAPTER_H
#define ADAPTER_H

#include <stdbool.h>
#include <stddef.h>

struct saying {
    const char *text;
    const char *more; /* characters that may follow; NULL is any */
    bool is_damage;   /* a frame was damaged or lost */
    const char *words;
};

/* What the adapter says with this text, or NULL. */
const struct saying *adapter_saying(const char *text, size_t length);

#endif
