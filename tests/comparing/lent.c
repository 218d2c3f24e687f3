/* Memory lent to the library: between two pages that may not be touched, with guard bytes on the open side. */
#define _DEFAULT_SOURCE
#include "comparing.h"

#include <stdio.h>
#include <stdlib.h>
#include <string.h>
#include <sys/mman.h>

enum { GUARD_BYTES = 64, GUARD = 0xC5, FORBIDDEN = 64 * 1024 };

/* A buffer's memory, and what of it is lent now; `null` where a null pointer was lent. */
static struct {
    uint8_t *memory;
    uint8_t *bytes;
    size_t size;
    bool null;
} buffers[LENT_BUFFERS];

void make_lent_memory(void)
{
    for (int i = 0; i < LENT_BUFFERS; i++) {
        size_t all = FORBIDDEN + LENT_MOST + FORBIDDEN;
        uint8_t *memory = mmap(NULL, all, PROT_NONE, MAP_PRIVATE | MAP_ANONYMOUS, -1, 0);
        if (memory == MAP_FAILED || mprotect(memory + FORBIDDEN, LENT_MOST, PROT_READ | PROT_WRITE) != 0) {
            perror("comparing");
            exit(2);
        }
        buffers[i].memory = memory + FORBIDDEN;
    }
}

/* The guard bytes stand behind a buffer that begins the memory, and before one that ends it. */
static uint8_t *guard_of(enum lent which)
{
    uint8_t *bytes = buffers[which].bytes;
    return bytes == buffers[which].memory ? bytes + buffers[which].size : bytes - GUARD_BYTES;
}

uint8_t *lend(struct trial *t, enum lent which, const uint8_t *bytes, size_t size)
{
    if (size > LENT_MOST - GUARD_BYTES)
        abort();
    buffers[which].null = size == 0 && t->empty_is_null;
    buffers[which].size = size;
    buffers[which].bytes = buffers[which].memory + (t->at_end ? LENT_MOST - size : 0);
    if (size > 0)
        memcpy(buffers[which].bytes, bytes, size);
    memset(guard_of(which), GUARD, GUARD_BYTES);
    return buffers[which].null ? NULL : buffers[which].bytes;
}

/* What came back: the bytes that are expected, and the guards as they were. */
void check_lent(struct trial *t, enum lent which, const char *name, const uint8_t *expected)
{
    const uint8_t *guard = guard_of(which);
    for (size_t i = 0; i < GUARD_BYTES; i++) {
        if (guard[i] != GUARD)
            differ(t, "bytes beside a lent buffer were changed");
    }
    if (buffers[which].size > 0 && memcmp(buffers[which].bytes, expected, buffers[which].size) != 0)
        differ_bytes(t, name, expected, buffers[which].bytes, buffers[which].size);
    if (t->show)
        show_bytes(name, expected, buffers[which].size);
}
