/* Random numbers by splitmix64, from a case's seed and number. */
#include "comparing.h"

static uint64_t mix(uint64_t x)
{
    x = (x ^ (x >> 30)) * UINT64_C(0xBF58476D1CE4E5B9);
    x = (x ^ (x >> 27)) * UINT64_C(0x94D049BB133111EB);
    return x ^ (x >> 31);
}

void start_random(struct trial *t)
{
    t->random = mix(t->seed + UINT64_C(0x9E3779B97F4A7C15)) ^ mix(mix(t->number + 1));
}

uint64_t draw(struct trial *t)
{
    t->random += UINT64_C(0x9E3779B97F4A7C15);
    return mix(t->random);
}

/* A number from 0 to limit - 1; the small unevenness does not matter here. */
size_t below(struct trial *t, size_t limit)
{
    return limit == 0 ? 0 : draw(t) % limit;
}

size_t between(struct trial *t, size_t least, size_t most)
{
    return least + below(t, most - least + 1);
}

bool chance(struct trial *t, unsigned percent)
{
    return below(t, 100) < percent;
}

uint8_t any_byte(struct trial *t)
{
    return (uint8_t)(draw(t) >> 20);
}

void fill(struct trial *t, uint8_t *bytes, size_t size)
{
    uint64_t bits = 0;
    for (size_t i = 0; i < size; i++) {
        if (i % 8 == 0)
            bits = draw(t);
        bytes[i] = (uint8_t)(bits >> (i % 8 * 8));
    }
}
