/* Request Q-7's cases, with the verdicts that it states: "Raise the limit to 1,600 parts; the file stays below 64 KiB (60,932
 * bytes at most with 64 systems)"; "MANY from 1,601". */
#include "comparing.h"

#include <string.h>

enum { PART = 38, KEY = 7, MOST = 1601 };

static uint8_t table[4 + 2 * 64 + MOST * PART];

static size_t put_two(size_t at, size_t count)
{
    table[at] = (uint8_t)count;
    table[at + 1] = (uint8_t)(count >> 8);
    return at + 2;
}

/* A table of exactly so many systems and parts, which differ in the last two bytes of their address; its size. */
static size_t make_exactly(size_t systems, size_t parts)
{
    size_t at = put_two(0, systems);
    for (size_t i = 0; i < systems; i++) {
        table[at++] = 1;
        table[at++] = (uint8_t)i;
    }
    at = put_two(at, parts);
    memset(table + at, 0, parts * PART);
    for (size_t i = 0; i < parts; i++, at += PART) {
        table[at] = 1;
        table[at + 1] = (uint8_t)(i * systems / parts);
        table[at + 5] = (uint8_t)(i >> 8);
        table[at + 6] = (uint8_t)i;
    }
    return at;
}

/* A part is found by the seven bytes that stand in its entry, so many before the last one. */
static void find_before_last(struct trial *t, size_t size, size_t parts)
{
    size_t entry = size - (parts + 1) * PART;
    struct ind_span found = both_find_place(t, table, size, table + entry);
    expect(t, !found.verdict.refusal && found.start == entry + KEY && found.length == PART - KEY);
}

/* "64 systems and 1,600 parts: good, 60,932 bytes; 1,025 parts: good", which the earlier program refuses as MANY. */
static void try_taken(struct trial *t, size_t systems, size_t parts, size_t bytes)
{
    size_t size = make_exactly(systems, parts);
    struct ind_devices judged = beside_earlier(t, table, size);
    expect(t, size == bytes && size < 64 * 1024 && !judged.verdict.refusal && judged.systems == systems && judged.parts == parts);
    expect(t, (ind_judge_devices_earlier(table, size).verdict.refusal == IND_MANY) == (parts > IND_EARLIER_PARTS));
    find_before_last(t, size, 0);
    find_before_last(t, size, parts - 1);
    find_before_last(t, size, t->turn % parts);
}

void try_part_examples(struct trial *t)
{
    uint8_t counts[4];
    expect_verdict(t, both_judge_table(t, counts, from_hex(counts, "00004106")).verdict, IND_MANY, 0);
    expect_verdict(t, both_judge_table(t, counts, from_hex(counts, "00004006")).verdict, IND_CUT, 0);
    try_taken(t, 64, 1600, 60932);
    try_taken(t, 64, 1025, 39082);
    try_taken(t, 1, 1024, 38918);
    expect_verdict(t, both_judge_table(t, table, make_exactly(64, 1601)).verdict, IND_MANY, 0);
}
