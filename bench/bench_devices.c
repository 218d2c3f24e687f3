/* The device table at several sizes. */
#include "bench.h"

static uint8_t table[4 + 2 * TRAWNOSZ_MOST_SYSTEMS + 38 * TRAWNOSZ_MOST_PARTS];

/* A good table whose parts are spread over its systems; its length. */
static size_t make_table(size_t systems, size_t parts)
{
    size_t at = 2;
    table[0] = (uint8_t)systems;
    table[1] = 0;
    for (size_t i = 0; i < systems; i++) {
        table[at++] = (uint8_t)(1 + i / 8);
        table[at++] = (uint8_t)(i % 8);
    }
    table[at++] = (uint8_t)parts;
    table[at++] = (uint8_t)(parts >> 8);
    for (size_t i = 0; i < parts; i++) {
        const uint8_t *system = table + 2 + 2 * (i * systems / parts);
        uint8_t part[38] = {system[0], system[1], 40, 0, 0, (uint8_t)(i >> 8), (uint8_t)i, 'r', 'o', 'o', 'm'};
        memcpy(table + at, part, sizeof part);
        at += sizeof part;
    }
    return at;
}

static void judge(const char *name, size_t length)
{
    unsigned number = row(name, length, NOT_ABOVE_TWIN);
    trawnosz_table ours, plain;
    MEASURE(REGION(number, OURS), ours = trawnosz_judge_table(table, length));
    MEASURE(REGION(number, PLAIN), plain = twin_judge_table(table, length));
    agree(same_verdict(ours.verdict, plain.verdict) && ours.systems == plain.systems && ours.parts == plain.parts);
}

static void find(const char *name, size_t length, const uint8_t *seven)
{
    uint32_t at = seven[3] | (uint32_t)seven[4] << 8 | (uint32_t)seven[5] << 16 | (uint32_t)seven[6] << 24;
    trawnosz_key key = {.system = seven[0], .address = seven[1], .part = seven[2], .part_address = at};
    unsigned number = row(name, length, NOT_ABOVE_TWIN);
    trawnosz_found ours, plain;
    MEASURE(REGION(number, OURS), ours = trawnosz_find_part(table, length, key));
    MEASURE(REGION(number, PLAIN), plain = twin_find_part(table, length, seven));
    agree(same_part(ours, plain));
}

void bench_devices(void)
{
    static const uint8_t unlisted[7] = {255, 255, 255, 255, 255, 255, 255};
    section("Device table");
    judge("judge_table: no systems, no parts", make_table(0, 0));
    judge("judge_table: 1 system, 1 part", make_table(1, 1));
    judge("judge_table: 16 systems, 256 parts", make_table(16, 256));
    judge("judge_table: 32 systems, 512 parts", make_table(32, 512));
    size_t length = make_table(64, 1024);
    judge("judge_table: 64 systems, 1,024 parts", length);
    find("find_part: 64 systems, 1,024 parts, first part", length, table + 4 + 2 * 64);
    find("find_part: 64 systems, 1,024 parts, last part", length, table + length - 38);
    find("find_part: 64 systems, 1,024 parts, unlisted", length, unlisted);
    length = make_table(64, 1600);
    judge("judge_table: 64 systems, 1,600 parts", length);
    find("find_part: 64 systems, 1,600 parts, first part", length, table + 4 + 2 * 64);
    find("find_part: 64 systems, 1,600 parts, last part", length, table + length - 38);
    find("find_part: 64 systems, 1,600 parts, unlisted", length, unlisted);
}
