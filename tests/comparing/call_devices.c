/* The calls on device tables, beside their counterparts. */
#include "comparing.h"

struct ind_devices both_judge_table(struct trial *t, const uint8_t *table, size_t size)
{
    struct answer a = {0}, b = {0};
    calling(t, "trawnosz_judge_table");
    with_bytes("table", table, size);
    struct ind_devices mine = ind_judge_devices(table, size);
    tell_verdict(&a, mine.verdict);
    tell(&a, "systems", mine.systems);
    tell(&a, "parts", mine.parts);
    trawnosz_table theirs = trawnosz_judge_table(lend(t, LENT_INPUT, table, size), size);
    tell_their_verdict(&b, theirs.verdict);
    tell(&b, "systems", theirs.systems);
    tell(&b, "parts", theirs.parts);
    agree(t, &a, &b);
    check_lent(t, LENT_INPUT, "table", table);
    return mine;
}

static bool same_judgement(struct ind_devices a, struct ind_devices b)
{
    return a.verdict.refusal == b.verdict.refusal && a.verdict.place == b.verdict.place && a.systems == b.systems && a.parts == b.parts;
}

/* Request Q-7, of a table with the program before it beside: "a table of 1,024 parts or fewer .. the earlier program reads it. A
 * larger one is refused by the earlier program as MANY". */
struct ind_devices beside_earlier(struct trial *t, const uint8_t *table, size_t size)
{
    struct ind_devices now = both_judge_table(t, table, size);
    struct ind_devices earlier = ind_judge_devices_earlier(table, size);
    bool alike = same_judgement(now, earlier);
    bool many = earlier.verdict.refusal == IND_MANY && earlier.verdict.place == 0;
    expect(t, now.verdict.refusal ? alike || many : now.parts > IND_EARLIER_PARTS ? many : alike);
    return now;
}

struct ind_span both_find_place(struct trial *t, const uint8_t *table, size_t size, const uint8_t key[7])
{
    calling(t, "trawnosz_find_part");
    with_bytes("table", table, size);
    with_bytes("key", key, 7);
    struct ind_span mine = ind_find_part(table, size, key);
    uint32_t at = key[3] | (uint32_t)key[4] << 8 | (uint32_t)key[5] << 16 | (uint32_t)key[6] << 24;
    trawnosz_key their_key = {.system = key[0], .address = key[1], .part = key[2], .part_address = at};
    agree_part(t, mine, trawnosz_find_part(lend(t, LENT_INPUT, table, size), size, their_key));
    check_lent(t, LENT_INPUT, "table", table);
    return mine;
}
