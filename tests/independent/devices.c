/* The device table. */
#include "independent.h"

#include <string.h>

/* A section: the size of an entry, and how many bytes of it give the order. */
struct section {
    size_t entry;
    size_t key;
};

static const struct section systems = {2, 2};
static const struct section parts = {38, 7};

/* "per section CUT of the count, MANY, CUT"; the section's bytes stand behind its count. */
static enum ind_refusal open_section(const struct section *kind, const uint8_t *table, size_t left, size_t most, size_t *count)
{
    if (left < 2)
        return IND_CUT;
    *count = ind_low_first(table);
    if (*count > most)
        return IND_MANY;
    if (left - 2 < *count * kind->entry)
        return IND_CUT;
    return IND_GOOD;
}

/* "Entries rise strictly, first byte foremost". */
static bool out_of_order(const struct section *kind, const uint8_t *entries, size_t i)
{
    const uint8_t *entry = entries + i * kind->entry;
    return i > 0 && memcmp(entry - kind->entry, entry, kind->key) >= 0;
}

static bool is_listed(const uint8_t *system, const uint8_t *list, size_t count)
{
    for (size_t i = 0; i < count; i++) {
        if (list[2 * i] == system[0] && list[2 * i + 1] == system[1])
            return true;
    }
    return false;
}

static struct ind_verdict judge_systems(const uint8_t *table, size_t size, size_t *count)
{
    enum ind_refusal refusal = open_section(&systems, table, size, IND_MOST_SYSTEMS, count);
    if (refusal)
        return ind_refuse(refusal);
    for (size_t i = 0; i < *count; i++) {
        if (out_of_order(&systems, table + 2, i))
            return ind_refuse_at(IND_ORDER, i);
    }
    return ind_good();
}

/* "for parts ORDER then ORPHAN"; "parts numbered on after the systems". */
static struct ind_verdict judge_parts(const uint8_t *table, size_t left, size_t most, const uint8_t *list, size_t listed, size_t *count)
{
    enum ind_refusal refusal = open_section(&parts, table, left, most, count);
    if (refusal)
        return ind_refuse(refusal);
    for (size_t i = 0; i < *count; i++) {
        if (out_of_order(&parts, table + 2, i))
            return ind_refuse_at(IND_ORDER, listed + i);
        if (!is_listed(table + 2 + i * parts.entry, list, listed))
            return ind_refuse_at(IND_ORPHAN, listed + i);
    }
    return ind_good();
}

/* The judge of a program that takes so many parts at most. */
static struct ind_devices judge_up_to(const uint8_t *table, size_t size, size_t most_parts)
{
    struct ind_devices refused = {ind_good(), 0, 0};
    struct ind_devices good = {ind_good(), 0, 0};
    refused.verdict = judge_systems(table, size, &good.systems);
    if (refused.verdict.refusal)
        return refused;
    size_t behind = 2 + good.systems * systems.entry;
    refused.verdict = judge_parts(table + behind, size - behind, most_parts, table + 2, good.systems, &good.parts);
    if (refused.verdict.refusal)
        return refused;
    refused.verdict = ind_refuse(IND_TAIL);
    return size > behind + 2 + good.parts * parts.entry ? refused : good;
}

struct ind_devices ind_judge_devices(const uint8_t *table, size_t size)
{
    return judge_up_to(table, size, IND_MOST_PARTS);
}

/* "the earlier program reads it .. A larger one is refused by the earlier program as MANY" */
struct ind_devices ind_judge_devices_earlier(const uint8_t *table, size_t size)
{
    return judge_up_to(table, size, IND_EARLIER_PARTS);
}

/* "Finding a part judges the table first, then hands back the description as a part of it, or UNLISTED". */
struct ind_span ind_find_part(const uint8_t *table, size_t size, const uint8_t key[7])
{
    struct ind_devices devices = ind_judge_devices(table, size);
    if (devices.verdict.refusal)
        return ind_no_span(devices.verdict);
    size_t first = 2 + devices.systems * systems.entry + 2;
    for (size_t i = 0; i < devices.parts; i++) {
        size_t entry = first + i * parts.entry;
        if (memcmp(table + entry, key, 7) == 0)
            return ind_span_at(entry + 7, IND_DESCRIPTION_BYTES);
    }
    return ind_no_span(ind_refuse(IND_UNLISTED));
}
