/* The calls that tell names, the release's number and the length of a unit, beside their counterparts. */
#include "comparing.h"

#include <string.h>

static uint8_t before[LENT_MOST];

static uint8_t *start_row_call(struct trial *t, const char *call, const uint8_t *out, size_t room)
{
    if (room > 0)
        memcpy(before, out, room);
    calling(t, call);
    with_bytes("out", before, room);
    return lend(t, LENT_OUTPUT, before, room);
}

struct ind_span both_name(struct trial *t, uint8_t number, uint8_t *out, size_t room)
{
    uint8_t *lent = start_row_call(t, "trawnosz_name", out, room);
    with_number("number", number);
    struct ind_span mine = ind_put_front(out, room, ind_name(number));
    agree_part(t, mine, trawnosz_name(number, lent, room));
    check_lent(t, LENT_OUTPUT, "out", out);
    return mine;
}

/* The header's own text, which tests/interface holds against the file RELEASE. */
struct ind_span both_release(struct trial *t, uint8_t *out, size_t room)
{
    uint8_t *lent = start_row_call(t, "trawnosz_release", out, room);
    struct ind_span mine = ind_put_front(out, room, TRAWNOSZ_RELEASE);
    agree_part(t, mine, trawnosz_release(lent, room));
    check_lent(t, LENT_OUTPUT, "out", out);
    return mine;
}

size_t both_unit_length(struct trial *t, uint8_t type, size_t n)
{
    struct answer a = {0}, b = {0};
    calling(t, "trawnosz_unit_length");
    with_number("type", type);
    with_number("n", n);
    size_t mine = ind_unit_length(type, n);
    tell(&a, "length", mine);
    tell(&b, "length", trawnosz_unit_length(type, n));
    agree(t, &a, &b);
    return mine;
}
