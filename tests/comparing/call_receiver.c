/* The receiver's calls, beside their counterparts. */
#include "comparing.h"

#include <string.h>

static struct ind_hold before;
static uint8_t out_before[LENT_MOST];

void both_fresh(struct trial *t, struct ind_hold *hold)
{
    before = *hold;
    calling(t, "trawnosz_fresh");
    with_bytes("hold", before.row, sizeof before.row);
    ind_fresh_hold(hold);
    trawnosz_fresh(lend(t, LENT_HOLD, before.row, sizeof before.row));
    check_lent(t, LENT_HOLD, "hold", hold->row);
}

static void name_inputs(struct trial *t, const uint8_t *piece, size_t size, size_t room)
{
    calling(t, "trawnosz_receive");
    with_bytes("hold", before.row, sizeof before.row);
    with_number("held", before.held);
    with_number("count", before.count);
    with_bytes("piece", piece, size);
    with_bytes("out", out_before, room);
}

struct ind_received both_receive(struct trial *t, struct ind_hold *hold, const uint8_t *piece, size_t size, uint8_t *out,
                                 size_t room)
{
    struct answer a = {0}, b = {0};
    before = *hold;
    memcpy(out_before, out, room);
    name_inputs(t, piece, size, room);
    struct ind_received mine = ind_receive(hold, piece, size, out, room);
    tell(&a, "event", event_number(&mine));
    tell(&a, "length", mine.packet_size);
    tell(&a, "skipped", mine.carried);
    tell(&a, "taken", mine.taken);
    tell(&a, "held", hold->held);
    tell(&a, "count", hold->count);
    uint8_t *lent_hold = lend(t, LENT_HOLD, before.row, sizeof before.row);
    uint8_t *lent_piece = lend(t, LENT_INPUT, piece, size);
    uint8_t *lent_out = lend(t, LENT_OUTPUT, out_before, room);
    trawnosz_served theirs = trawnosz_receive(lent_hold, before.held, before.count, lent_piece, size, lent_out, room);
    tell(&b, "event", theirs.event);
    tell(&b, "length", theirs.length);
    tell(&b, "skipped", theirs.skipped);
    tell(&b, "taken", theirs.taken);
    tell(&b, "held", theirs.held);
    tell(&b, "count", theirs.count);
    agree(t, &a, &b);
    check_lent(t, LENT_HOLD, "hold", hold->row);
    check_lent(t, LENT_INPUT, "piece", piece);
    check_lent(t, LENT_OUTPUT, "out", out);
    return mine;
}
