/* Receiver states that are legal but seldom or never reached, unsound ones, and small buffers. */
#include "comparing.h"

#include <string.h>

static struct stream stream;

/* Held bytes of any kind: a stretch of a stream from anywhere, zeros, or bytes at random. */
static void make_held(struct trial *t, struct ind_hold *hold)
{
    static const size_t sizes[] = {0, 1, 2, 25, 26, 29, 30, 1053, 1054};
    memset(hold, 0, sizeof *hold);
    hold->held = chance(t, 40) ? sizes[below(t, 9)] : below(t, chance(t, 50) ? 60 : 1055);
    stream.size = 0;
    while (stream.size < hold->held + 100)
        add_segment(t, &stream);
    size_t from = chance(t, 60) ? 0 : below(t, stream.size - hold->held);
    memcpy(hold->row, stream.bytes + from, hold->held);
    if (chance(t, 8))
        memset(hold->row, 0, hold->held);
}

/* A count of 0, of any size, or so near 65,535 that the bytes at hand reach it. */
static size_t make_count(struct trial *t)
{
    switch (below(t, 4)) {
    case 0:
        return 0;
    case 1:
        return below(t, 65535);
    case 2:
        return 65534 - below(t, 4);
    default:
        return 65534 - below(t, 1200);
    }
}

/* Breaks one of the state's three rules. */
static void make_unsound(struct trial *t, struct ind_hold *hold)
{
    static const size_t huge[] = {65535, 65536, 131071, SIZE_MAX, SIZE_MAX - 1, (size_t)1 << 32, ((size_t)1 << 32) + 7};
    size_t rule = below(t, 3);
    if (rule == 0) {
        hold->held = chance(t, 50) ? 1055 + below(t, 3) : huge[below(t, 7)];
    } else if (rule == 1) {
        hold->count = huge[below(t, 7)];
    } else {
        hold->held = hold->held < 1054 ? hold->held : below(t, 1054);
        memset(hold->row + hold->held, 0, 1054 - hold->held);
        const size_t behind[] = {1053, hold->held, between(t, hold->held, 1053)};
        hold->row[behind[below(t, 3)]] = (uint8_t)between(t, 1, 255);
    }
}

/* A few calls from one state: the piece, then the rest of it while events come. */
void try_receiver_states(struct trial *t)
{
    struct ind_hold hold;
    uint8_t out[1100];
    uint8_t piece[1200];
    make_held(t, &hold);
    hold.count = make_count(t);
    if (chance(t, 15))
        make_unsound(t, &hold);
    size_t size = chance(t, 20) ? 0 : chance(t, 30) ? between(t, 1, 3) : below(t, sizeof piece);
    stream.size = 0;
    add_noise(t, &stream, below(t, 4));
    while (stream.size < size)
        add_segment(t, &stream);
    memcpy(piece, stream.bytes, size);
    size_t room = chance(t, 90) ? 1054 + below(t, 3) : chance(t, 50) ? 1053 - below(t, 3) : below(t, 1054);
    fill(t, out, room);
    size_t at = 0;
    for (int call = 0; call < 40; call++) {
        struct ind_received received = both_receive(t, &hold, piece + at, size - at, out, room);
        at += received.taken;
        if (received.event == IND_MORE || received.event == IND_REFUSED)
            break;
    }
}
