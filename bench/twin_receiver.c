/* The plain twin's receiver. */
#include <string.h>

#include "twin.h"

enum { MOST_COUNT = 65534, UP_TO_LENGTH = 26, AROUND_UNIT = 30 };

/* One call's view: the state, and the piece with what was taken of it. */
typedef struct call {
    twin_receiver *receiver;
    const uint8_t *piece;
    size_t length;
    size_t taken;
} call;

void twin_fresh(twin_receiver *receiver)
{
    memset(receiver, 0, sizeof *receiver);
}

static int state_bad(const twin_receiver *r)
{
    if (r->held > sizeof r->hold || r->count > MOST_COUNT)
        return 1;
    for (size_t i = r->held; i < sizeof r->hold; i++)
        if (r->hold[i])
            return 1;
    return 0;
}

static trawnosz_served answer(const call *c, uint8_t event, size_t length, size_t skipped)
{
    trawnosz_served served = {event, length, skipped, c->taken, c->receiver->held, c->receiver->count};
    return served;
}

static void drop(twin_receiver *r, size_t n)
{
    if (n == 0)
        return;
    r->held -= n;
    memmove(r->hold, r->hold + n, r->held);
    memset(r->hold + r->held, 0, n);
}

/* Takes from the piece until `wanted` bytes are held; 0 where it has too few. */
static int gather(call *c, size_t wanted)
{
    twin_receiver *r = c->receiver;
    if (r->held >= wanted)
        return 1;
    size_t n = wanted - r->held;
    if (n > c->length - c->taken)
        n = c->length - c->taken;
    if (n > 0)
        memcpy(r->hold + r->held, c->piece + c->taken, n);
    r->held += n;
    c->taken += n;
    return r->held == wanted;
}

/* The byte is skipped; a 64 with nothing behind it is not. */
static int is_noise(const uint8_t *at, size_t n)
{
    return at[0] != 64 || (n > 1 && at[1] != 64);
}

/* Skips in the hold; 1 where the count is full. */
static int skip_held(twin_receiver *r)
{
    size_t p = 0;
    while (p < r->held && r->count <= MOST_COUNT && is_noise(r->hold + p, r->held - p)) {
        p++;
        r->count++;
    }
    drop(r, p);
    return r->count > MOST_COUNT;
}

/* Skips in the piece where nothing is held; 1 where the count is full. */
static int skip_piece(call *c)
{
    twin_receiver *r = c->receiver;
    while (c->taken < c->length && is_noise(c->piece + c->taken, c->length - c->taken)) {
        c->taken++;
        if (++r->count > MOST_COUNT) {
            /* A 64 was decided by the byte behind it, which is then taken too. */
            if (c->piece[c->taken - 1] == 64)
                gather(c, 1);
            return 1;
        }
    }
    return 0;
}

/* Skips up to a start; 1 where the count is full. */
static int skip(call *c)
{
    twin_receiver *r = c->receiver;
    if (skip_held(r))
        return 1;
    while (r->held == 1 && c->taken < c->length) {
        gather(c, 2);
        if (skip_held(r))
            return 1;
    }
    return r->held == 0 && skip_piece(c);
}

static uint8_t frame_event(const uint8_t *packet, size_t unit)
{
    uint8_t sum = 0;
    if (packet[28 + unit] != 35 || packet[29 + unit] != 35)
        return TRAWNOSZ_REFUSED_END;
    for (size_t i = 2; i < 27 + unit; i++)
        sum += packet[i];
    return sum == packet[27 + unit] ? TRAWNOSZ_EVENT_PACKET : TRAWNOSZ_REFUSED_SUM;
}

/* An event's skipped count, which then restarts. */
static size_t restart(twin_receiver *r)
{
    size_t skipped = r->count;
    r->count = 0;
    return skipped;
}

trawnosz_served twin_receive(twin_receiver *r, const uint8_t *piece, size_t piece_length, uint8_t *out, size_t out_length)
{
    call c = {r, piece, piece_length, 0};
    if (state_bad(r))
        return answer(&c, TRAWNOSZ_REFUSED_STATE, 0, 0);
    if (out_length < sizeof r->hold)
        return answer(&c, TRAWNOSZ_REFUSED_ROOM, 0, 0);
    if (skip(&c))
        return answer(&c, TRAWNOSZ_EVENT_NOISE, 0, restart(r));
    if (!gather(&c, UP_TO_LENGTH))
        return answer(&c, TRAWNOSZ_EVENT_MORE, 0, 0);
    size_t unit = r->hold[24] + 256u * r->hold[25];
    uint8_t event = TRAWNOSZ_REFUSED_LENGTH;
    if (unit <= TRAWNOSZ_LONGEST_UNIT) {
        if (!gather(&c, AROUND_UNIT + unit))
            return answer(&c, TRAWNOSZ_EVENT_MORE, 0, 0);
        event = frame_event(r->hold, unit);
    }
    size_t skipped = restart(r);
    if (event != TRAWNOSZ_EVENT_PACKET) {
        drop(r, 1);
        return answer(&c, event, 0, skipped);
    }
    memcpy(out, r->hold, AROUND_UNIT + unit);
    drop(r, AROUND_UNIT + unit);
    return answer(&c, event, AROUND_UNIT + unit, skipped);
}
