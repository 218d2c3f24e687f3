/*
 * The receiver again, tuned for speed: words in the zero test, memchr over noise, and a packet that stands whole in the
 * piece is judged there and copied once.
 */
#include <string.h>

#include "twin.h"

enum { FULL_COUNT = 65535, UP_TO_LENGTH = 26, AROUND_UNIT = 30 };

typedef struct call {
    twin_receiver *receiver;
    const uint8_t *piece;
    size_t length;
    size_t taken;
} call;

static int state_bad(const twin_receiver *r)
{
    if (r->held > sizeof r->hold || r->count >= FULL_COUNT)
        return 1;
    const uint8_t *at = r->hold + r->held;
    size_t n = sizeof r->hold - r->held;
    uint64_t any = 0, word;
    for (; n >= sizeof word; n -= sizeof word, at += sizeof word) {
        memcpy(&word, at, sizeof word);
        any |= word;
    }
    for (; n > 0; n--, at++)
        any |= *at;
    return any != 0;
}

static trawnosz_served answer(const call *c, uint8_t event, size_t length, size_t skipped)
{
    trawnosz_served served = {event, length, skipped, c->taken, c->receiver->held, c->receiver->count};
    return served;
}

static void drop(twin_receiver *r, size_t n)
{
    r->held -= n;
    if (r->held > 0)
        memmove(r->hold, r->hold + n, r->held);
    memset(r->hold + r->held, 0, n);
}

static int gather(call *c, size_t wanted)
{
    twin_receiver *r = c->receiver;
    if (r->held >= wanted)
        return 1;
    size_t n = wanted - r->held;
    if (n > c->length - c->taken)
        n = c->length - c->taken;
    if (n > 0)
        memcpy(r->hold + r->held, c->piece + c->taken, n);
    r->held += n;
    c->taken += n;
    return r->held == wanted;
}

/* The noise at the front of n bytes, at most `most` of it. */
static size_t noise(const uint8_t *at, size_t n, size_t most)
{
    size_t p = 0, end = n < most ? n : most;
    while (p < end) {
        const uint8_t *hit = memchr(at + p, 64, end - p);
        if (!hit)
            return end;
        p = (size_t)(hit - at);
        if (p + 1 == n || at[p + 1] == 64)
            return p;
        p++;
    }
    return p;
}

static int skip_held(twin_receiver *r)
{
    size_t n = noise(r->hold, r->held, FULL_COUNT - r->count);
    if (n > 0)
        drop(r, n);
    r->count += n;
    return r->count == FULL_COUNT;
}

static int skip_piece(call *c)
{
    twin_receiver *r = c->receiver;
    c->taken = noise(c->piece, c->length, FULL_COUNT - r->count);
    r->count += c->taken;
    if (r->count < FULL_COUNT)
        return 0;
    if (c->piece[c->taken - 1] == 64)
        gather(c, 1);
    return 1;
}

static int skip(call *c)
{
    twin_receiver *r = c->receiver;
    if (r->held == 0)
        return skip_piece(c);
    if (skip_held(r))
        return 1;
    while (r->held == 1 && c->taken < c->length) {
        gather(c, 2);
        if (skip_held(r))
            return 1;
    }
    if (r->held > 0)
        return 0;
    call rest = {r, c->piece + c->taken, c->length - c->taken, 0};
    int full = skip_piece(&rest);
    c->taken += rest.taken;
    return full;
}

static uint8_t frame_event(const uint8_t *packet, size_t unit)
{
    uint8_t sum = 0;
    if (packet[28 + unit] != 35 || packet[29 + unit] != 35)
        return TRAWNOSZ_REFUSED_END;
    for (size_t i = 2; i < 27 + unit; i++)
        sum += packet[i];
    return sum == packet[27 + unit] ? TRAWNOSZ_EVENT_PACKET : TRAWNOSZ_REFUSED_SUM;
}

static size_t restart(twin_receiver *r)
{
    size_t skipped = r->count;
    r->count = 0;
    return skipped;
}

/* The length of a packet that stands whole in the rest of the piece, else 0. */
static size_t whole(const call *c)
{
    const uint8_t *at = c->piece + c->taken;
    size_t left = c->length - c->taken;
    if (c->receiver->held > 0 || left < AROUND_UNIT)
        return 0;
    size_t unit = at[24] + 256u * at[25];
    if (unit > TRAWNOSZ_LONGEST_UNIT || left < AROUND_UNIT + unit || frame_event(at, unit) != TRAWNOSZ_EVENT_PACKET)
        return 0;
    return AROUND_UNIT + unit;
}

trawnosz_served tuned_receive(twin_receiver *r, const uint8_t *piece, size_t piece_length, uint8_t *out, size_t out_length)
{
    call c = {r, piece, piece_length, 0};
    if (state_bad(r))
        return answer(&c, TRAWNOSZ_REFUSED_STATE, 0, 0);
    if (out_length < sizeof r->hold)
        return answer(&c, TRAWNOSZ_REFUSED_ROOM, 0, 0);
    if (skip(&c))
        return answer(&c, TRAWNOSZ_EVENT_NOISE, 0, restart(r));
    size_t length = whole(&c);
    if (length) {
        memcpy(out, piece + c.taken, length);
        c.taken += length;
        return answer(&c, TRAWNOSZ_EVENT_PACKET, length, restart(r));
    }
    if (!gather(&c, UP_TO_LENGTH))
        return answer(&c, TRAWNOSZ_EVENT_MORE, 0, 0);
    size_t unit = r->hold[24] + 256u * r->hold[25];
    uint8_t event = TRAWNOSZ_REFUSED_LENGTH;
    if (unit <= TRAWNOSZ_LONGEST_UNIT) {
        if (!gather(&c, AROUND_UNIT + unit))
            return answer(&c, TRAWNOSZ_EVENT_MORE, 0, 0);
        event = frame_event(r->hold, unit);
    }
    size_t skipped = restart(r);
    length = event == TRAWNOSZ_EVENT_PACKET ? AROUND_UNIT + unit : 0;
    if (length)
        memcpy(out, r->hold, length);
    drop(r, length ? length : 1);
    return answer(&c, event, length, skipped);
}
