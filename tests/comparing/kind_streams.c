/* Streams and their cuttings: every call, and the events of the cut stream beside those of the uncut one. */
#include "comparing.h"

#include <string.h>

enum { ROOM = 1054 };

static struct stream stream;

/* A receiver at work on the stream, and beside it the reading of the uncut stream, one event behind or level. */
struct work {
    struct ind_hold hold;
    struct ind_reading uncut;
    uint8_t out[ROOM + 16];
    size_t room;
    size_t accounted;
};

static void same_event(struct trial *t, struct work *work, const struct ind_received *received)
{
    ind_read_on(&work->uncut, stream.bytes, stream.size);
    if (work->uncut.event != received->event || work->uncut.carried != received->carried)
        differ(t, "an event of the cut stream is not that of the uncut one");
    if (work->uncut.packet_size != received->packet_size)
        differ(t, "a packet of the cut stream has not the length of the uncut one's");
    if (received->event == IND_PACKET
        && memcmp(work->out, stream.bytes + work->uncut.packet_at, received->packet_size) != 0)
        differ(t, "a packet of the cut stream is not that of the uncut one");
}

/* "Bytes received equal the events' skipped counts, one per LENGTH, END and SUM, the packets' lengths" and the rest. */
static size_t bytes_of_event(const struct ind_received *received)
{
    size_t bytes = received->carried + received->packet_size;
    if (received->event == IND_EVENT_LENGTH || received->event == IND_EVENT_END || received->event == IND_EVENT_SUM)
        bytes += 1;
    return bytes;
}

/* Offers a piece, then what was not yet taken of it, until the receiver asks for more. */
static void offer(struct trial *t, struct work *work, const uint8_t *piece, size_t size)
{
    for (;;) {
        struct ind_received received = both_receive(t, &work->hold, piece, size, work->out, work->room);
        piece += received.taken;
        size -= received.taken;
        if (received.event == IND_MORE)
            break;
        same_event(t, work, &received);
        work->accounted += bytes_of_event(&received);
    }
    if (size != 0)
        differ(t, "more was asked for before the whole piece was taken");
}

static size_t piece_size(struct trial *t, size_t left, size_t usual)
{
    size_t size = chance(t, 10) ? 0 : chance(t, 20) ? 1 : between(t, 1, usual);
    return size < left ? size : left;
}

static void same_end(struct trial *t, struct work *work)
{
    ind_read_on(&work->uncut, stream.bytes, stream.size);
    size_t rest = stream.size - work->uncut.position;
    if (work->uncut.event != IND_MORE || rest != work->hold.held || work->uncut.count != work->hold.count
        || memcmp(stream.bytes + work->uncut.position, work->hold.row, rest) != 0)
        differ(t, "the state at the end of the cut stream is not that of the uncut one");
    if (work->accounted + work->hold.count + work->hold.held != stream.size)
        differ(t, "the account of the bytes received does not add up");
}

/* Runs the stream cut into pieces of at most `usual` bytes; one cutting in three is of single bytes where that is short. */
static void run_cut(struct trial *t, size_t usual)
{
    struct work work = {.room = ROOM + below(t, 17)};
    fill(t, work.hold.row, sizeof work.hold.row);
    fill(t, work.out, sizeof work.out);
    both_fresh(t, &work.hold);
    size_t at = 0;
    while (at < stream.size) {
        size_t size = piece_size(t, stream.size - at, usual);
        offer(t, &work, stream.bytes + at, size);
        at += size;
    }
    same_end(t, &work);
}

void try_streams(struct trial *t)
{
    static const size_t usual[] = {1, 3, 40, 200, 1100, 5000};
    stream.size = 0;
    size_t kind = below(t, 6);
    size_t most = kind < 2 ? 150 : 2500;
    do {
        add_segment(t, &stream);
    } while (stream.size < most && chance(t, 75));
    run_cut(t, usual[kind]);
}

/* Noise runs around 65,535 and twice that, in pieces that are long enough to be quick. */
void try_noise(struct trial *t)
{
    stream.size = 0;
    add_noise(t, &stream, below(t, 3));
    add_run(&stream, chance(t, 80) ? 0 : '#', between(t, 65530, 65537) * between(t, 1, 2));
    if (chance(t, 50))
        add_run(&stream, '@', between(t, 1, 2));
    add_packet(t, &stream);
    add_segment(t, &stream);
    run_cut(t, 40000);
}
