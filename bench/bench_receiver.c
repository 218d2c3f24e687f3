/* The receiver on streams, called as an integrator calls it: the rest of a piece is offered again until MORE. */
#include "bench.h"

enum { STREAM = 262144, PIECE = 4096 };

#define HOSTILE "1.1 - -"

static uint8_t stream[STREAM];

/* Three receivers on one stream; buffers are not cleared between calls. */
static struct {
    twin_receiver ours, plain, tuned;
    uint8_t out[3][TRAWNOSZ_LONGEST_PACKET];
} three;

static void same_state(const twin_receiver *receiver, const uint8_t *out, trawnosz_served a, trawnosz_served b)
{
    agree(a.event == b.event && a.length == b.length && a.skipped == b.skipped && a.taken == b.taken && a.held == b.held &&
          a.count == b.count);
    agree(receiver->held == a.held && receiver->count == a.count);
    agree(memcmp(three.ours.hold, receiver->hold, sizeof receiver->hold) == 0);
    agree(memcmp(three.out[0], out, sizeof three.out[0]) == 0);
}

static void keep(twin_receiver *receiver, const trawnosz_served *served)
{
    receiver->held = served->held;
    receiver->count = served->count;
}

static trawnosz_served offer(unsigned row, const uint8_t *piece, size_t n)
{
    trawnosz_served ours, plain, tuned;
    MEASURE(REGION(row, OURS), ours = trawnosz_receive(three.ours.hold, three.ours.held, three.ours.count, piece, n,
                                                       three.out[0], sizeof three.out[0]);
            keep(&three.ours, &ours));
    MEASURE(REGION(row, PLAIN), plain = twin_receive(&three.plain, piece, n, three.out[1], sizeof three.out[1]));
    MEASURE(REGION(row, TUNED), tuned = tuned_receive(&three.tuned, piece, n, three.out[2], sizeof three.out[2]));
    same_state(&three.plain, three.out[1], ours, plain);
    same_state(&three.tuned, three.out[2], ours, tuned);
    return ours;
}

static void receive(const char *name, const char *targets, size_t length, size_t piece)
{
    unsigned number = row(name, length, targets);
    trawnosz_fresh(three.ours.hold);
    three.ours.held = three.ours.count = 0;
    twin_fresh(&three.plain);
    twin_fresh(&three.tuned);
    for (size_t from = 0, to; from < length; from = to) {
        to = length - from < piece ? length : from + piece;
        trawnosz_served served;
        do {
            served = offer(number, stream + from, to - from);
            from += served.taken;
        } while (served.event != TRAWNOSZ_EVENT_MORE);
        agree(from == to);
    }
}

/* Packets around units of one byte, `wrong` added to each sum; the length of the stream. */
static size_t packets(size_t count, size_t unit, uint8_t byte, uint8_t wrong)
{
    size_t length = 0;
    for (size_t i = 0; i < count; i++) {
        uint8_t *packet = stream + length;
        memset(packet + 27, byte, unit);
        length += make_packet(packet, TRAWNOSZ_COMMAND_SEND, unit);
        packet[27 + unit] += wrong;
    }
    return length;
}

static size_t noise(size_t length)
{
    for (size_t i = 0; i < length; i++)
        stream[i] = (uint8_t)(i % 64);
    return length;
}

static void fresh(void)
{
    unsigned number = row("fresh", sizeof three.ours.hold, NOT_ABOVE_TWIN);
    memset(&three, 255, sizeof three);
    MEASURE(REGION(number, OURS), trawnosz_fresh(three.ours.hold); three.ours.held = three.ours.count = 0);
    MEASURE(REGION(number, PLAIN), twin_fresh(&three.plain));
    agree(memcmp(three.ours.hold, three.plain.hold, sizeof three.ours.hold) == 0);
}

static void bench_growth(void)
{
    section("Receiver as packets and pieces grow");
    receive("receive: 158-byte packets", NOT_ABOVE_TWIN, packets(400, 128, 7, 0), PIECE);
    receive("receive: 286-byte packets", NOT_ABOVE_TWIN, packets(200, 256, 7, 0), PIECE);
    receive("receive: 542-byte packets", NOT_ABOVE_TWIN, packets(100, 512, 7, 0), PIECE);
    receive("receive: noise, pieces of 64", NOT_ABOVE_TWIN, noise(65536), 64);
    receive("receive: noise, pieces of 512", NOT_ABOVE_TWIN, noise(65536), 512);
    receive("receive: noise, pieces of 65,536", NOT_ABOVE_TWIN, noise(STREAM), 65536);
}

void bench_receiver(void)
{
    section("Receiver");
    fresh();
    receive("receive: 30-byte packets", "1 600 -", packets(2000, 0, 0, 0), PIECE);
    receive("receive: 1,054-byte packets", "1 1100 -", packets(200, 1024, 7, 0), PIECE);
    receive("receive: noise, pieces of 4,096", "1 - 0.3", noise(STREAM), PIECE);
    memset(stream, 64, 2 * PIECE);
    receive("receive: all bytes 64", "1.1 450 -", 2 * PIECE, PIECE);
    receive("receive: 30-byte packets, one-byte pieces", "1 450 -", packets(100, 0, 0, 0), 1);
    receive("receive: 30-byte packets with a wrong sum", HOSTILE, packets(400, 0, 0, 1), PIECE);
    receive("receive: 1,054-byte packets with a wrong sum", HOSTILE, packets(100, 1024, 7, 1), PIECE);
    receive("receive: 1,054-byte packets of 64s with a wrong sum", HOSTILE, packets(3, 1024, 64, 1), PIECE);
    bench_growth();
}
