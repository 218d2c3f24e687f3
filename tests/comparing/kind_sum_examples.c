/* Request Q-5's cases, with the sums that it states: "add all, then drop what is above eight bits. .. At most 1,049 bytes of
 * at most 255 are added, 267,495 in all." */
#include "comparing.h"

#include <string.h>

enum { LONGEST = 1054, SUM_AT = 1051, RIGHT = 0xED, TURNS = 16 };

/* "40 40, 22 x FF, 00 04, FF, then 1,024 x FF: the bytes 3 to 27+L add up to 266,989, sum ED", under any sum. */
static void make_largest(uint8_t packet[LONGEST], uint8_t sum)
{
    memset(packet, 0xFF, LONGEST);
    memcpy(packet, "@@", 2);
    packet[24] = 0;
    packet[25] = 4;
    packet[SUM_AT] = sum;
    memcpy(packet + SUM_AT + 1, "##", 2);
}

/* Of 256 sums one is right; behind it the version, which is 255, is refused. */
static void try_every_sum(struct trial *t)
{
    uint8_t packet[LONGEST];
    for (unsigned sum = 0; sum < 256; sum++) {
        make_largest(packet, (uint8_t)sum);
        expect_verdict(t, both_judge_packet(t, packet, LONGEST), sum == RIGHT ? IND_VERSION : IND_SUM, 0);
    }
}

/* The receiver adds up what it holds and what it is given. */
static void try_cut(struct trial *t, size_t cut, uint8_t sum)
{
    struct ind_hold hold = {.held = 0};
    uint8_t packet[LONGEST], out[LONGEST] = {0};
    make_largest(packet, sum);
    struct ind_received first = both_receive(t, &hold, packet, cut, out, sizeof out);
    struct ind_received second = both_receive(t, &hold, packet + cut, LONGEST - cut, out, sizeof out);
    expect(t, first.event == IND_MORE && first.taken == cut && second.taken == LONGEST - cut && second.carried == 0);
    expect(t, second.event == (sum == RIGHT ? IND_PACKET : IND_EVENT_SUM));
    expect(t, sum != RIGHT || (second.packet_size == LONGEST && memcmp(out, packet, LONGEST) == 0));
}

/* "1,049 x FF: 267,495, E7": no packet's bytes, since L is among them, so the independent sum alone is held against it. */
static void try_most(struct trial *t)
{
    uint8_t bytes[LONGEST];
    memset(bytes, 0xFF, sizeof bytes);
    expect(t, ind_sum(bytes, 1024) == 0xE7);
}

/* The places to cut at take turns. */
void try_sum_examples(struct trial *t)
{
    try_every_sum(t);
    for (size_t cut = t->turn % TURNS; cut < LONGEST; cut += TURNS) {
        try_cut(t, cut, RIGHT);
        try_cut(t, cut, RIGHT + 1);
    }
    try_most(t);
}
