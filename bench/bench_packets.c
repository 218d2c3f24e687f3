/* Judging, reading and answering packets. */
#include "bench.h"

static uint8_t packet[TRAWNOSZ_LONGEST_PACKET];

static size_t with_units(uint8_t type, uint8_t n, size_t size)
{
    return make_packet(packet, TRAWNOSZ_COMMAND_SEND, make_unit(packet + 27, type, n, size));
}

/* A packet around the unit that stands in it, with no time in its header: what the label was is taken off the sum too. */
static size_t of_no_time(uint8_t command, size_t unit)
{
    size_t length = make_packet(packet, command, unit);
    for (size_t i = 6; i < 12; i++) {
        packet[27 + unit] -= packet[i];
        packet[i] = 0;
    }
    return length;
}

/* A confirm that carries bytes which are no unit. */
static size_t of_confirm(size_t bytes)
{
    memset(packet + 27, 7, bytes);
    return make_packet(packet, TRAWNOSZ_COMMAND_CONFIRM, bytes);
}

/* A packet of which only frame and sum are judged, since its version is wrong. */
static size_t of_version_2(size_t unit)
{
    memset(packet + 27, 7, unit);
    size_t length = make_packet(packet, TRAWNOSZ_COMMAND_SEND, unit);
    packet[4] = 2;
    packet[27 + unit]++;
    return length;
}

static void judge(const char *name, size_t length)
{
    unsigned number = row(name, length, NOT_ABOVE_TWIN);
    trawnosz_verdict ours, plain;
    MEASURE(REGION(number, OURS), ours = trawnosz_judge_packet(packet, length));
    MEASURE(REGION(number, PLAIN), plain = twin_judge_packet(packet, length));
    agree(same_verdict(ours, plain));
}

static void read(const char *name, size_t length)
{
    unsigned number = row(name, length, NOT_ABOVE_TWIN);
    trawnosz_opened ours;
    trawnosz_verdict plain;
    trawnosz_header header;
    uint8_t shown;
    size_t unit;
    MEASURE(REGION(number, OURS), ours = trawnosz_read_packet(packet, length));
    MEASURE(REGION(number, PLAIN), plain = twin_read_packet(packet, length, &header, &shown, &unit));
    agree(same_verdict(ours.verdict, plain) && ours.shown == shown && ours.length == unit);
    agree(memcmp(&ours.header, &header, sizeof header) == 0);
}

static void place(const char *name, size_t length)
{
    unsigned number = row(name, length, NOT_ABOVE_TWIN);
    trawnosz_found ours, plain;
    MEASURE(REGION(number, OURS), ours = trawnosz_find_unit(packet, length));
    MEASURE(REGION(number, PLAIN), plain = twin_find_unit(packet, length));
    agree(same_part(ours, plain));
}

static void answer_with(const char *name, size_t length, trawnosz_label label)
{
    static uint8_t out[2][TRAWNOSZ_REPLY_BYTES];
    unsigned number = row(name, length, NOT_ABOVE_TWIN);
    trawnosz_answer ours, plain;
    MEASURE(REGION(number, OURS), ours = trawnosz_answer_to(packet, length, label, out[0], sizeof out[0]));
    MEASURE(REGION(number, PLAIN), plain = twin_answer_to(packet, length, &label, out[1], sizeof out[1]));
    agree(same_verdict(ours.verdict, plain.verdict) && ours.command == plain.command);
    agree(memcmp(out[0], out[1], sizeof out[0]) == 0);
}

static void answer(const char *name, size_t length)
{
    answer_with(name, length, sample_label);
}

static void bench_judge(void)
{
    judge("judge_packet: 30 bytes, a confirm", make_packet(packet, TRAWNOSZ_COMMAND_CONFIRM, 0));
    judge("judge_packet: 30 bytes, a confirm, no time", of_no_time(TRAWNOSZ_COMMAND_CONFIRM, 0));
    judge("judge_packet: 39 bytes, type 21", with_units(21, 1, 7));
    judge("judge_packet: 282 bytes, 25 of type 1", with_units(1, 25, 10));
    judge("judge_packet: 542 bytes, 51 of type 1", with_units(1, 51, 10));
    judge("judge_packet: 1,052 bytes, 102 of type 1", with_units(1, 102, 10));
    judge("judge_packet: 1,044 bytes, 22 of type 2", with_units(2, 22, 46));
    judge("judge_packet: 31 bytes, a confirm with 1", of_confirm(1));
    judge("judge_packet: 542 bytes, a confirm with 512", of_confirm(512));
    judge("judge_packet: 1,054 bytes, a confirm with 1,024", of_confirm(1024));
    judge("judge_packet: sum of 30 bytes, refused by version", of_version_2(0));
    judge("judge_packet: sum of 286 bytes, refused by version", of_version_2(256));
    judge("judge_packet: sum of 542 bytes, refused by version", of_version_2(512));
    judge("judge_packet: sum of 1,054 bytes, refused by version", of_version_2(1024));
}

void bench_packets(void)
{
    section("Packets");
    bench_judge();
    read("read_packet: 30 bytes, a confirm", make_packet(packet, TRAWNOSZ_COMMAND_CONFIRM, 0));
    read("read_packet: 39 bytes, type 21", with_units(21, 1, 7));
    read("read_packet: 39 bytes, type 21, no time",
         of_no_time(TRAWNOSZ_COMMAND_SEND, without_time(packet + 27, make_unit(packet + 27, 21, 1, 7))));
    read("read_packet: 1,052 bytes, 102 of type 1", with_units(1, 102, 10));
    read("read_packet: 1,054 bytes, a confirm with 1,024", of_confirm(1024));
    place("find_unit: 39 bytes, type 21", with_units(21, 1, 7));
    place("find_unit: 1,052 bytes, 102 of type 1", with_units(1, 102, 10));
    place("find_unit: 1,054 bytes, a confirm with 1,024", of_confirm(1024));
    answer("answer_to: 30 bytes, a confirm, no reply", make_packet(packet, TRAWNOSZ_COMMAND_CONFIRM, 0));
    answer("answer_to: 1,054 bytes, a confirm with 1,024, no reply", of_confirm(1024));
    answer("answer_to: 39 bytes, type 21, confirmed", with_units(21, 1, 7));
    answer_with("answer_to: 39 bytes, type 21, confirmed with no time", with_units(21, 1, 7), no_time);
    answer("answer_to: 30 bytes of version 2, denied", of_version_2(0));
    answer("answer_to: 1,052 bytes, 102 of type 1, confirmed", with_units(1, 102, 10));
}
