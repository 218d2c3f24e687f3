/* Request Q-2's cases, with the answers that it states: "For 3 and 6 a unit of 0 to 1,024 bytes is accepted, kept as bytes and
 * not judged as a unit, and the writer can send one. Our own replies stay empty." */
#include "comparing.h"

#include <string.h>

/* Example A with one byte in its confirm, which with the 1 of L adds 256 to the sum. */
static const char example_a_with_ff[] = "404005000100001E080F061801000000000000000000000001""0003FF5D2323";

static const uint8_t carriers[] = {IND_COMMAND_CONFIRM, IND_COMMAND_DENY};
static const uint8_t others[] = {IND_COMMAND_CONTROL, IND_COMMAND_SEND, IND_COMMAND_REQUEST, IND_COMMAND_ANSWER};
static const uint8_t label[6] = {0, 30, 8, 15, 6, 24}, bad_label[6] = {60, 0, 0, 1, 1, 0};

/* "a reply that is not due needs neither" a label nor room. */
static void expect_no_reply(struct trial *t, const uint8_t *packet, size_t size)
{
    uint8_t out[40] = {0};
    struct ind_reply reply = both_answer_to(t, packet, size, bad_label, out, 0);
    expect(t, !reply.verdict.refusal && reply.command == 0);
    reply = both_answer_to(t, packet, size, label, out, sizeof out);
    expect(t, !reply.verdict.refusal && reply.command == 0);
}

/* Read, and then written over other bytes from what was read: the bytes that it carries come back, and so does the packet. */
static void read_and_write(struct trial *t, const uint8_t *packet, size_t size)
{
    uint8_t out[1060];
    struct ind_packet fields = both_read_packet(t, packet, size);
    struct ind_span carried = both_unit_place(t, packet, size);
    expect(t, !fields.verdict.refusal && fields.serial == 5 && fields.command == packet[26] && fields.unit_size == size - 30);
    expect(t, !carried.verdict.refusal && carried.start == 27 && carried.length == size - 30);
    memset(out, 0xEE, sizeof out);
    memcpy(out + 27, packet + carried.start, carried.length);
    expect_verdict(t, both_write_packet(t, out, size - 1, &fields), IND_ROOM, 0);
    expect_verdict(t, both_write_packet(t, out, sizeof out, &fields), IND_GOOD, 0);
    expect(t, memcmp(out, packet, size) == 0 && out[size] == 0xEE);
}

/* A confirm or a deny that carries something, received, judged, read, written and not replied to. */
static void accepted(struct trial *t, uint8_t command, const uint8_t *unit, size_t size)
{
    static const struct ind_hold fresh;
    struct ind_hold hold = fresh;
    uint8_t packet[1054], out[1054] = {0};
    size_t all = with_unit(packet, command, unit, size);
    struct ind_received received = both_receive(t, &hold, packet, all, out, sizeof out);
    expect(t, received.event == IND_PACKET && received.packet_size == all && received.taken == all && received.carried == 0);
    expect_verdict(t, both_judge_packet(t, packet, all), IND_GOOD, 0);
    expect_verdict(t, both_judge_unit_under(t, unit, size, command), IND_GOOD, 0);
    read_and_write(t, packet, all);
    expect_no_reply(t, packet, all);
}

/* "example A with L 1 and unit FF, sum 5D: good; no reply is due." */
static void try_one_byte(struct trial *t)
{
    uint8_t packet[64], same[64];
    const uint8_t ff = 0xFF;
    size_t size = from_hex(packet, example_a_with_ff);
    expect(t, with_unit(same, IND_COMMAND_CONFIRM, &ff, 1) == size && memcmp(packet, same, size) == 0);
    expect_verdict(t, both_judge_packet(t, packet, size), IND_GOOD, 0);
    expect_no_reply(t, packet, size);
    packet[28] = 0x5E;
    expect_verdict(t, both_judge_packet(t, packet, size), IND_SUM, 0);
    expect_verdict(t, both_answer_to(t, packet, size, label, same, sizeof same).verdict, IND_SUM, 0);
}

/* "Command 6 with L 1,024 of any bytes: good, and the writer writes it": of the fewest and the most, of any and of such as a
 * packet begins or ends with. */
static void try_sizes(struct trial *t)
{
    static const size_t sizes[] = {0, 1, 2, 1023, 1024};
    static const uint8_t filled[] = {0, 0xFF, '@', '#'};
    uint8_t unit[1024];
    for (size_t i = 0; i < 5 * 4; i++) {
        memset(unit, filled[i / 5], sizeof unit);
        accepted(t, carriers[0], unit, sizes[i % 5]);
        accepted(t, carriers[1], unit, sizes[i % 5]);
    }
    fill(t, unit, sizeof unit);
    accepted(t, carriers[0], unit, sizeof unit);
    accepted(t, carriers[1], unit, sizeof unit);
}

/* Bytes that are a good unit, a bad one or none are carried alike; alone they are judged and read by their own rules. */
static void try_units_carried(struct trial *t)
{
    static const struct {
        const char *hex;
        enum ind_refusal alone;
        size_t place;
    } units[] = {
        {"", IND_UNIT, 0},         {"FF", IND_UNIT, 0},       {"15", IND_UNIT, 0},         {"FFFF", IND_TYPE, 0},
        {"4040", IND_TYPE, 0},     {"2323", IND_TYPE, 0},     {"1501", IND_SHORT, 0},      {"1C00", IND_COUNT, 0},
        {"1A01", IND_SHORT, 0},    {"1A0100", IND_GOOD, 0},   {"1A01024142", IND_GOOD, 0}, {example_b_unit, IND_GOOD, 0},
        {"3D010102", IND_GOOD, 0}, {example_a, IND_TYPE, 0},  {"5A01001E080F0618", IND_GOOD, 0},
        {"5A013C0000010100", IND_TIME, 1},
    };
    for (size_t i = 0; i < sizeof units / sizeof units[0]; i++) {
        uint8_t unit[32];
        size_t size = from_hex(unit, units[i].hex);
        accepted(t, carriers[0], unit, size);
        accepted(t, carriers[1], unit, size);
        expect_verdict(t, both_judge_unit(t, unit, size), units[i].alone, units[i].place);
        expect_verdict(t, both_read_object(t, unit, size, 0).verdict, units[i].alone, units[i].place);
        expect_verdict(t, both_object_place(t, unit, size, 0).verdict, units[i].alone, units[i].place);
    }
}

/* "Command 3 with L 1,025: LENGTH": to a judge of the packet, to the writer, before ROOM, and to whoever asks for a reply. */
static void too_long(struct trial *t, uint8_t command, const uint8_t *unit)
{
    uint8_t packet[1060], out[1060] = {0};
    struct ind_packet fields = {.label = {0, 30, 8, 15, 6, 24}, .command = command, .unit_size = 1025};
    size_t size = with_unit(packet, command, unit, 1025);
    expect_verdict(t, both_judge_packet(t, packet, size), IND_LENGTH, 0);
    expect_verdict(t, both_unit_place(t, packet, size).verdict, IND_LENGTH, 0);
    expect_verdict(t, both_answer_to(t, packet, size, label, out, sizeof out).verdict, IND_LENGTH, 0);
    expect_verdict(t, both_write_packet(t, out, sizeof out, &fields), IND_LENGTH, 0);
    expect_verdict(t, both_write_packet(t, out, 0, &fields), IND_LENGTH, 0);
}

/* Under 3 and 6 the judge of a unit has COMMAND and then LENGTH, over 1,024; under others nothing is too long for it. */
static void try_longest(struct trial *t)
{
    static const uint8_t no_commands[] = {0, 7, 255};
    static uint8_t unit[65537];
    memset(unit, 0xFF, sizeof unit);
    for (size_t i = 0; i < 2; i++) {
        expect_verdict(t, both_judge_unit_under(t, unit, 1024, carriers[i]), IND_GOOD, 0);
        expect_verdict(t, both_judge_unit_under(t, unit, 1025, carriers[i]), IND_LENGTH, 0);
        expect_verdict(t, both_judge_unit_under(t, unit, 65537, carriers[i]), IND_LENGTH, 0);
        too_long(t, carriers[i], unit);
    }
    for (size_t i = 0; i < 3; i++) {
        expect_verdict(t, both_judge_unit_under(t, unit, 1024, no_commands[i]), IND_COMMAND, 0);
        expect_verdict(t, both_judge_unit_under(t, unit, 1025, no_commands[i]), IND_COMMAND, 0);
    }
    for (size_t i = 0; i < sizeof others; i++)
        expect_verdict(t, both_judge_unit_under(t, unit, 1025, others[i]), IND_TYPE, 0);
    unit[0] = IND_TRANSMITTER_OPERATION;
    unit[1] = 127;
    expect_verdict(t, both_judge_unit_under(t, unit, 1025, IND_COMMAND_SEND), IND_LONG, 0);
    expect_verdict(t, both_judge_unit(t, unit, 1025), IND_LONG, 0);
    expect_verdict(t, both_judge_unit_under(t, unit, 1025, IND_COMMAND_DENY), IND_LENGTH, 0);
}

/* "UNIT stays for a unit under 2 bytes, under 1, 2, 4, 5 or alone": read, written and denied, but for an answer, as before,
 * and behind TIME of the header. */
static void try_short_units(struct trial *t)
{
    const uint8_t ff = 0xFF;
    for (size_t i = 0; i < 2 * sizeof others; i++) {
        uint8_t packet[64], out[40] = {0}, command = others[i / 2];
        size_t size = with_unit(packet, command, &ff, i % 2);
        struct ind_packet fields = {.label = {0, 30, 8, 15, 6, 24}, .command = command, .unit_size = i % 2};
        expect_verdict(t, both_judge_packet(t, packet, size), IND_UNIT, 0);
        expect_verdict(t, both_judge_unit_under(t, &ff, i % 2, command), IND_UNIT, 0);
        expect_verdict(t, both_judge_unit(t, &ff, i % 2), IND_UNIT, 0);
        expect_verdict(t, both_write_packet(t, packet, size, &fields), IND_UNIT, 0);
        uint8_t due = command == IND_COMMAND_ANSWER ? 0 : IND_COMMAND_DENY;
        expect(t, both_answer_to(t, packet, size, label, out, sizeof out).command == due && out[24] == 0 && out[25] == 0);
        memcpy(packet + 6, bad_label, 6);
        seal(packet, i % 2);
        expect_verdict(t, both_judge_packet(t, packet, size), IND_TIME, 0);
    }
}

/* "Command 6, version 2, with a unit: VERSION, no reply", nor to one whose header's label is bad; what is refused before
 * VERSION comes back as it is. */
static void try_refused(struct trial *t)
{
    for (size_t i = 0; i < 2; i++) {
        uint8_t packet[64], unit[9], out[40] = {0};
        size_t size = with_unit(packet, carriers[i], unit, from_hex(unit, example_b_unit));
        packet[4] = 2;
        seal(packet, size - 30);
        expect_verdict(t, both_judge_packet(t, packet, size), IND_VERSION, 0);
        expect_no_reply(t, packet, size);
        packet[4] = 1;
        memcpy(packet + 6, bad_label, 6);
        seal(packet, size - 30);
        expect_verdict(t, both_judge_packet(t, packet, size), IND_TIME, 0);
        expect_verdict(t, both_unit_place(t, packet, size).verdict, IND_TIME, 0);
        expect_no_reply(t, packet, size);
        packet[size - 1]++;
        expect_verdict(t, both_answer_to(t, packet, size, bad_label, out, 0).verdict, IND_END, 0);
        expect_verdict(t, both_answer_to(t, packet, size - 1, label, out, sizeof out).verdict, IND_CUT, 0);
    }
}

/* "Our own replies stay empty": the one to example B has 30 bytes and an L of 0, and nothing is written behind it. */
static void try_own_reply(struct trial *t)
{
    uint8_t packet[64], out[40];
    size_t size = from_hex(packet, example_b);
    memset(out, 0xEE, sizeof out);
    expect(t, both_answer_to(t, packet, size, label, out, sizeof out).command == IND_COMMAND_CONFIRM);
    expect(t, out[24] == 0 && out[25] == 0 && out[29] == '#' && out[30] == 0xEE);
    struct ind_packet reply = both_read_packet(t, out, IND_FRAME_BYTES);
    expect(t, !reply.verdict.refusal && reply.serial == 6 && reply.unit_size == 0);
}

/* A packet is taken with what it carries and, of the same command, as an empty one: to the table both are the same. It stays,
 * since a difference may be told after the call. */
static struct ind_turn taken(struct trial *t, struct ind_book *book, uint8_t command, const char *hex)
{
    static uint8_t packet[64];
    struct ind_book copy = *book;
    uint8_t unit[32];
    size_t size = with_unit(packet, command, unit, from_hex(unit, hex));
    struct ind_turn turn = both_take_packet(t, book, packet, size);
    size = with_unit(packet, command, unit, 0);
    struct ind_turn empty = both_take_packet(t, &copy, packet, size);
    expect_verdict(t, turn.verdict, empty.verdict.refusal, empty.verdict.place);
    expect(t, turn.place == empty.place && turn.outcome == empty.outcome && same_book(book, &copy));
    return turn;
}

/* A confirm that carries something ends a send, and a deny resends it; neither is more to a request than an empty one. */
static void try_taken(struct trial *t)
{
    static const char *const carried[] = {"FF", "4040", "2323", "1501", example_b_unit};
    for (size_t i = 0; i < sizeof carried / sizeof carried[0]; i++) {
        struct ind_book book = with_open(t, IND_COMMAND_SEND);
        struct ind_turn turn = taken(t, &book, IND_COMMAND_DENY, carried[i]);
        expect(t, turn.place == 8 && turn.outcome == IND_RESENT && book.exchange[8].resends == 1);
        turn = taken(t, &book, IND_COMMAND_CONFIRM, carried[i]);
        expect(t, turn.place == 8 && turn.outcome == IND_CONFIRMED && book.exchange[8].mode == IND_FREE);
        expect_verdict(t, taken(t, &book, IND_COMMAND_CONFIRM, carried[i]).verdict, IND_STRAY, 0);
        book = with_open(t, IND_COMMAND_REQUEST);
        expect_verdict(t, taken(t, &book, IND_COMMAND_CONFIRM, carried[i]).verdict, IND_STRAY, 0);
        expect(t, taken(t, &book, IND_COMMAND_DENY, carried[i]).outcome == IND_RESENT);
        expect(t, taken(t, &book, IND_COMMAND_DENY, carried[i]).outcome == IND_FAILED);
    }
}

/* One that is refused at VERSION is told as its refusal, and the table stays as it was. */
static void try_taken_refused(struct trial *t)
{
    const struct ind_book before = with_open(t, IND_COMMAND_SEND);
    for (size_t i = 0; i < 2; i++) {
        struct ind_book book = before;
        uint8_t packet[64];
        size_t size = with_unit(packet, carriers[i], (const uint8_t *)"@#", 2);
        packet[4] = 2;
        seal(packet, 2);
        struct ind_turn turn = both_take_packet(t, &book, packet, size);
        expect_verdict(t, turn.verdict, IND_VERSION, 0);
        expect(t, turn.outcome == IND_NOTHING && same_book(&book, &before));
    }
}

void try_confirm_examples(struct trial *t)
{
    try_one_byte(t);
    try_sizes(t);
    try_units_carried(t);
    try_longest(t);
    try_short_units(t);
    try_refused(t);
    try_own_reply(t);
    try_taken(t);
    try_taken_refused(t);
}
