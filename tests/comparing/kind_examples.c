/* The documents' own examples, with the answers that they state; those of request Q-1's labels stand in kind_label_examples.c,
 * those of request Q-2's confirms in kind_confirm_examples.c, those of request Q-4's sizes in kind_size_examples.c, those of
 * request Q-5's sums in kind_sum_examples.c, those of request Q-7's parts in kind_part_examples.c, those of exchanges in
 * kind_exchange_examples.c. */
#include "comparing.h"

#include <string.h>

const char example_a[] = "404005000100001E080F06180100000000000000000000000000035D2323";
const char example_b[] = "404006000100001E080F06180100000000000000000000000900021501010""01E080F0618D02323";
const char example_b_unit[] = "150101001E080F0618";

static uint8_t digit(char c)
{
    return (uint8_t)(c <= '9' ? c - '0' : c - 'A' + 10);
}

size_t from_hex(uint8_t *bytes, const char *hex)
{
    size_t size = strlen(hex) / 2;
    for (size_t i = 0; i < size; i++)
        bytes[i] = (uint8_t)(digit(hex[2 * i]) * 16 + digit(hex[2 * i + 1]));
    return size;
}

void expect(struct trial *t, bool holds)
{
    if (!holds)
        differ(t, "an example of the documents does not hold");
}

void expect_verdict(struct trial *t, struct ind_verdict verdict, enum ind_refusal refusal, size_t place)
{
    expect(t, verdict.refusal == refusal && verdict.place == place);
}

/* Example A under a command, with bytes for its unit and the L and the sum that it then must have. */
size_t with_unit(uint8_t *packet, uint8_t command, const uint8_t *unit, size_t size)
{
    from_hex(packet, example_a);
    packet[24] = (uint8_t)size;
    packet[25] = (uint8_t)(size >> 8);
    packet[26] = command;
    memcpy(packet + 27, unit, size);
    seal(packet, size);
    return 30 + size;
}

/* A table in which a send, or a request, of example A's serial is open for the centre that example A comes from. */
struct ind_book with_open(struct trial *t, uint8_t command)
{
    static const uint8_t first[6], second[6] = {1};
    struct ind_book book;
    uint8_t out[64] = {0};
    bool request = command == IND_COMMAND_REQUEST;
    struct ind_draft draft = {.label = {0, 30, 8, 15, 6, 24}, .command = command};
    draft.unit_size = from_hex(out + 27, request ? "3D010102" : example_b_unit);
    expect_verdict(t, both_exchanges_fresh(t, &book, 10, 1, first, second), IND_GOOD, 0);
    book.centre[1].next = 5;
    struct ind_begun begun = both_begin_and_write(t, &book, 1, out, sizeof out, &draft);
    expect(t, !begun.verdict.refusal && begun.place == 8 && begun.serial == 5);
    return book;
}

/* A packet with one byte changed, judged with the sum as it stands or made right again. */
static void changed(struct trial *t, const char *hex, size_t at, uint8_t to, bool sealed, enum ind_refusal refusal)
{
    uint8_t packet[64];
    size_t size = from_hex(packet, hex);
    packet[at] = to;
    if (sealed)
        seal(packet, size - 30);
    expect_verdict(t, both_judge_packet(t, packet, size), refusal, 0);
}

static void try_packet_examples(struct trial *t)
{
    changed(t, example_a, 27, 0x5D, false, IND_GOOD);
    changed(t, example_b, 36, 0xD0, false, IND_GOOD);
    changed(t, example_a, 27, 0x5E, false, IND_SUM);
    changed(t, example_a, 29, 0x24, false, IND_END);
    changed(t, example_a, 9, 31, true, IND_GOOD);
    changed(t, example_a, 9, 0, true, IND_TIME);
    changed(t, example_a, 9, 32, true, IND_TIME);
    changed(t, example_a, 4, 2, true, IND_VERSION);
    changed(t, example_a, 26, 2, true, IND_UNIT);
    changed(t, example_b, 26, 3, true, IND_GOOD);
    changed(t, example_b, 26, 6, true, IND_GOOD);
    changed(t, example_b, 26, 4, true, IND_TYPE);
    changed(t, example_a, 0, 0x41, false, IND_START);
    changed(t, example_a, 25, 8, false, IND_LENGTH);
    changed(t, example_a, 24, 1, false, IND_CUT);
}

static void try_unit_examples(struct trial *t)
{
    static const struct {
        const char *hex;
        enum ind_refusal refusal;
        size_t place;
    } units[] = {
        {"1880", IND_COUNT, 0}, {"187F", IND_SHORT, 0}, {"3D00", IND_COUNT, 0}, {"5A013C0000010100", IND_TIME, 1},
        {"1A", IND_UNIT, 0}, {"1A01", IND_SHORT, 0}, {"1A00", IND_COUNT, 0}, {"1A020000", IND_COUNT, 0},
        {"1A0100", IND_GOOD, 0}, {"1A010000", IND_LONG, 0}, {"1A010241", IND_SHORT, 0}, {"3D010102", IND_GOOD, 0},
    };
    for (size_t i = 0; i < sizeof units / sizeof units[0]; i++) {
        uint8_t unit[16];
        size_t size = from_hex(unit, units[i].hex);
        expect_verdict(t, both_judge_unit(t, unit, size), units[i].refusal, units[i].place);
    }
    const uint8_t empty_text[] = {26, 1, 0};
    struct ind_span object = both_object_place(t, empty_text, 3, 0);
    struct ind_span text = both_description_place(t, empty_text, 3, 0);
    expect(t, object.start == 2 && object.length == 1 && !text.verdict.refusal && text.length == 0);
}

/* A type 24 unit of 127 objects is good, one of 128 is COUNT. */
static void try_largest_n(struct trial *t)
{
    uint8_t unit[MADE_MOST];
    size_t size = make_unit(t, unit, made_type_of(24), 127);
    expect_verdict(t, both_judge_unit(t, unit, size), IND_GOOD, 0);
    size = make_unit(t, unit, made_type_of(24), 128);
    expect_verdict(t, both_judge_unit(t, unit, size), IND_COUNT, 0);
}

/* One call: held bytes and count before, a piece, and what must come of it. */
static void received(struct trial *t, struct ind_hold *hold, const char *piece, enum ind_event event, size_t carried,
                     size_t taken, size_t held, size_t count)
{
    uint8_t bytes[128], out[1054] = {0};
    size_t size = from_hex(bytes, piece);
    struct ind_received got = both_receive(t, hold, bytes, size, out, sizeof out);
    expect(t, got.event == event && got.carried == carried && got.taken == taken);
    expect(t, hold->held == held && hold->count == count);
}

static void try_receiver_examples(struct trial *t)
{
    static const char too_long[] = "404000000000000000000000000000000000000000000000""0104";
    char piece[128];
    struct ind_hold hold = {.held = 0};
    received(t, &hold, strcat(strcpy(piece, "0040"), example_a), IND_EVENT_END, 1, 31, 29, 0);
    received(t, &hold, "23", IND_PACKET, 0, 1, 0, 0);
    received(t, &hold, strcat(strcpy(piece, too_long), example_a), IND_EVENT_LENGTH, 0, 26, 25, 0);
    received(t, &hold, example_a, IND_PACKET, 25, 30, 0, 0);
    received(t, &hold, "40", IND_MORE, 0, 1, 1, 0);
    hold.count = 65534;
    received(t, &hold, "0040", IND_NOISE, 65535, 1, 1, 0);
    hold.count = 65534;
    received(t, &hold, "4040", IND_NOISE, 65535, 0, 0, 0);
    hold.count = 65534;
    received(t, &hold, "404140", IND_NOISE, 65535, 2, 1, 0);
    memset(&hold, 0, sizeof hold);
    hold.held = 1054;
    received(t, &hold, "40", IND_MORE, 0, 1, 1, 1054);
}

static void try_table_examples(struct trial *t)
{
    static const struct {
        const char *hex;
        enum ind_refusal refusal;
        size_t place;
    } tables[] = {
        {"", IND_CUT, 0}, {"020001020102", IND_ORDER, 1}, {"4100", IND_MANY, 0}, {"4000", IND_CUT, 0},
        {"00004106", IND_MANY, 0}, {"0000000000", IND_TAIL, 0}, {"00000000", IND_GOOD, 0},
        {"0100010201000202030000000000000000000000000000000000000000000000000000000000000000000000", IND_ORPHAN, 1},
        {"010001020100020203", IND_CUT, 0},
    };
    for (size_t i = 0; i < sizeof tables / sizeof tables[0]; i++) {
        uint8_t table[64];
        size_t size = from_hex(table, tables[i].hex);
        expect_verdict(t, both_judge_table(t, table, size).verdict, tables[i].refusal, tables[i].place);
    }
}

/* The reply to example B is a confirm of its serial, to example A none. */
static void try_reply_examples(struct trial *t)
{
    uint8_t packet[64], out[30] = {0};
    const uint8_t label[6] = {0, 30, 8, 15, 6, 24};
    const uint8_t bad[6] = {60, 0, 0, 1, 1, 0};
    size_t size = from_hex(packet, example_b);
    expect(t, both_answer_to(t, packet, size, label, out, 30).command == 3 && out[2] == 6 && out[26] == 3);
    expect_verdict(t, both_answer_to(t, packet, size, bad, out, 0).verdict, IND_TIME, 0);
    size = from_hex(packet, example_a);
    struct ind_reply reply = both_answer_to(t, packet, size, bad, out, 0);
    expect(t, !reply.verdict.refusal && reply.command == 0);
}

void try_examples(struct trial *t)
{
    try_packet_examples(t);
    try_unit_examples(t);
    try_largest_n(t);
    try_receiver_examples(t);
    try_label_examples(t);
    try_confirm_examples(t);
    try_size_examples(t);
    try_sum_examples(t);
    try_part_examples(t);
    try_exchange_examples(t);
    try_table_examples(t);
    try_reply_examples(t);
}
