/* Request Q-1's cases, with the answers that it states: "Six zeros are to mean "no time" in header and objects alike, read and
 * written." */
#include "comparing.h"

#include <string.h>

static const uint8_t no_time[6], nearest_time[6] = {0, 0, 0, 1, 1, 0};

/* A month, a year, a day and a second alone: "A day of 0 with any other byte above 0 stays TIME", and a month of 0 too. */
static const uint8_t bad[][6] = {{0, 0, 0, 0, 1, 0}, {0, 0, 0, 0, 0, 0x18}, {0, 0, 0, 1, 0, 0}, {1, 0, 0, 0, 0, 0}};

enum { BAD = sizeof bad / sizeof bad[0], HEADER = 6, OBJECT = 30 };

/* An example with a label in its header or in its object, under the sum that it then must have. */
static size_t with_label(uint8_t *packet, const char *example, size_t at, const uint8_t label[6])
{
    size_t size = from_hex(packet, example);
    memcpy(packet + at, label, 6);
    seal(packet, size - 30);
    return size;
}

/* Example A with a label in its header. */
static void in_header(struct trial *t, const uint8_t label[6], enum ind_refusal refusal, enum ind_shown shown)
{
    uint8_t packet[64];
    size_t size = with_label(packet, example_a, HEADER, label);
    expect_verdict(t, both_judge_packet(t, packet, size), refusal, 0);
    struct ind_packet fields = both_read_packet(t, packet, size);
    expect_verdict(t, fields.verdict, refusal, 0);
    expect(t, fields.shown == shown);
}

/* Example B with a label in its object; the packet's own stays a time. */
static void in_object(struct trial *t, const uint8_t label[6], enum ind_refusal refusal, enum ind_shown shown)
{
    uint8_t packet[64];
    size_t size = with_label(packet, example_b, OBJECT, label);
    size_t place = refusal ? 1 : 0;
    expect_verdict(t, both_judge_packet(t, packet, size), refusal, place);
    struct ind_packet fields = both_read_packet(t, packet, size);
    expect_verdict(t, fields.verdict, refusal, place);
    expect(t, fields.shown == (refusal ? IND_SHOWN_NOTHING : IND_SHOWN_TIME));
    struct ind_object object = both_read_object(t, packet + 27, size - 30, 0);
    expect_verdict(t, object.verdict, refusal, place);
    expect(t, object.shown == shown);
}

static void try_labels(struct trial *t)
{
    in_header(t, no_time, IND_GOOD, IND_SHOWN_NO_TIME);
    in_object(t, no_time, IND_GOOD, IND_SHOWN_NO_TIME);
    in_header(t, nearest_time, IND_GOOD, IND_SHOWN_TIME);
    in_object(t, nearest_time, IND_GOOD, IND_SHOWN_TIME);
    for (size_t i = 0; i < BAD; i++) {
        in_header(t, bad[i], IND_TIME, IND_SHOWN_NOTHING);
        in_object(t, bad[i], IND_TIME, IND_SHOWN_NOTHING);
    }
}

/* The label's bytes add up to 83: without them the sums 5D and D0 are 0A and 7D. */
static void try_sums(struct trial *t)
{
    uint8_t packet[64];
    with_label(packet, example_a, HEADER, no_time);
    packet[27] = 0x0A;
    expect_verdict(t, both_judge_packet(t, packet, 30), IND_GOOD, 0);
    with_label(packet, example_b, OBJECT, no_time);
    packet[36] = 0x7D;
    expect_verdict(t, both_judge_packet(t, packet, 39), IND_GOOD, 0);
}

/* Clocks too may have no time; a type without a label has none to show, also where six zeros stand in its object; a refused
 * reading shows nothing. The object of a number is read, and in a unit of two the other one's label decides with it. */
static void try_shown_objects(struct trial *t)
{
    static const struct {
        const char *hex;
        size_t number;
        enum ind_refusal refusal;
        size_t place;
        enum ind_shown shown;
    } objects[] = {
        {"08010102000000000000", 0, IND_GOOD, 0, IND_SHOWN_NO_TIME}, {"08010102000000010100", 0, IND_GOOD, 0, IND_SHOWN_TIME},
        {"1C01000000000000", 0, IND_GOOD, 0, IND_SHOWN_NO_TIME},     {"1C01000000010100", 0, IND_GOOD, 0, IND_SHOWN_TIME},
        {"5A01000000000000", 0, IND_GOOD, 0, IND_SHOWN_NO_TIME},     {"5A01000000010100", 0, IND_GOOD, 0, IND_SHOWN_TIME},
        {"08010102000000000100", 0, IND_TIME, 1, IND_SHOWN_NOTHING}, {"1C01000018000000", 0, IND_TIME, 1, IND_SHOWN_NOTHING},
        {"5A01010000000000", 0, IND_TIME, 1, IND_SHOWN_NOTHING},     {"5A010000000000", 0, IND_SHORT, 0, IND_SHOWN_NOTHING},
        {"19010203", 0, IND_GOOD, 0, IND_SHOWN_NO_LABEL},            {"19010203", 1, IND_NUMBER, 0, IND_SHOWN_NOTHING},
        {"3D010102", 0, IND_GOOD, 0, IND_SHOWN_NO_LABEL},            {"3E01000000000000", 0, IND_GOOD, 0, IND_SHOWN_NO_LABEL},
        {"1A0100", 0, IND_GOOD, 0, IND_SHOWN_NO_LABEL},              {"1A01", 0, IND_SHORT, 0, IND_SHOWN_NOTHING},
        {"18020102000000000000" "0304000000010100", 0, IND_GOOD, 0, IND_SHOWN_NO_TIME},
        {"18020102000000000000" "0304000000010100", 1, IND_GOOD, 0, IND_SHOWN_TIME},
        {"18020102000000000000" "0304000000000100", 0, IND_TIME, 2, IND_SHOWN_NOTHING},
        {"18020102000000000000" "0304000000010100", 2, IND_NUMBER, 0, IND_SHOWN_NOTHING},
    };
    for (size_t i = 0; i < sizeof objects / sizeof objects[0]; i++) {
        uint8_t unit[32];
        size_t size = from_hex(unit, objects[i].hex);
        struct ind_object object = both_read_object(t, unit, size, objects[i].number);
        expect_verdict(t, object.verdict, objects[i].refusal, objects[i].place);
        expect(t, object.shown == objects[i].shown);
    }
}

/* Example A is written from its fields without a time, over bytes that are not 0; bad labels then change nothing. */
static void try_written_packet(struct trial *t)
{
    uint8_t packet[64], out[30];
    size_t size = with_label(packet, example_a, HEADER, no_time);
    struct ind_packet fields = both_read_packet(t, packet, size);
    memset(out, 0xEE, sizeof out);
    expect_verdict(t, both_write_packet(t, out, sizeof out, &fields), IND_GOOD, 0);
    for (size_t i = 0; i < BAD; i++) {
        memcpy(fields.label, bad[i], 6);
        expect_verdict(t, both_write_packet(t, out, sizeof out, &fields), IND_TIME, 0);
    }
    expect(t, memcmp(out, packet, size) == 0);
}

/* Example B's object likewise. */
static void try_written_object(struct trial *t)
{
    uint8_t packet[64], unit[9] = {21, 1, 0xEE, 0xEE, 0xEE, 0xEE, 0xEE, 0xEE, 0xEE};
    with_label(packet, example_b, OBJECT, no_time);
    struct ind_object object = both_read_object(t, packet + 27, 9, 0);
    expect_verdict(t, both_write_object(t, unit, sizeof unit, 0, &object, NULL, 0), IND_GOOD, 0);
    for (size_t i = 0; i < BAD; i++) {
        memcpy(object.label, bad[i], 6);
        expect_verdict(t, both_write_object(t, unit, sizeof unit, 0, &object, NULL, 0), IND_TIME, 1);
    }
    expect(t, memcmp(unit, packet + 27, sizeof unit) == 0);
}

/* "we deny each report until it fails": a report without a time is confirmed, and denied as before where its label is bad. */
static void try_reports(struct trial *t)
{
    static const size_t places[] = {HEADER, OBJECT};
    uint8_t packet[64], out[30] = {0};
    for (size_t i = 0; i < 2; i++) {
        size_t size = with_label(packet, example_b, places[i], no_time);
        expect(t, both_answer_to(t, packet, size, nearest_time, out, sizeof out).command == IND_COMMAND_CONFIRM);
        size = with_label(packet, example_b, places[i], bad[0]);
        expect(t, both_answer_to(t, packet, size, nearest_time, out, sizeof out).command == IND_COMMAND_DENY);
    }
}

/* A reply that is made without a time carries six zeros, in bytes 7 to 12, and reads back as one without. */
static void try_reply(struct trial *t)
{
    uint8_t packet[64], out[30];
    size_t size = from_hex(packet, example_b);
    memset(out, 0xEE, sizeof out);
    struct ind_reply reply = both_answer_to(t, packet, size, no_time, out, sizeof out);
    expect(t, !reply.verdict.refusal && reply.command == IND_COMMAND_CONFIRM && memcmp(out + 6, no_time, 6) == 0);
    for (size_t i = 0; i < BAD; i++)
        expect_verdict(t, both_answer_to(t, packet, size, bad[i], out, sizeof out).verdict, IND_TIME, 0);
    struct ind_packet back = both_read_packet(t, out, sizeof out);
    expect(t, !back.verdict.refusal && back.serial == 6 && back.shown == IND_SHOWN_NO_TIME);
}

void try_label_examples(struct trial *t)
{
    try_labels(t);
    try_sums(t);
    try_shown_objects(t);
    try_written_packet(t);
    try_written_object(t);
    try_reports(t);
    try_reply(t);
}
