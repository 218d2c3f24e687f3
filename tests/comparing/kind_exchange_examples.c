/* The documents' examples and readings of exchanges, requests among them, with the answers that they
 * state. */
#include "comparing.h"

#include <string.h>

/* Example B goes from the second of these to the first. */
static const uint8_t first[6] = {0}, second[6] = {1}, neither[6] = {1, 0, 0, 0, 0, 1};

static void fresh(struct trial *t, struct ind_book *book, uint8_t timeout, uint8_t limit)
{
    expect_verdict(t, both_exchanges_fresh(t, book, timeout, limit, first, second), IND_GOOD, 0);
}

/* A begin with example B's label and source, of a unit that stands in an output of zeros. */
static struct ind_begun begin(struct trial *t, struct ind_book *book, uint8_t centre, uint8_t command, const char *unit,
                              size_t length, size_t room)
{
    uint8_t out[64] = {0};
    const struct ind_draft draft = {.label = {0, 30, 8, 15, 6, 24}, .source = {1}, .command = command, .unit_size = length};
    from_hex(out + 27, unit);
    return both_begin_and_write(t, book, centre, out, room, &draft);
}

static struct ind_begun start_send(struct trial *t, struct ind_book *book, uint8_t centre)
{
    return begin(t, book, centre, 2, example_b_unit, 9, 39);
}

static struct ind_begun start_request(struct trial *t, struct ind_book *book, uint8_t centre)
{
    return begin(t, book, centre, 4, "3D010102", 4, 34);
}

/* Examples 6, 7 and 8, and a next serial that is itself open. */
static void try_serials_and_ticks(struct trial *t)
{
    struct ind_book book;
    fresh(t, &book, 1, 0);
    start_send(t, &book, 0);
    expect(t, both_tick(t, &book).outcome[0] == IND_FAILED);
    fresh(t, &book, 1, 1);
    start_request(t, &book, 0);
    expect(t, both_tick(t, &book).outcome[0] == IND_RESENT);
    expect(t, both_tick(t, &book).outcome[0] == IND_FAILED);
    book.centre[0].next = 65535;
    expect(t, start_send(t, &book, 0).serial == 65535);
    expect(t, start_send(t, &book, 0).serial == 0);
    book.centre[0].next = 65535;
    expect(t, start_send(t, &book, 0).serial == 1 && book.centre[0].next == 2);
    expect_verdict(t, both_exchanges_fresh(t, &book, 11, 0, first, second), IND_SETTING, 0);
    expect_verdict(t, start_send(t, &book, 0).verdict, IND_STATE, 0);
}

/* A begin for the first centre that must be refused, the table being left as it was. */
static void refused(struct trial *t, struct ind_book *book, uint8_t command, const char *unit, size_t length, size_t room,
                    enum ind_refusal refusal)
{
    const struct ind_book before = *book;
    struct ind_begun begun = begin(t, book, 0, command, unit, length, room);
    expect_verdict(t, begun.verdict, refusal, 0);
    expect(t, begun.place == 0 && begun.serial == 0 && begun.packet_size == 0 && same_book(&before, book));
}

/* Begins that open nothing, and what a good one after them then opens. */
static void try_refused_begins(struct trial *t)
{
    struct ind_book book;
    fresh(t, &book, 1, 0);
    book.centre[0].next = 65535;
    refused(t, &book, 4, example_b_unit, 9, 39, IND_TYPE);
    expect(t, start_send(t, &book, 0).serial == 65535 && book.centre[0].next == 0);
    fresh(t, &book, 1, 0);
    refused(t, &book, 5, "010101020000001E080F0618", 12, 42, IND_COMMAND);
    refused(t, &book, 3, "", 0, 30, IND_COMMAND);
    refused(t, &book, 6, "", 0, 30, IND_COMMAND);
    refused(t, &book, 3, "FF", 1, 31, IND_COMMAND);
    refused(t, &book, 6, example_b_unit, 9, 39, IND_COMMAND);
    refused(t, &book, 5, example_b_unit, 9, 38, IND_ROOM);
    refused(t, &book, 5, example_b_unit, 1025, 0, IND_LENGTH);
    refused(t, &book, 2, example_b_unit, 9, 38, IND_ROOM);
    struct ind_begun begun = start_request(t, &book, 0);
    expect(t, !begun.verdict.refusal && begun.place == 0 && begun.serial == 0 && begun.packet_size == 34);
    expect(t, book.exchange[0].mode == IND_REQUEST && book.centre[0].next == 1);
    for (int i = 1; i < 8; i++)
        expect(t, start_send(t, &book, 0).place == (size_t)i && book.exchange[i].mode == IND_SEND);
    refused(t, &book, 2, example_b_unit, 2000, 0, IND_FULL);
    refused(t, &book, 9, "", 0, 0, IND_FULL);
    book.exchange[3].age = 1;
    refused(t, &book, 2, example_b_unit, 9, 39, IND_STATE);
    refused(t, &book, 9, "", 2000, 0, IND_STATE);
}

/* Begun under serial 6, example B has its own bytes, and those behind it stay; a control of type 90 opens a send. */
static void try_begun_bytes(struct trial *t)
{
    struct ind_book book;
    uint8_t out[64], expected[64];
    const struct ind_draft draft = {.label = {0, 30, 8, 15, 6, 24}, .source = {1}, .command = 2, .unit_size = 9};
    memset(out, 0xEE, sizeof out);
    memset(expected, 0xEE, sizeof expected);
    from_hex(out + 27, example_b_unit);
    from_hex(expected, example_b);
    fresh(t, &book, 1, 0);
    book.centre[0].next = 6;
    expect(t, both_begin_and_write(t, &book, 0, out, sizeof out, &draft).packet_size == 39);
    expect(t, memcmp(out, expected, sizeof out) == 0 && book.exchange[0].mode == IND_SEND && book.exchange[0].serial == 6);
    expect(t, begin(t, &book, 0, 1, "5A01001E080F0618", 8, 38).place == 1 && book.exchange[1].mode == IND_SEND);
}

/* Example B as an answer, refused and then good, to the last of seven requests; the first, of serial 0, stays as it is, and so
 * does the other centre's request of B's serial. */
static void try_taken_answers(struct trial *t)
{
    struct ind_book book;
    uint8_t packet[64];
    size_t size = from_hex(packet, example_b);
    fresh(t, &book, 10, 1);
    for (int i = 0; i < 14; i++)
        start_request(t, &book, i % 2);
    packet[26] = 5;
    packet[9] = 32;
    seal(packet, size - 30);
    struct ind_turn turn = both_take_packet(t, &book, packet, size);
    expect(t, turn.place == 14 && turn.outcome == IND_RESENT && book.exchange[14].resends == 1);
    expect(t, book.exchange[8].resends == 0 && book.exchange[6].resends == 0);
    packet[9] = 31;
    expect_verdict(t, both_take_packet(t, &book, packet, size).verdict, IND_SUM, 0);
    seal(packet, size - 30);
    turn = both_take_packet(t, &book, packet, size);
    expect(t, turn.place == 14 && turn.outcome == IND_ANSWERED && book.exchange[14].mode == IND_FREE);
    expect_verdict(t, both_take_packet(t, &book, packet, size).verdict, IND_STRAY, 0);
    expect(t, book.exchange[6].mode == IND_REQUEST && book.exchange[6].serial == 6);
}

/* "Six zeros are to mean "no time" in header and objects alike, read and written": a begin with them is good and writes them,
 * one that is nearly so is TIME and uses up nothing. */
static void try_begun_without_time(struct trial *t)
{
    struct ind_book book;
    uint8_t out[39];
    struct ind_draft draft = {.label = {0, 0, 0, 0, 1, 0}, .source = {1}, .command = 2, .unit_size = 9};
    memset(out, 0xEE, sizeof out);
    from_hex(out + 27, example_b_unit);
    memset(out + 30, 0, 6);
    fresh(t, &book, 1, 0);
    expect_verdict(t, both_begin_and_write(t, &book, 0, out, sizeof out, &draft).verdict, IND_TIME, 0);
    draft.label[4] = 0;
    struct ind_begun begun = both_begin_and_write(t, &book, 0, out, sizeof out, &draft);
    expect(t, !begun.verdict.refusal && begun.place == 0 && begun.serial == 0 && begun.packet_size == 39);
    expect(t, memcmp(out + 6, draft.label, 6) == 0);
    expect(t, both_read_packet(t, out, sizeof out).shown == IND_SHOWN_NO_TIME);
}

/* An answer without a time, in header and object, ends its request; one that is nearly so is a bad answer, and resent. */
static void try_taken_without_time(struct trial *t)
{
    struct ind_book book;
    uint8_t packet[64];
    size_t size = from_hex(packet, example_b);
    fresh(t, &book, 10, 1);
    start_request(t, &book, 1);
    packet[2] = 0;
    packet[26] = 5;
    memset(packet + 6, 0, 6);
    memset(packet + 30, 0, 6);
    packet[34] = 1;
    seal(packet, size - 30);
    struct ind_turn turn = both_take_packet(t, &book, packet, size);
    expect(t, turn.place == 8 && turn.outcome == IND_RESENT);
    packet[34] = 0;
    seal(packet, size - 30);
    turn = both_take_packet(t, &book, packet, size);
    expect(t, turn.place == 8 && turn.outcome == IND_ANSWERED && book.exchange[8].mode == IND_FREE);
}

/* "Places 0 to 7 are the first centre's, 8 to 15 the second's; each centre has an address and a next serial of its own". */
static void try_two_centres(struct trial *t)
{
    struct ind_book book;
    uint8_t out[39];
    const struct ind_draft draft = {.label = {0, 30, 8, 15, 6, 24}, .source = {9}, .command = 2, .unit_size = 9};
    memset(out, 0xEE, sizeof out);
    from_hex(out + 27, example_b_unit);
    fresh(t, &book, 1, 0);
    for (int i = 0; i < 8; i++)
        expect(t, start_send(t, &book, 0).place == (size_t)i);
    struct ind_begun begun = both_begin_and_write(t, &book, 1, out, sizeof out, &draft);
    expect(t, !begun.verdict.refusal && begun.place == 8 && begun.serial == 0 && memcmp(out + 18, second, 6) == 0);
    expect(t, book.centre[0].next == 8 && book.centre[1].next == 1);
    refused(t, &book, 2, example_b_unit, 9, 39, IND_FULL);
    for (int i = 1; i < 8; i++)
        expect(t, start_request(t, &book, 1).place == (size_t)(8 + i));
    expect_verdict(t, start_request(t, &book, 1).verdict, IND_FULL, 0);
    expect_verdict(t, both_reply(t, &book, IND_CONFIRM_CAME, first, 3).verdict, IND_GOOD, 0);
    begun = start_send(t, &book, 0);
    expect(t, begun.place == 3 && begun.serial == 8);
    expect_verdict(t, start_send(t, &book, 1).verdict, IND_FULL, 0);
}

/* "30 CENTRE, after STATE, for a centre other than the two": before FULL and the packet writer's refusals. */
static void try_no_centre(struct trial *t)
{
    struct ind_book book;
    fresh(t, &book, 1, 0);
    for (int i = 0; i < 16; i++)
        start_send(t, &book, i % 2);
    expect_verdict(t, start_send(t, &book, 2).verdict, IND_CENTRE, 0);
    expect_verdict(t, start_send(t, &book, 255).verdict, IND_CENTRE, 0);
    expect_verdict(t, begin(t, &book, 2, 9, "", 2000, 0).verdict, IND_CENTRE, 0);
    book.exchange[15].age = 1;
    expect_verdict(t, start_send(t, &book, 2).verdict, IND_STATE, 0);
    expect_verdict(t, start_send(t, &book, 0).verdict, IND_STATE, 0);
}

/* "a reply fits only when its source address is that centre's", though both have the serial open. */
static void try_reply_sources(struct trial *t)
{
    struct ind_book book;
    uint8_t packet[30];
    size_t size = from_hex(packet, example_a);
    fresh(t, &book, 1, 0);
    for (int i = 0; i < 12; i++)
        start_send(t, &book, i % 2);
    expect_verdict(t, both_reply(t, &book, IND_CONFIRM_CAME, neither, 0).verdict, IND_STRAY, 0);
    expect(t, both_reply(t, &book, IND_CONFIRM_CAME, second, 0).place == 8 && book.exchange[8].mode == IND_FREE);
    expect(t, book.exchange[0].mode == IND_SEND && book.exchange[0].serial == 0);
    expect_verdict(t, both_reply(t, &book, IND_CONFIRM_CAME, second, 0).verdict, IND_STRAY, 0);
    expect(t, both_reply(t, &book, IND_DENY_CAME, first, 0).outcome == IND_FAILED && book.exchange[0].mode == IND_FREE);
    struct ind_turn turn = both_take_packet(t, &book, packet, size);
    expect(t, turn.place == 13 && turn.outcome == IND_CONFIRMED && book.exchange[5].mode == IND_SEND);
    memcpy(packet + 12, neither, 6);
    seal(packet, 0);
    expect_verdict(t, both_take_packet(t, &book, packet, size).verdict, IND_STRAY, 0);
}

/* Every call on a table is STATE. */
static void unsound(struct trial *t, const struct ind_book *book)
{
    struct ind_book copy;
    uint8_t packet[30];
    size_t size = from_hex(packet, example_a);
    for (unsigned centre = 0; centre < 3; centre++)
        expect_verdict(t, start_send(t, (copy = *book, &copy), (uint8_t)centre).verdict, IND_STATE, 0);
    expect_verdict(t, both_reply(t, (copy = *book, &copy), IND_DENY_CAME, neither, 0).verdict, IND_STATE, 0);
    expect_verdict(t, both_take_packet(t, (copy = *book, &copy), packet, size).verdict, IND_STATE, 0);
    expect_verdict(t, both_tick(t, (copy = *book, &copy)).verdict, IND_STATE, 0);
}

/* "STATE for one serial twice within one centre, or equal centre addresses; SETTING for these at the making". */
static void try_unsound_centres(struct trial *t)
{
    static const struct ind_book zeros;
    struct ind_book book, copy;
    fresh(t, &book, 2, 0);
    start_send(t, &book, 0);
    start_request(t, &book, 1);
    expect_verdict(t, both_tick(t, &book).verdict, IND_GOOD, 0);
    book.exchange[11] = book.exchange[8];
    unsound(t, &book);
    memset(&book.exchange[8], 0, sizeof book.exchange[8]);
    expect_verdict(t, both_tick(t, (copy = book, &copy)).verdict, IND_GOOD, 0);
    memcpy(book.centre[1].address, first, 6);
    unsound(t, &book);
    expect_verdict(t, both_exchanges_fresh(t, &book, 1, 0, second, second), IND_SETTING, 0);
    expect(t, same_book(&book, &zeros));
    unsound(t, &book);
}

void try_exchange_examples(struct trial *t)
{
    try_serials_and_ticks(t);
    try_refused_begins(t);
    try_begun_bytes(t);
    try_taken_answers(t);
    try_begun_without_time(t);
    try_taken_without_time(t);
    try_two_centres(t);
    try_no_centre(t);
    try_reply_sources(t);
    try_unsound_centres(t);
}
