/* Request Q-4's cases, with the answers that it states: "14 SHORT where the unit ends before its last object does, 28 LONG
 * where bytes follow it. SHORT's place is the first object not whole, from 0; LONG's is 0. Both stand where SIZE stood. A
 * type 26 unit without its K is SHORT at object 0." */
#include "comparing.h"

#include <string.h>

static const uint8_t label[6] = {0, 30, 8, 15, 6, 24}, bad_label[6] = {60, 0, 0, 1, 1, 0};

/* A unit by its first bytes, behind which zeros stand up to its size, so that other labels are no time; and its verdict. */
struct example {
    const char *hex;
    size_t size;
    enum ind_refusal refusal;
    size_t place;
};

/* Units that every call refuses alike; the last ones have a bad label too, which would be told later. */
static const struct example refused[] = {
    {"0103", 2 + 15, IND_SHORT, 1}, {"0103", 2 + 20, IND_SHORT, 2}, {"0103", 2 + 31, IND_LONG, 0},
    {"0103", 2, IND_SHORT, 0},      {"0103", 2 + 9, IND_SHORT, 0},  {"0103", 2 + 10, IND_SHORT, 1},
    {"0103", 2 + 29, IND_SHORT, 2}, {"0103", 2 + 40, IND_LONG, 0},  {"0202", 2 + 91, IND_SHORT, 1},
    {"0202", 2 + 93, IND_LONG, 0},  {"1A01", 2, IND_SHORT, 0},      {"1A010500", 4, IND_SHORT, 0},
    {"1A0105", 7, IND_SHORT, 0},    {"1A010000", 4, IND_LONG, 0},   {"1A0105", 9, IND_LONG, 0},
    {"1C01", 2, IND_SHORT, 0},      {"1C01", 9, IND_LONG, 0},       {"3E02", 2 + 7, IND_SHORT, 1},
    {"3E02", 2 + 13, IND_LONG, 0},  {"5A01", 7, IND_SHORT, 0},      {"5A01", 9, IND_LONG, 0},
    {"187F", 2, IND_SHORT, 0},      {"1880", 2, IND_COUNT, 0},      {"3D00", 2, IND_COUNT, 0},
    {"3D00", 4, IND_COUNT, 0},      {"1C02", 9, IND_COUNT, 0},      {"18020102000000000100", 2 + 8, IND_SHORT, 1},
    {"18020102000000000100", 2 + 15, IND_SHORT, 1},                 {"18010102000000000100", 2 + 9, IND_LONG, 0},
    {"5A01000000000100", 9, IND_LONG, 0},
};

/* What the same bytes are where nothing is missing and nothing follows. */
static const struct example whole[] = {
    {"0103", 2 + 30, IND_GOOD, 0},  {"0202", 2 + 92, IND_GOOD, 0}, {"1A01", 3, IND_GOOD, 0},
    {"1A0105", 8, IND_GOOD, 0},     {"1C01", 8, IND_GOOD, 0},      {"3E02", 2 + 12, IND_GOOD, 0},
    {"187F", 2 + 1016, IND_GOOD, 0}, {"18020102000000000100", 2 + 16, IND_TIME, 1},
    {"5A01000000000100", 8, IND_TIME, 1},
};

enum { LONGEST = 128 };

static void expect_same(struct trial *t, struct ind_verdict verdict, const struct example *example)
{
    expect_verdict(t, verdict, example->refusal, example->place);
}

/* "Unit alone": whatever object is asked for, NUMBER stands behind. */
static void try_alone(struct trial *t, const struct example *example, const uint8_t *unit)
{
    static const size_t numbers[] = {0, 1, 2, 255, SIZE_MAX};
    expect_same(t, both_judge_unit(t, unit, example->size), example);
    for (size_t i = 0; i < 5; i++) {
        expect_same(t, both_object_place(t, unit, example->size, numbers[i]).verdict, example);
        expect_same(t, both_read_object(t, unit, example->size, numbers[i]).verdict, example);
        expect_same(t, both_description_place(t, unit, example->size, numbers[i]).verdict, example);
    }
}

/* "Object writer": NUMBER, KIND, TEXT and TIME of the new label stand behind, each by its bit alone and with the others, and
 * nothing is written. */
static void try_object_writing(struct trial *t, const struct example *example, const uint8_t *unit)
{
    static const uint8_t text[31];
    size_t size = example->size, due = unit[0] == 2 || unit[0] == 7 ? 31 : 0;
    for (unsigned wrong = 0; wrong < 16; wrong++) {
        uint8_t out[27 + LONGEST] = {0};
        struct ind_object object = {.kind = wrong & 2 ? 255 : unit[0]};
        size_t number = wrong & 1 ? 255 : 0, text_size = wrong & 4 ? 30 : due;
        memcpy(object.label, wrong & 8 ? bad_label : label, 6);
        memcpy(out + 27, unit, size);
        expect_same(t, both_write_object(t, out + 27, size, number, &object, text, text_size), example);
        expect_same(t, both_write_packet_object(t, out, 27 + size, size, number, &object, text, text_size), example);
        expect(t, memcmp(out + 27, unit, size) == 0);
    }
}

/* In a packet, read and written, behind TIME of the header; it is denied but for an answer, LONG too, since "VERSION or
 * later" is said of the order and not of the numbers. */
static void try_inside(struct trial *t, const struct example *example, const uint8_t *unit, uint8_t command)
{
    uint8_t packet[30 + LONGEST], out[30] = {0};
    size_t size = with_unit(packet, command, unit, example->size);
    struct ind_packet fields = {.label = {0, 30, 8, 15, 6, 24}, .command = command, .unit_size = example->size};
    expect_same(t, both_judge_unit_under(t, unit, example->size, command), example);
    expect_same(t, both_judge_packet(t, packet, size), example);
    expect_same(t, both_read_packet(t, packet, size).verdict, example);
    expect_same(t, both_unit_place(t, packet, size).verdict, example);
    expect_same(t, both_write_packet(t, packet, size, &fields), example);
    struct ind_reply reply = both_answer_to(t, packet, size, label, out, sizeof out);
    expect(t, !reply.verdict.refusal && reply.command == (command == IND_COMMAND_ANSWER ? 0 : IND_COMMAND_DENY));
    memcpy(packet + 6, bad_label, 6);
    seal(packet, example->size);
    expect_verdict(t, both_judge_packet(t, packet, size), IND_TIME, 0);
}

/* Begun, it is refused as the packet writer refuses it, and opens and writes nothing; an answer begins nothing. */
static void try_begun(struct trial *t, const struct example *example, const uint8_t *unit, uint8_t command)
{
    struct ind_book book = with_open(t, IND_COMMAND_SEND);
    const struct ind_book before = book;
    uint8_t out[30 + LONGEST], kept[30 + LONGEST];
    const struct ind_draft draft = {.label = {0, 30, 8, 15, 6, 24}, .command = command, .unit_size = example->size};
    memset(out, 0xEE, sizeof out);
    memcpy(out + 27, unit, example->size);
    memcpy(kept, out, sizeof kept);
    struct ind_begun begun = both_begin_and_write(t, &book, 1, out, sizeof out, &draft);
    if (command == IND_COMMAND_ANSWER)
        expect_verdict(t, begun.verdict, IND_COMMAND, 0);
    else
        expect_same(t, begun.verdict, example);
    expect(t, begun.place == 0 && begun.serial == 0 && begun.packet_size == 0);
    expect(t, same_book(&book, &before) && memcmp(out, kept, sizeof kept) == 0);
}

/* Taken, it is "a bad answer (command 5, refused at VERSION or later)", which resends its request and then fails it; under
 * other commands it is told as its refusal and the table stays. */
static void try_taken(struct trial *t, const struct example *example, const uint8_t *unit, uint8_t command)
{
    struct ind_book book = with_open(t, IND_COMMAND_REQUEST);
    const struct ind_book before = book;
    uint8_t packet[30 + LONGEST];
    size_t size = with_unit(packet, command, unit, example->size);
    struct ind_turn turn = both_take_packet(t, &book, packet, size);
    if (command != IND_COMMAND_ANSWER) {
        expect_same(t, turn.verdict, example);
        expect(t, turn.outcome == IND_NOTHING && same_book(&book, &before));
        return;
    }
    expect(t, !turn.verdict.refusal && turn.place == 8 && turn.outcome == IND_RESENT && book.exchange[8].resends == 1);
    turn = both_take_packet(t, &book, packet, size);
    expect(t, turn.place == 8 && turn.outcome == IND_FAILED && book.exchange[8].mode == IND_FREE);
    expect_verdict(t, both_take_packet(t, &book, packet, size).verdict, IND_STRAY, 0);
}

/* Under a command that does not carry it, it is TYPE, which comes before; a confirm and a deny carry it as bytes. */
static void try_not_carried(struct trial *t, const struct example *example, const uint8_t *unit, uint8_t command)
{
    uint8_t packet[30 + LONGEST];
    bool bytes = command == IND_COMMAND_CONFIRM || command == IND_COMMAND_DENY;
    size_t size = with_unit(packet, command, unit, example->size);
    expect_verdict(t, both_judge_unit_under(t, unit, example->size, command), bytes ? IND_GOOD : IND_TYPE, 0);
    expect_verdict(t, both_judge_packet(t, packet, size), bytes ? IND_GOOD : IND_TYPE, 0);
}

/* "Commands 2 and 5 carry types 1 to 28 of this table, command 4 carries 61 and 62, command 1 carries 90." */
static bool carries(uint8_t command, uint8_t type)
{
    uint8_t carried_by = made_type_of(type)->command;
    return command == carried_by || (command == IND_COMMAND_ANSWER && carried_by == IND_COMMAND_SEND);
}

static void try_refused(struct trial *t, const struct example *example)
{
    uint8_t unit[LONGEST] = {0};
    from_hex(unit, example->hex);
    try_alone(t, example, unit);
    try_object_writing(t, example, unit);
    for (uint8_t command = IND_COMMAND_CONTROL; command <= IND_COMMAND_DENY; command++) {
        if (!carries(command, unit[0])) {
            try_not_carried(t, example, unit, command);
            continue;
        }
        try_inside(t, example, unit, command);
        try_begun(t, example, unit, command);
        try_taken(t, example, unit, command);
    }
}

static void try_whole(struct trial *t, const struct example *example)
{
    uint8_t unit[MADE_MOST] = {0};
    from_hex(unit, example->hex);
    expect_same(t, both_judge_unit(t, unit, example->size), example);
}

/* A type at its largest n, cut at every place behind its second byte, and whole. */
static void try_every_cut(struct trial *t, const struct made_type *type)
{
    uint8_t unit[MADE_MOST];
    size_t size = make_unit(t, unit, type, type->most);
    for (size_t cut = 2; cut < size; cut++)
        expect_verdict(t, both_judge_unit(t, unit, cut), IND_SHORT, first_not_whole(unit, cut));
    expect_verdict(t, both_judge_unit(t, unit, size), IND_GOOD, 0);
}

/* The same with bytes behind it, up to so many that the low bytes of its size would be right. */
static void try_every_padding(struct trial *t, const struct made_type *type)
{
    static const size_t many[] = {255, 256, 257, 1024, 65535, 65536, 65537};
    static uint8_t unit[MADE_MOST + 65537];
    size_t size = make_unit(t, unit, type, type->most);
    for (size_t added = 1; added <= 64; added++)
        expect_verdict(t, both_judge_unit(t, unit, size + added), IND_LONG, 0);
    for (size_t i = 0; i < sizeof many / sizeof many[0]; i++)
        expect_verdict(t, both_judge_unit(t, unit, size + many[i]), IND_LONG, 0);
}

/* Both have a name, and 26, 27, 29 and 31 still have none. */
static void try_names_of_both(struct trial *t)
{
    static const char *const names[32] = {[14] = "SHORT", [26] = "", [27] = "", [28] = "LONG", [29] = "", [31] = ""};
    for (uint8_t number = 0; number < 32; number++) {
        uint8_t row[9] = {0};
        struct ind_span name = both_name(t, number, row, sizeof row);
        if (names[number])
            expect(t, name.length == strlen(names[number]) && memcmp(row, names[number], name.length) == 0);
    }
}

/* The types take turns to be cut everywhere. */
void try_size_examples(struct trial *t)
{
    for (size_t i = 0; i < sizeof refused / sizeof refused[0]; i++)
        try_refused(t, &refused[i]);
    for (size_t i = 0; i < sizeof whole / sizeof whole[0]; i++)
        try_whole(t, &whole[i]);
    try_every_cut(t, &made_types[t->turn % TYPES]);
    try_every_padding(t, &made_types[t->turn % TYPES]);
    try_names_of_both(t);
}
