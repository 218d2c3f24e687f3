/* A null pointer with length 0 for every buffer that a call is lent. */
#include "comparing.h"

#include <string.h>

static void read_nothing(struct trial *t)
{
    struct ind_book book;
    uint8_t label[6], out[30];
    const uint8_t key[7] = {1, 2, 3, 4, 5, 6, 7};
    make_label(t, label);
    fill(t, out, sizeof out);
    both_judge_packet(t, NULL, 0);
    both_read_packet(t, NULL, 0);
    both_unit_place(t, NULL, 0);
    both_answer_to(t, NULL, 0, label, out, sizeof out);
    both_answer_to(t, NULL, 0, label, NULL, 0);
    both_judge_unit(t, NULL, 0);
    for (unsigned command = 0; command < 8; command++)
        both_judge_unit_under(t, NULL, 0, (uint8_t)command);
    both_object_place(t, NULL, 0, below(t, 3));
    both_read_object(t, NULL, 0, below(t, 3));
    both_description_place(t, NULL, 0, below(t, 3));
    both_judge_table(t, NULL, 0);
    both_find_place(t, NULL, 0, key);
    make_fresh(t, &book, 1, 0);
    both_take_packet(t, &book, NULL, 0);
}

/* Nothing to write to, or nothing to write. */
static void write_nothing(struct trial *t)
{
    uint8_t out[64], packet[MADE_MOST], label[6];
    struct ind_object object;
    struct ind_packet fields;
    fill(t, out, sizeof out);
    make_object(t, &object, made_types[below(t, TYPES)].type);
    make_fields(t, &fields);
    fields.command = (uint8_t)below(t, 8);
    both_write_packet(t, NULL, 0, &fields);
    both_write_packet_object(t, NULL, 0, below(t, 3), 0, &object, NULL, 0);
    both_write_packet_text(t, NULL, 0, NULL, 0);
    both_write_packet_text(t, out, sizeof out, NULL, 0);
    both_write_object(t, NULL, 0, 0, &object, NULL, 0);
    both_write_text(t, NULL, 0, NULL, 0);
    both_write_text(t, out, sizeof out, NULL, 0);
    make_label(t, label);
    size_t size = make_any_packet(t, packet);
    both_answer_to(t, packet, size, label, NULL, 0);
    both_name(t, any_byte(t), NULL, 0);
    both_release(t, NULL, 0);
}

/* No output to begin in: ROOM, unless something is refused before it. */
static void begin_nowhere(struct trial *t)
{
    struct ind_book book;
    struct made_begin made;
    make_book_with_room(t, &book);
    make_begin(t, &made, &made_types[below(t, TYPES)]);
    if (both_begin_and_write(t, &book, made.centre, NULL, 0, &made.draft).verdict.refusal != IND_ROOM)
        differ(t, "a begin without an output is not ROOM");
    made.draft.unit_size = below(t, 3);
    made.draft.command = (uint8_t)below(t, 8);
    if (both_begin_and_write(t, &book, made.centre, NULL, 0, &made.draft).verdict.refusal != IND_ROOM)
        differ(t, "a begin without an output is not ROOM");
    made.draft.unit_size = between(t, 1025, 2000);
    both_begin_and_write(t, &book, made.centre, NULL, 0, &made.draft);
    both_begin_and_write(t, &book, make_no_centre(t), NULL, 0, &made.draft);
    break_book(t, &book);
    both_begin_and_write(t, &book, made.centre, NULL, 0, &made.draft);
}

/* An empty piece on any hold, and no buffer. */
static void receive_nothing(struct trial *t)
{
    struct ind_hold hold;
    uint8_t out[1054];
    fill(t, out, sizeof out);
    memset(&hold, 0, sizeof hold);
    both_receive(t, &hold, NULL, 0, out, sizeof out);
    both_receive(t, &hold, NULL, 0, out, 0);
    hold.held = below(t, 40);
    hold.count = 65534 - below(t, 40);
    fill(t, hold.row, hold.held);
    both_receive(t, &hold, NULL, 0, out, sizeof out);
    both_receive(t, &hold, NULL, 0, out, sizeof out);
}

void try_empties(struct trial *t)
{
    t->empty_is_null = true;
    read_nothing(t);
    write_nothing(t);
    begin_nowhere(t);
    receive_nothing(t);
}
