/* The comparing program: gives the same inputs to the library and to the independent program and compares all answers. */
#ifndef COMPARING_H
#define COMPARING_H

#include "independent.h"
#include "trawnosz.h"

/* One case: its inputs are made from the seed and its number alone. */
struct trial {
    uint64_t seed;
    uint64_t number;
    uint64_t turn;      /* the how-manieth case of its kind, for inputs that go through all lengths */
    uint64_t random;    /* the generator's state */
    bool empty_is_null; /* an empty buffer is lent as a null pointer */
    bool at_end;        /* buffers are lent right before a forbidden page, else right behind one */
    bool show;          /* every call is printed with both answers */
};

/* ---- random.c: the same numbers on any machine ---- */

void start_random(struct trial *t);
uint64_t draw(struct trial *t);
size_t below(struct trial *t, size_t limit);
size_t between(struct trial *t, size_t least, size_t most);
bool chance(struct trial *t, unsigned percent);
uint8_t any_byte(struct trial *t);
void fill(struct trial *t, uint8_t *bytes, size_t size);

/* ---- lent.c: memory lent to the library, with guards around it ---- */

enum lent { LENT_HOLD, LENT_INPUT, LENT_OUTPUT, LENT_BUFFERS };
enum { LENT_MOST = 256 * 1024 };

void make_lent_memory(void);
uint8_t *lend(struct trial *t, enum lent which, const uint8_t *bytes, size_t size);
void check_lent(struct trial *t, enum lent which, const char *name, const uint8_t *expected);

/* ---- report.c: what is being called, and what is told of a difference ---- */

enum { ANSWER_LINES = 160 };

/* An answer as a list of named numbers, so that both programs' answers are compared and printed in one way. */
struct answer {
    size_t lines;
    struct {
        const char *name;
        size_t index;
        uint64_t value;
    } line[ANSWER_LINES];
};

void tell(struct answer *answer, const char *name, uint64_t value);
void tell_of(struct answer *answer, const char *name, size_t index, uint64_t value);
void calling(struct trial *t, const char *call);
void with_number(const char *name, uint64_t number);
void with_bytes(const char *name, const uint8_t *bytes, size_t size);
void name_sides(const char *one, const char *other);
void agree(struct trial *t, const struct answer *mine, const struct answer *theirs);
void show_answer(struct trial *t, const struct answer *answer);
void differ(struct trial *t, const char *what);
void differ_bytes(struct trial *t, const char *what, const uint8_t *mine, const uint8_t *theirs, size_t size);
void show_bytes(const char *name, const uint8_t *bytes, size_t size);
void watch_signals(void);

/* ---- translate.c: the independent program's values as the library's ---- */

trawnosz_label their_label(const uint8_t label[6]);
trawnosz_address their_address(const uint8_t address[6]);
trawnosz_header their_header(const struct ind_packet *fields);
trawnosz_draft their_draft(const struct ind_draft *mine);
trawnosz_fields their_fields(const struct ind_object *object);
trawnosz_exchanges their_table(const struct ind_book *book);
struct ind_book our_book(const trawnosz_exchanges *table);
bool same_table(const trawnosz_exchanges *one, const trawnosz_exchanges *other);
bool same_book(const struct ind_book *one, const struct ind_book *other);
void tell_verdict(struct answer *answer, struct ind_verdict verdict);
void tell_their_verdict(struct answer *answer, trawnosz_verdict verdict);
void agree_verdict(struct trial *t, struct ind_verdict mine, trawnosz_verdict theirs);
void agree_part(struct trial *t, struct ind_span mine, trawnosz_found theirs);
void tell_book(struct answer *answer, const struct ind_book *book);
void tell_their_half(struct answer *answer, const trawnosz_exchanges *table, size_t centre);
void tell_their_table(struct answer *answer, const trawnosz_exchanges *table);
uint8_t outcome_number(enum ind_outcome outcome);
uint8_t event_number(const struct ind_received *received);

/* ---- call_*.c: each call of the library beside its counterpart; they return the independent program's answer ---- */

struct ind_verdict both_judge_packet(struct trial *t, const uint8_t *packet, size_t size);
struct ind_packet both_read_packet(struct trial *t, const uint8_t *packet, size_t size);
struct ind_span both_unit_place(struct trial *t, const uint8_t *packet, size_t size);
struct ind_reply both_answer_to(struct trial *t, const uint8_t *packet, size_t size, const uint8_t label[6], uint8_t *out,
                                size_t room);
struct ind_verdict both_write_packet(struct trial *t, uint8_t *out, size_t room, const struct ind_packet *fields);
struct ind_verdict both_write_packet_object(struct trial *t, uint8_t *out, size_t room, size_t unit_size, size_t number,
                                            const struct ind_object *object, const uint8_t *text, size_t text_size);
struct ind_verdict both_write_packet_text(struct trial *t, uint8_t *out, size_t room, const uint8_t *text, size_t text_size);

struct ind_verdict both_judge_unit(struct trial *t, const uint8_t *unit, size_t size);
struct ind_verdict both_judge_unit_under(struct trial *t, const uint8_t *unit, size_t size, uint8_t command);
struct ind_span both_object_place(struct trial *t, const uint8_t *unit, size_t size, size_t number);
struct ind_object both_read_object(struct trial *t, const uint8_t *unit, size_t size, size_t number);
struct ind_span both_description_place(struct trial *t, const uint8_t *unit, size_t size, size_t number);
struct ind_verdict both_write_object(struct trial *t, uint8_t *unit, size_t size, size_t number,
                                     const struct ind_object *object, const uint8_t *text, size_t text_size);
struct ind_verdict both_write_text(struct trial *t, uint8_t *out, size_t room, const uint8_t *text, size_t text_size);

void both_fresh(struct trial *t, struct ind_hold *hold);
struct ind_received both_receive(struct trial *t, struct ind_hold *hold, const uint8_t *piece, size_t size, uint8_t *out,
                                 size_t room);

/* The four kinds of reply, in the order of `enum ind_told`. */
struct reply_call {
    const char *name;
    trawnosz_replied (*call)(trawnosz_exchanges, trawnosz_address, uint16_t);
};

extern const struct reply_call reply_calls[4];

void calling_on(struct trial *t, const char *call, const struct ind_book *book);
void with_draft(uint8_t centre, const uint8_t *out, size_t room, const struct ind_draft *draft);
void tell_their_begun(struct answer *answer, const trawnosz_begun *begun);
void tell_their_reply(struct answer *answer, const trawnosz_replied *replied);
void tell_their_report(struct answer *answer, const trawnosz_ticked *ticked, size_t place);
struct ind_verdict both_exchanges_fresh(struct trial *t, struct ind_book *book, uint8_t timeout, uint8_t limit,
                                        const uint8_t first[6], const uint8_t second[6]);
struct ind_begun both_begin_and_write(struct trial *t, struct ind_book *book, uint8_t centre, uint8_t *out, size_t room,
                                      const struct ind_draft *draft);
struct ind_turn both_reply(struct trial *t, struct ind_book *book, enum ind_told told, const uint8_t source[6],
                           uint16_t serial);
struct ind_turn both_take_packet(struct trial *t, struct ind_book *book, const uint8_t *packet, size_t size);
struct ind_tick both_tick(struct trial *t, struct ind_book *book);

struct ind_span both_name(struct trial *t, uint8_t number, uint8_t *out, size_t room);
struct ind_span both_release(struct trial *t, uint8_t *out, size_t room);
size_t both_unit_length(struct trial *t, uint8_t type, size_t n);

struct ind_devices both_judge_table(struct trial *t, const uint8_t *table, size_t size);
struct ind_devices beside_earlier(struct trial *t, const uint8_t *table, size_t size);
struct ind_span both_find_place(struct trial *t, const uint8_t *table, size_t size, const uint8_t key[7]);

/* ---- make.c: labels, a time or no time, and bad ones; good units, what confirms and denies carry, and packets; spoil.c: one
 * thing wrong in them ---- */

enum { MADE_MOST = 1400, TYPES = 14 };

/* A type's row as the makers need it; `label` is the label's place in an object, or -1. */
struct made_type {
    uint8_t type;
    uint8_t command;
    uint8_t size;
    int8_t label;
    uint8_t most;
};

extern const struct made_type made_types[TYPES];

const struct made_type *made_type_of(uint8_t type);
void make_label(struct trial *t, uint8_t *label);
void make_bad_label(struct trial *t, uint8_t *label);
size_t make_n(struct trial *t, size_t most);
size_t make_unit(struct trial *t, uint8_t *unit, const struct made_type *type, size_t n);
size_t make_any_unit(struct trial *t, uint8_t *unit);
uint8_t make_command(struct trial *t, uint8_t type);
void make_head(struct trial *t, uint8_t *packet, size_t unit_size, uint8_t command);
void seal(uint8_t *packet, size_t unit_size);
uint8_t make_carrier(struct trial *t);
size_t make_carried(struct trial *t, uint8_t *bytes);
size_t make_inside(struct trial *t, uint8_t *unit, uint8_t *command);
size_t make_any_packet(struct trial *t, uint8_t *packet);
void make_object(struct trial *t, struct ind_object *object, uint8_t kind);
void make_fields(struct trial *t, struct ind_packet *fields);
size_t choose_room(struct trial *t, size_t needed, size_t all);

void spoil_unit_label(struct trial *t, uint8_t *unit, size_t size);
size_t choose_cut(struct trial *t, const uint8_t *unit, size_t size);
size_t first_not_whole(const uint8_t *unit, size_t cut);
void pad_unit(struct trial *t, uint8_t *unit, size_t *size);
void spoil_unit(struct trial *t, uint8_t *unit, size_t *size);
void spoil_packet(struct trial *t, uint8_t *packet, size_t *size);

/* ---- make_exchange.c: the addresses of two centres, and exchange tables, sound and not ---- */

void make_addresses(struct trial *t, uint8_t first[6], uint8_t second[6]);
void make_fresh(struct trial *t, struct ind_book *book, uint8_t timeout, uint8_t limit);
void make_book(struct trial *t, struct ind_book *book);
void make_book_with(struct trial *t, struct ind_book *book, size_t first, size_t second);
void make_book_with_room(struct trial *t, struct ind_book *book);
void spoil_book(struct trial *t, struct ind_book *book);
void break_book(struct trial *t, struct ind_book *book);

/* ---- make_calls.c: what is given to begin an exchange, and replies ---- */

enum { BEGIN_MOST = 2100 };

/* The output has room for an L of 2,000 and more, so that LENGTH is tried where nothing is wrong with the room. */
struct made_begin {
    uint8_t centre;
    uint8_t out[BEGIN_MOST];
    size_t room;
    struct ind_draft draft;
};

/* What a reply is given as, beside its kind. */
struct made_reply {
    uint8_t source[6];
    uint16_t serial;
};

uint8_t make_no_centre(struct trial *t);
const struct made_type *make_type_under(struct trial *t, uint8_t command);
void make_begin(struct trial *t, struct made_begin *made, const struct made_type *type);
void spoil_begin(struct trial *t, struct made_begin *made);
void make_any_begin(struct trial *t, struct made_begin *made);
struct ind_begun both_begin(struct trial *t, struct ind_book *book, struct made_begin *made);
struct made_reply make_reply(struct trial *t, const struct ind_book *book);
size_t make_reply_packet(struct trial *t, const struct ind_book *book, uint8_t *packet);

/* ---- segments.c: streams of line bytes ---- */

struct stream {
    uint8_t bytes[LENT_MOST];
    size_t size;
};

void add_bytes(struct stream *stream, const uint8_t *bytes, size_t size);
void add_run(struct stream *stream, uint8_t byte, size_t size);
void add_noise(struct trial *t, struct stream *stream, size_t size);
void add_packet(struct trial *t, struct stream *stream);
void add_spoiled_packet(struct trial *t, struct stream *stream);
void add_hostile_start(struct trial *t, struct stream *stream);
void add_nested(struct trial *t, struct stream *stream);
void add_segment(struct trial *t, struct stream *stream);

/* ---- kind_examples.c: what examples are made of and held against ---- */

extern const char example_a[];
extern const char example_b[];
extern const char example_b_unit[];

size_t from_hex(uint8_t *bytes, const char *hex);
void expect(struct trial *t, bool holds);
void expect_verdict(struct trial *t, struct ind_verdict verdict, enum ind_refusal refusal, size_t place);
size_t with_unit(uint8_t *packet, uint8_t command, const uint8_t *unit, size_t size);
struct ind_book with_open(struct trial *t, uint8_t command);

/* ---- kind_*.c: the kinds of input ---- */

void try_examples(struct trial *t);
void try_label_examples(struct trial *t);
void try_confirm_examples(struct trial *t);
void try_size_examples(struct trial *t);
void try_sum_examples(struct trial *t);
void try_part_examples(struct trial *t);
void try_exchange_examples(struct trial *t);
void try_streams(struct trial *t);
void try_noise(struct trial *t);
void try_receiver_states(struct trial *t);
void try_packets(struct trial *t);
void try_packet_lengths(struct trial *t);
void try_damage(struct trial *t);
void try_units(struct trial *t);
void try_unit_lengths(struct trial *t);
void try_unit_ends(struct trial *t);
void try_object_writer(struct trial *t);
void try_packet_object_writer(struct trial *t);
void try_text_writers(struct trial *t);
void try_packet_writer(struct trial *t);
void try_round_trip(struct trial *t);
void try_replies(struct trial *t);
void try_exchange_states(struct trial *t);
void try_exchange_sequence(struct trial *t);
void try_takes(struct trial *t);
void try_begins(struct trial *t);
void try_begin_orders(struct trial *t);
void try_begin_traces(struct trial *t);
void try_lives(struct trial *t);
void try_centres(struct trial *t);
void try_names(struct trial *t);
void try_good_devices(struct trial *t);
void try_spoiled_devices(struct trial *t);
void try_empties(struct trial *t);

#endif
