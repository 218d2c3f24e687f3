/* The independent program: the rules of document 01 and of document 02's requests, written
 * from those papers alone, and from the header where they leave a point open, to compare the library with. */
#ifndef INDEPENDENT_H
#define INDEPENDENT_H

#include <stdbool.h>
#include <stddef.h>
#include <stdint.h>
#include <stdio.h>

#include "numbers.h"

/* A refusal and its place, both 0 where all is good. */
struct ind_verdict {
    enum ind_refusal refusal;
    size_t place;
};

struct ind_verdict ind_good(void);
struct ind_verdict ind_refuse(enum ind_refusal refusal);
struct ind_verdict ind_refuse_at(enum ind_refusal refusal, size_t place);
const char *ind_refusal_name(enum ind_refusal refusal);
bool ind_before_version(enum ind_refusal refusal);

/* A part of the caller's bytes, by the place of its first byte and its length. */
struct ind_span {
    struct ind_verdict verdict;
    size_t start;
    size_t length;
};

struct ind_span ind_no_span(struct ind_verdict verdict);
struct ind_span ind_span_at(size_t start, size_t length);

/* The name of a number that a call tells, of no letters where it has none; and a text put to the front of a row. */
const char *ind_name(uint8_t number);
struct ind_span ind_put_front(uint8_t *out, size_t room, const char *text);

/* ---- Labels: six bytes, in the order in which they stand in a packet ---- */

enum ind_judged { IND_JUDGED_BAD, IND_JUDGED_TIME, IND_JUDGED_NO_TIME };

enum ind_judged ind_judge_label(const uint8_t label[6]);
bool ind_label_good(const uint8_t label[6]);
enum ind_shown ind_show_label(const uint8_t label[6]);

/* ---- Types of units ---- */

/* The letters of a body: each stands for one field of the paper's table, in the order in which the fields stand. */
enum ind_field {
    IND_SYSTEM = 's', IND_ADDRESS = 'a', IND_PART = 'p', IND_PLACE = 'P', IND_LOW = 'l', IND_HIGH = 'h',
    IND_ANALOGUE = 'A', IND_VALUE = 'V', IND_OPERATION = 'o', IND_OPERATOR = 'u', IND_ONE_STATE = 't',
    IND_MAIN = 'm', IND_MINOR = 'i', IND_DESCRIPTION = 'D', IND_TEXT_OF_26 = 'K', IND_LABEL = 'L'
};

struct ind_type {
    uint8_t type;
    const char *carried;
    const char *body;
    size_t most;
};

const struct ind_type *ind_type_of(uint8_t type);
size_t ind_field_size(char field);
size_t ind_object_size(const struct ind_type *type);
bool ind_field_offset(const struct ind_type *type, char field, size_t *offset);
size_t ind_unit_length(uint8_t type, size_t n);

/* ---- Units and objects ---- */

/* The numbers of an object by the letter of their field; a field that the type does not have is 0. What the label is, is shown
 * by a reading and not looked at by a writer. */
struct ind_object {
    struct ind_verdict verdict;
    uint8_t kind;
    uint32_t number[128];
    uint8_t label[6];
    enum ind_shown shown;
};

struct ind_verdict ind_judge_shape(const uint8_t *unit, size_t size, const char *command);
struct ind_verdict ind_judge_unit(const uint8_t *unit, size_t size);
struct ind_verdict ind_judge_unit_under(const uint8_t *unit, size_t size, uint8_t command);
struct ind_span ind_object_span(const uint8_t *unit, size_t size, size_t number);
struct ind_span ind_description_span(const uint8_t *unit, size_t size, size_t number);
struct ind_object ind_read_object(const uint8_t *unit, size_t size, size_t number);
struct ind_verdict ind_write_object(uint8_t *unit, size_t size, size_t number, const struct ind_object *object,
                                    const uint8_t *description, size_t description_size);
struct ind_verdict ind_write_text(uint8_t *out, size_t room, const uint8_t *text, size_t text_size);

/* ---- Packets ---- */

/* What the header's label is, is shown by a reading and not looked at by a writer. */
struct ind_packet {
    struct ind_verdict verdict;
    uint16_t serial;
    uint8_t user_version;
    uint8_t label[6];
    enum ind_shown shown;
    uint8_t source[6];
    uint8_t destination[6];
    uint8_t command;
    size_t unit_size;
};

uint8_t ind_sum(const uint8_t *packet, size_t unit_size);
unsigned ind_low_first(const uint8_t *two_bytes);
struct ind_verdict ind_judge_packet(const uint8_t *packet, size_t size);
struct ind_packet ind_read_packet(const uint8_t *packet, size_t size);
struct ind_span ind_unit_span(const uint8_t *packet, size_t size);
void ind_frame(uint8_t *out, const struct ind_packet *fields);
struct ind_verdict ind_write_packet(uint8_t *out, size_t room, const struct ind_packet *fields);
struct ind_verdict ind_write_packet_object(uint8_t *out, size_t room, size_t unit_size, size_t number,
                                           const struct ind_object *object, const uint8_t *description,
                                           size_t description_size);
struct ind_verdict ind_write_packet_text(uint8_t *out, size_t room, const uint8_t *text, size_t text_size);

/* ---- Replies ---- */

struct ind_reply {
    struct ind_verdict verdict;
    uint8_t command;
};

struct ind_reply ind_answer_to(const uint8_t *packet, size_t size, const uint8_t label[6], uint8_t *out, size_t room);

/* ---- The stream ---- */

/* What the reading says at a position; LENGTH, END and SUM are refused starts. */
enum ind_event { IND_MORE, IND_SKIP, IND_NOISE, IND_EVENT_LENGTH, IND_EVENT_END, IND_EVENT_SUM, IND_PACKET, IND_REFUSED };

const char *ind_event_name(enum ind_event event);

/* The reading of a stream: the position in it, the skipped count, and the last event with what it carries. */
struct ind_reading {
    size_t position;
    size_t count;
    enum ind_event event;
    size_t carried;
    size_t packet_at;
    size_t packet_size;
};

/* Reads on from the position until an event, or MORE where the bytes that are there decide nothing. */
void ind_read_on(struct ind_reading *reading, const uint8_t *stream, size_t size);

/* A receiver's state, and a call on it. */
struct ind_hold {
    uint8_t row[IND_LONGEST_PACKET];
    size_t held;
    size_t count;
};

struct ind_received {
    enum ind_event event;
    enum ind_refusal refusal;
    size_t packet_size;
    size_t carried;
    size_t taken;
};

void ind_fresh_hold(struct ind_hold *hold);
struct ind_received ind_receive(struct ind_hold *hold, const uint8_t *piece, size_t size, uint8_t *out, size_t room);

/* Prints the listing of a whole stream. */
void ind_list(FILE *to, const uint8_t *stream, size_t size);

/* ---- Exchanges ---- */

enum ind_told { IND_CONFIRM_CAME, IND_ANSWER_CAME, IND_DENY_CAME, IND_BAD_ANSWER_CAME };
enum ind_outcome { IND_NOTHING, IND_CONFIRMED, IND_ANSWERED, IND_RESENT, IND_FAILED };

struct ind_exchange {
    uint16_t serial;
    uint16_t mode;
    uint16_t resends;
    uint16_t age;
};

struct ind_centre {
    uint8_t address[6];
    uint16_t next;
};

struct ind_book {
    struct ind_exchange exchange[IND_PLACES];
    struct ind_centre centre[IND_CENTRES];
    uint8_t timeout;
    uint8_t limit;
};

/* What a packet that begins an exchange needs, beside the serial and the destination, which the book gives. */
struct ind_draft {
    uint8_t user_version;
    uint8_t label[6];
    uint8_t source[6];
    uint8_t command;
    size_t unit_size;
};

/* What a begin answers beside the changed book and the packet that stands in the output. */
struct ind_begun {
    struct ind_verdict verdict;
    size_t place;
    uint16_t serial;
    size_t packet_size;
};

/* What a reply is answered by beside the changed book. */
struct ind_turn {
    struct ind_verdict verdict;
    size_t place;
    enum ind_outcome outcome;
};

struct ind_tick {
    struct ind_verdict verdict;
    enum ind_outcome outcome[IND_PLACES];
    uint16_t serial[IND_PLACES];
};

/* The centre that a place belongs to; the first place of a centre, and the one behind its last. */
size_t ind_centre_of(size_t place);
size_t ind_first_of(size_t centre);
size_t ind_end_of(size_t centre);

bool ind_same_address(const uint8_t one[6], const uint8_t other[6]);
bool ind_is_open_under(const struct ind_exchange *one, uint16_t serial);
size_t ind_open_at(const struct ind_book *book, size_t centre, uint16_t serial);
bool ind_book_sound(const struct ind_book *book);

struct ind_verdict ind_make_book(struct ind_book *book, uint8_t timeout, uint8_t limit, const uint8_t first[6],
                                 const uint8_t second[6]);
struct ind_begun ind_begin_and_write(struct ind_book *book, uint8_t centre, uint8_t *out, size_t room,
                                     const struct ind_draft *draft);
struct ind_turn ind_hear(struct ind_book *book, enum ind_told told, const uint8_t source[6], uint16_t serial);
struct ind_turn ind_take(struct ind_book *book, const uint8_t *packet, size_t size);
struct ind_tick ind_pass_time(struct ind_book *book);

/* ---- The lives of exchanges ---- */

/* What the answers have told of the last exchange that began at a place; the ticks are those since its beginning. */
struct ind_life {
    bool open;
    bool replied;
    uint16_t serial;
    unsigned sendings;
    unsigned ticks;
};

/* A log of answers, read from a fresh table on. */
struct ind_lives {
    struct ind_life life[IND_PLACES];
    uint8_t timeout;
    uint8_t limit;
};

/* A log is started with its T and R; then each takes its next answer, whose places are 0 to 15, that of a beginning with the
 * centre that it named, and returns what is wrong with it by request Q-10, which by Q-11 "holds for each" centre, or NULL
 * where nothing is. */
void ind_lives_start(struct ind_lives *lives, uint8_t timeout, uint8_t limit);
const char *ind_lives_begin(struct ind_lives *lives, uint8_t centre, const struct ind_begun *begun);
const char *ind_lives_reply(struct ind_lives *lives, const struct ind_turn *turn);
const char *ind_lives_tick(struct ind_lives *lives, const struct ind_tick *tick);

/* ---- The device table ---- */

struct ind_devices {
    struct ind_verdict verdict;
    size_t systems;
    size_t parts;
};

/* The judge, and that of a program from before request Q-7. */
struct ind_devices ind_judge_devices(const uint8_t *table, size_t size);
struct ind_devices ind_judge_devices_earlier(const uint8_t *table, size_t size);
struct ind_span ind_find_part(const uint8_t *table, size_t size, const uint8_t key[7]);

#endif
