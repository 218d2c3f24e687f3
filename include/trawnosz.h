/*
 * Trawnosz: packets of GB/T 26875.3 for alarm transmitters. The calls of libtrawnosz.a, for C99 and later and for C++.
 *
 * The archive is x86-64 code with the System V calling convention. It needs memcpy, memmove and memset from whoever links
 * it, and nothing else: it allocates nothing and opens nothing. A compiler that lays out the structs in another way,
 * for another machine or under `#pragma pack`, is stopped at the end of this header.
 *
 * Every call copes with every input and ends. What it will not take it refuses by number: the answer then holds the number
 * and its place, zero for all else and the state as it came, and nothing that was lent is written. A number of 0 is good.
 *
 * Bytes are lent as a pointer and a length. A pointer with length 0 may be null and is not read; a hold is never null.
 * What a call writes must not overlap anything else that the same call is lent. No call keeps a pointer, allocates, prints
 * or has a memory of an earlier call: calls on different memory may run at the same time.
 *
 * Bytes that are found are told as `from` and `to`, counted from 0 in the caller's own bytes; they end before `to`.
 * Structs are compared member by member: bytes between members have no meaning.
 */
#ifndef TRAWNOSZ_H
#define TRAWNOSZ_H

#include <stddef.h>
#include <stdint.h>

#ifdef __cplusplus
extern "C" {
#endif

/* The release that this header is of; trawnosz_release tells that of the archive. */
#define TRAWNOSZ_RELEASE "1.8"

/* Sizes and limits. */
enum {
    TRAWNOSZ_LONGEST_PACKET = 1054,  /* the hold's size, and what a receiver's buffer needs */
    TRAWNOSZ_LONGEST_UNIT = 1024,    /* what a confirm or a deny carries has as many at most */
    TRAWNOSZ_LONGEST_TEXT = 255,     /* the text of type 26 */
    TRAWNOSZ_LONGEST_NAME = 9,       /* what any name needs of a row */
    TRAWNOSZ_LONGEST_TIMEOUT = 10,   /* a timeout is 1 to 10 ticks */
    TRAWNOSZ_MOST_RESENDS = 9,       /* resends are 0 to 9 */
    TRAWNOSZ_MOST_SYSTEMS = 64,      /* of a device table */
    TRAWNOSZ_MOST_PARTS = 1600,      /* of a device table; releases before 1.8 read 1,024, and refuse a larger one as MANY */
    TRAWNOSZ_CENTRES = 2,            /* the monitoring centres, by their numbers 0 and 1 */
    TRAWNOSZ_EXCHANGES = 16,         /* the places of an exchange table */
    TRAWNOSZ_CENTRE_EXCHANGES = 8,   /* those of one centre: 0 to 7 are centre 0's, 8 to 15 centre 1's */
    TRAWNOSZ_DESCRIPTION_BYTES = 31, /* of types 2 and 7 */
    TRAWNOSZ_REPLY_BYTES = 30        /* a packet without a unit */
};

/* Refusals, in a verdict's `number`. */
enum {
    TRAWNOSZ_OK = 0,
    TRAWNOSZ_REFUSED_STATE = 1,    /* a receiver or exchange state breaks its rules */
    TRAWNOSZ_REFUSED_ROOM = 2,     /* receiver's buffer under 1,054; other output shorter than what is written */
    TRAWNOSZ_REFUSED_CUT = 3,      /* packet under 30 bytes or not 30+L; device table ends early */
    TRAWNOSZ_REFUSED_START = 4,    /* packet does not begin 64, 64 */
    TRAWNOSZ_REFUSED_LENGTH = 5,   /* L, or what a confirm or a deny carries, over 1,024; type 26 text over 255 */
    TRAWNOSZ_REFUSED_END = 6,      /* packet does not end 35, 35 */
    TRAWNOSZ_REFUSED_SUM = 7,      /* the sum is wrong */
    TRAWNOSZ_REFUSED_VERSION = 8,  /* main version not 1 */
    TRAWNOSZ_REFUSED_COMMAND = 9,  /* not 1 to 6; where an exchange is begun, not 1, 2 or 4 */
    TRAWNOSZ_REFUSED_TIME = 10,    /* a label neither in range nor six zeros; place 0 is the header, i+1 object i */
    TRAWNOSZ_REFUSED_UNIT = 11,    /* a unit under 2 bytes, under commands 1, 2, 4 and 5 or alone */
    TRAWNOSZ_REFUSED_TYPE = 12,    /* not in the table, or not carried by the command */
    TRAWNOSZ_REFUSED_COUNT = 13,   /* n is 0 or above its limit */
    TRAWNOSZ_REFUSED_SHORT = 14,   /* a unit ends before its last object does; place the first object not whole, from 0 */
    TRAWNOSZ_REFUSED_NUMBER = 15,  /* object number not below n */
    TRAWNOSZ_REFUSED_KIND = 16,    /* fields of another type than the unit; type 26 to the object writer */
    TRAWNOSZ_REFUSED_TEXT = 17,    /* description of the wrong length */
    TRAWNOSZ_REFUSED_SETTING = 18, /* timeout or resend limit out of range, or equal centre addresses */
    TRAWNOSZ_REFUSED_FULL = 19,    /* a centre's 8 exchanges open */
    TRAWNOSZ_REFUSED_STRAY = 20,   /* no open exchange of the centre with the source address fits the reply */
    TRAWNOSZ_REFUSED_MANY = 21,    /* table count over its limit */
    TRAWNOSZ_REFUSED_ORDER = 22,   /* table entry not above the one before; its number from 0, parts after the systems */
    TRAWNOSZ_REFUSED_ORPHAN = 23,  /* a part's system is not listed; place as for ORDER */
    TRAWNOSZ_REFUSED_TAIL = 24,    /* bytes after the table */
    TRAWNOSZ_REFUSED_UNLISTED = 25, /* no such part */
    TRAWNOSZ_REFUSED_LONG = 28,    /* bytes follow a unit's last object */
    TRAWNOSZ_REFUSED_CENTRE = 30   /* a centre other than the two */
};

/* Events of the receiver: these, the numbers LENGTH, END and SUM for refused starts, STATE and ROOM for a refused call. */
enum {
    TRAWNOSZ_EVENT_MORE = 32,  /* the whole piece was taken and decides nothing */
    TRAWNOSZ_EVENT_NOISE = 33, /* 65,535 bytes were skipped */
    TRAWNOSZ_EVENT_PACKET = 34 /* a packet stands at the front of the buffer */
};

/* Commands of a packet. */
enum {
    TRAWNOSZ_COMMAND_CONTROL = 1,
    TRAWNOSZ_COMMAND_SEND = 2,
    TRAWNOSZ_COMMAND_CONFIRM = 3,
    TRAWNOSZ_COMMAND_REQUEST = 4,
    TRAWNOSZ_COMMAND_ANSWER = 5,
    TRAWNOSZ_COMMAND_DENY = 6
};

/* Types of a unit: the size of an object, its label included, and the largest n. A unit has 2 bytes more than its objects. */
enum {
    TRAWNOSZ_TYPE_SYSTEM_STATE = 1,                /* 10 bytes, at most 102 */
    TRAWNOSZ_TYPE_PART_STATE = 2,                  /* 46 bytes, at most 22 */
    TRAWNOSZ_TYPE_ANALOGUE = 3,                    /* 16 bytes, at most 63 */
    TRAWNOSZ_TYPE_OPERATION = 4,                   /* 10 bytes, at most 102 */
    TRAWNOSZ_TYPE_PART_CONFIGURATION = 7,          /* 38 bytes, at most 26 */
    TRAWNOSZ_TYPE_SYSTEM_CLOCK = 8,                /* 8 bytes, at most 1 */
    TRAWNOSZ_TYPE_TRANSMITTER_STATE = 21,          /* 7 bytes, at most 1 */
    TRAWNOSZ_TYPE_TRANSMITTER_OPERATION = 24,      /* 8 bytes, at most 127 */
    TRAWNOSZ_TYPE_TRANSMITTER_VERSION = 25,        /* 2 bytes, at most 1 */
    TRAWNOSZ_TYPE_TRANSMITTER_CONFIGURATION = 26,  /* 1 byte K and K of text, at most 1 */
    TRAWNOSZ_TYPE_TRANSMITTER_CLOCK = 28,          /* 6 bytes, at most 1 */
    TRAWNOSZ_TYPE_READ_SYSTEM_STATE = 61,          /* 2 bytes, at most 102 */
    TRAWNOSZ_TYPE_READ_PART_STATE = 62,            /* 6 bytes, at most 22 */
    TRAWNOSZ_TYPE_SET_CLOCK = 90                   /* 6 bytes, at most 1 */
};

/* The centre that a beginning names; any other is CENTRE. */
enum {
    TRAWNOSZ_CENTRE_FIRST = 0,
    TRAWNOSZ_CENTRE_SECOND = 1
};

/* Modes of a place in an exchange table; any other is STATE. */
enum {
    TRAWNOSZ_MODE_FREE = 0,
    TRAWNOSZ_MODE_SEND = 1,
    TRAWNOSZ_MODE_REQUEST = 2
};

/* What is told of an exchange. */
enum {
    TRAWNOSZ_OUTCOME_NOTHING = 0,
    TRAWNOSZ_OUTCOME_CONFIRMED = 40, /* a confirm came for a send; the place is free again */
    TRAWNOSZ_OUTCOME_ANSWERED = 41,  /* an answer came for a request; the place is free again */
    TRAWNOSZ_OUTCOME_RESENT = 42,    /* to be sent again under the same serial */
    TRAWNOSZ_OUTCOME_FAILED = 43     /* given up; the place is free again */
};

/* What a label that was read is, in the member `shown` beside its six bytes. A refused reading is all zero, its label too,
 * but shows NOTHING, which no reading that is good shows: so six zeros mean "no time" only where `shown` is NO_TIME. */
enum {
    TRAWNOSZ_SHOWN_NOTHING = 0,  /* refused: there is no reading */
    TRAWNOSZ_SHOWN_TIME = 1,     /* a time */
    TRAWNOSZ_SHOWN_NO_TIME = 2,  /* six zeros: the sender has no clock; a box must not set its own from it */
    TRAWNOSZ_SHOWN_NO_LABEL = 3  /* an object of a type without a label; the label's numbers are zero */
};

/* 0 and 0, or a refusal's number and its place, 0 where none is named. Of SHORT 0 is object 0, of TIME object i is i+1. */
typedef struct trawnosz_verdict {
    uint8_t number;
    size_t place;
} trawnosz_verdict;

/* A verdict, and where the bytes stand that were found; 0 and 0 where it is refused. */
typedef struct trawnosz_found {
    trawnosz_verdict verdict;
    size_t from;
    size_t to;
} trawnosz_found;

/* A time label: second 0-59, minute 0-59, hour 0-23, day 1-31, month 1-12, year 0-99, each byte judged alone; or six zeros,
 * which mean that there is no time. Every other label is TIME, where it is read and where it is written, a day of 0 beside
 * any other byte above 0 too. */
typedef struct trawnosz_label {
    uint8_t second;
    uint8_t minute;
    uint8_t hour;
    uint8_t day;
    uint8_t month;
    uint8_t year;
} trawnosz_label;

/* A packet's fields; `version` is the user version, the main one is always 1. */
typedef struct trawnosz_header {
    uint16_t serial;
    uint8_t version;
    trawnosz_label label;
    uint8_t source[6];
    uint8_t destination[6];
    uint8_t command;
} trawnosz_header;

/* What the header of a packet needs but its serial and its destination, which the exchange table gives. */
typedef struct trawnosz_draft {
    uint8_t version;
    trawnosz_label label;
    uint8_t source[6];
    uint8_t command;
} trawnosz_draft;

/* A packet's fields, what its header's label is (SHOWN_TIME or SHOWN_NO_TIME), and L; zeros where it is refused. */
typedef struct trawnosz_opened {
    trawnosz_verdict verdict;
    trawnosz_header header;
    uint8_t shown;
    size_t length;
} trawnosz_opened;

/*
 * The fields of an object of any type, `kind` being the type; each type has the members that its line names:
 *   1  system address low high label                             25 main minor
 *   2  system address part part_address low high label           26 (none: its text is a part)
 *   3  system address part part_address analogue value label     28 label
 *   4  system address operation operator_ label                  61 system address
 *   7  system address part part_address                          62 system address part_address
 *   8  system address label                                      90 label
 *   21 state label                                               24 operation operator_ label
 * A reader leaves all others 0; a writer does not look at them. `part_address` is a number, low byte first in the object;
 * `low` and `high` are the two bytes of a state as they stand.
 */
typedef struct trawnosz_fields {
    uint8_t kind;
    uint8_t system;
    uint8_t address;
    uint8_t part;
    uint32_t part_address;
    int16_t value;
    uint8_t low;
    uint8_t high;
    uint8_t analogue;
    uint8_t operation;
    uint8_t operator_;
    uint8_t state;
    uint8_t main;
    uint8_t minor;
    trawnosz_label label;
} trawnosz_fields;

/* An object's fields, and what its label is; all zero where it is refused. */
typedef struct trawnosz_typed {
    trawnosz_verdict verdict;
    trawnosz_fields fields;
    uint8_t shown;
} trawnosz_typed;

/* What a receiver's call found: an event with the skipped count that it carries, the packet's length for PACKET, the bytes
 * taken from the piece, and the new state beside the hold: the bytes held and the present skipped count. */
typedef struct trawnosz_served {
    uint8_t event;
    size_t length;
    size_t skipped;
    size_t taken;
    size_t held;
    size_t count;
} trawnosz_served;

/* What was written: `command` 3 or 6 for a reply of 30 bytes, 0 where none is due or where it is refused. */
typedef struct trawnosz_answer {
    trawnosz_verdict verdict;
    uint8_t command;
} trawnosz_answer;

/* One exchange; a free place is all zero. */
typedef struct trawnosz_exchange {
    uint16_t serial;
    uint16_t mode;
    uint16_t resends;
    uint16_t age;
} trawnosz_exchange;

/* The six bytes of an address, as they stand in a packet. */
typedef struct trawnosz_address {
    uint8_t bytes[6];
} trawnosz_address;

/* A monitoring centre: its address, and the serial to try next for it. */
typedef struct trawnosz_centre {
    trawnosz_address address;
    uint16_t next;
} trawnosz_centre;

/* The exchange table, by value: sixteen places, the two centres, T and R. */
typedef struct trawnosz_exchanges {
    trawnosz_exchange places[16];
    trawnosz_centre centres[2];
    uint8_t timeout;
    uint8_t resends;
} trawnosz_exchanges;

typedef struct trawnosz_made {
    trawnosz_verdict verdict;
    trawnosz_exchanges state;
} trawnosz_made;

/* The place that was opened, the length of the packet that was written, and its serial; zeros where it is refused. */
typedef struct trawnosz_begun {
    trawnosz_verdict verdict;
    size_t exchange_place;
    size_t length;
    uint16_t serial;
    trawnosz_exchanges state;
} trawnosz_begun;

typedef struct trawnosz_replied {
    trawnosz_verdict verdict;
    size_t exchange_place;
    uint16_t outcome;
    trawnosz_exchanges state;
} trawnosz_replied;

/* What a tick told of one place, NOTHING too, and the serial that the place had before it, 0 of a free one. */
typedef struct trawnosz_report {
    uint16_t outcome;
    uint16_t serial;
} trawnosz_report;

typedef struct trawnosz_ticked {
    trawnosz_verdict verdict;
    trawnosz_report reports[16];
    trawnosz_exchanges state;
} trawnosz_ticked;

/* A device table's verdict, and how many systems and parts it has; 0 and 0 where it is refused. */
typedef struct trawnosz_table {
    trawnosz_verdict verdict;
    size_t systems;
    size_t parts;
} trawnosz_table;

/* What a part is found by: its system's type and address, its own type and address. */
typedef struct trawnosz_key {
    uint8_t system;
    uint8_t address;
    uint8_t part;
    uint32_t part_address;
} trawnosz_key;

/* ---- The receiver: the hold, `held` and `count` are its state, of which the caller keeps all three. ---- */

/* Makes the hold that of a fresh receiver, all zero; its held and count are 0. */
void trawnosz_fresh(uint8_t hold[1054]);

/* One call: judges held bytes first, takes from the piece up to the byte that decides, answers one event or MORE. On PACKET
 * the packet is copied to the front of `out`; nothing else writes there. Refuses STATE (held over 1,054, count over 65,534,
 * a byte behind the held ones that is not 0), then ROOM (out under 1,054 bytes); `held` and `count` then come back as they
 * were given. After any other event the rest of the piece is offered again, even where it is empty, until MORE:
 *
 *     do {
 *         served = trawnosz_receive(hold, held, count, piece, piece_length, out, sizeof out);
 *         held = served.held;
 *         count = served.count;
 *         piece += served.taken;
 *         piece_length -= served.taken;
 *         (what served.event tells; on PACKET out[0] to out[served.length - 1] are the packet)
 *     } while (served.event != TRAWNOSZ_EVENT_MORE && served.event != TRAWNOSZ_REFUSED_STATE
 *              && served.event != TRAWNOSZ_REFUSED_ROOM);
 */
trawnosz_served trawnosz_receive(uint8_t hold[1054], size_t held, size_t count, const uint8_t *piece, size_t piece_length,
                                 uint8_t *out, size_t out_length);

/* ---- Packets. ----
 *
 * A confirm's or deny's bytes are no unit: under commands 3 and 6 any 0 to 1,024 bytes stand where other packets have their
 * unit. They are found, read with L and written as a unit is, but kept as bytes and not judged as a unit: UNIT, TYPE, COUNT,
 * SHORT, LONG and TIME of an object, below, are for the other commands. The calls on objects, and the judge of a unit alone,
 * are told no command: they refuse or read such bytes by their own rules, and what they then tell is not what the sender
 * meant. */

/* The judge of a packet: CUT, START, LENGTH, CUT, END, SUM, VERSION, COMMAND, TIME, UNIT, TYPE, COUNT, SHORT, LONG, TIME. */
trawnosz_verdict trawnosz_judge_packet(const uint8_t *packet, size_t packet_length);

/* A packet's fields and L; refuses as its judge. */
trawnosz_opened trawnosz_read_packet(const uint8_t *packet, size_t packet_length);

/* Where a packet's unit stands, of a confirm or a deny the bytes that it carries; refuses as its judge. */
trawnosz_found trawnosz_find_unit(const uint8_t *packet, size_t packet_length);

/* Writes a packet around the unit, under 3 and 6 any bytes, of `length` bytes that already stands from out[27] on: the 27
 * bytes before it and the 3 behind it. Refuses LENGTH, ROOM (under 30 + length), COMMAND, TIME, UNIT, TYPE, COUNT, SHORT,
 * LONG, TIME. */
trawnosz_verdict trawnosz_write_packet(uint8_t *out, size_t out_length, trawnosz_header header, size_t length);

/* Writes an object into the unit of `length` bytes that stands from out[27] on. Refuses LENGTH, ROOM (under 27 + length),
 * then as trawnosz_write_object. */
trawnosz_verdict trawnosz_write_packet_object(uint8_t *out, size_t out_length, size_t length, size_t number,
                                              trawnosz_fields fields, const uint8_t *description, size_t description_length);

/* Writes a unit of type 26 from out[27] on, 3 bytes and the text. Refuses LENGTH, ROOM (under 30 + the text). */
trawnosz_verdict trawnosz_write_packet_text(uint8_t *out, size_t out_length, const uint8_t *text, size_t text_length);

/* Writes the reply that is due to a packet, 30 bytes, to the front of `out`. It carries nothing, and none is due to a confirm
 * or a deny, whatever that carries, good or refused; a deny is due to a packet of any other command but 5 that is refused at
 * VERSION or later in the judge's order, SHORT and LONG among them. Refuses CUT, START, LENGTH, CUT, END, SUM of the packet;
 * then, where a reply is due, TIME of the label (six zeros are none) and ROOM (under 30). */
trawnosz_answer trawnosz_answer_to(const uint8_t *packet, size_t packet_length, trawnosz_label label, uint8_t *out,
                                   size_t out_length);

/* ---- Units and objects; objects are numbered from 0. Each call judges the whole unit, so that reading n objects one by one
 * judges it n times. A unit that ends before its last object does is SHORT, and its place the number of the first object that
 * is not whole, be it cut or wholly absent: the objects before it are whole, though nothing was yet said of their labels. A
 * unit of type 26 without its K is SHORT at object 0. One with bytes behind its last object is LONG, place 0. ---- */

/* The judge of a unit alone: UNIT, TYPE, COUNT, SHORT, LONG, TIME. */
trawnosz_verdict trawnosz_judge_unit(const uint8_t *unit, size_t unit_length);

/* The judge of a unit under a command: COMMAND, then UNIT, TYPE, COUNT, SHORT, LONG, TIME; under 3 and 6, where any bytes are
 * taken, COMMAND and then only LENGTH (over 1,024). */
trawnosz_verdict trawnosz_judge_unit_under(const uint8_t *unit, size_t unit_length, uint8_t command);

/* The length of a unit of n objects of a type: 2 and n times the object's size. 0 where there is none (a type that is not in
 * the list, n 0 or above its largest) and for type 26, where the text decides. Refuses nothing. */
size_t trawnosz_unit_length(uint8_t type, size_t n);

/* Where an object stands, its label included; refuses as the unit's judge, then NUMBER. */
trawnosz_found trawnosz_find_object(const uint8_t *unit, size_t unit_length, size_t number);

/* An object's fields, with what its label is. Types 8, 28 and 90 too may have six zeros for a time: a box must not set its
 * clock from them, nor from any label that is not SHOWN_TIME. Refuses as trawnosz_find_object. */
trawnosz_typed trawnosz_read_object(const uint8_t *unit, size_t unit_length, size_t number);

/* Where an object's description stands, for type 26 its text; an empty part, at the object's end, for a type without one.
 * Refuses as trawnosz_find_object. */
trawnosz_found trawnosz_find_description(const uint8_t *unit, size_t unit_length, size_t number);

/* Writes one object of a unit whose type and n already stand, and no other byte; the description has 31 bytes for types 2
 * and 7 and none for others. Refuses UNIT, TYPE, COUNT, SHORT, LONG, NUMBER, KIND, TEXT, TIME of the new label. */
trawnosz_verdict trawnosz_write_object(uint8_t *unit, size_t unit_length, size_t number, trawnosz_fields fields,
                                       const uint8_t *description, size_t description_length);

/* Writes a unit of type 26 to the front of `out`, 3 bytes and the text. Refuses LENGTH (text over 255), ROOM. */
trawnosz_verdict trawnosz_write_text(uint8_t *out, size_t out_length, const uint8_t *text, size_t text_length);

/* ---- The exchange table, by value: each call hands the new table back in `state`. ----
 *
 * From a table that was made and not refused, each call given the table that the one before handed back, whatever the calls
 * are: each exchange that was begun ends once, CONFIRMED, ANSWERED or FAILED, no later than the (R + 1) * T-th tick after its
 * beginning, with at most R times RESENT before; till then its place, and within its centre its serial, are given to no
 * other, and after that nothing is told of its place before another exchange is begun there. If no reply fits it, it is
 * FAILED at just that tick.
 *
 * Nor does one centre disturb the other: leave out all beginnings for one of them and all replies from its address, and every
 * other call, a tick in its reports of the other's eight places, answers as before. */

/* A fresh table for two centres, centre 0 with the first address and centre 1 with the second; SETTING, with a table of zeros,
 * where T is not 1 to 10, R over 9, or the addresses are equal. */
trawnosz_made trawnosz_exchanges_fresh(uint8_t timeout, uint8_t resends, trawnosz_address first, trawnosz_address second);

/* Begins an exchange with a centre and writes its packet as one: the packet around the unit of `length` bytes that already
 * stands from out[27] on, as trawnosz_write_packet writes it, with the centre's address as destination, under the first
 * serial, from the centre's next one upward, that is not open within the centre; only then is the lowest free place of its
 * eight opened under it. Every member of the draft is written; commands 1 and 2 open a send, 4 a request. Refuses STATE,
 * CENTRE (a centre other than 0 and 1), FULL (the centre's eight are open), then as trawnosz_write_packet: LENGTH, ROOM (under
 * 30 + length), COMMAND (here for all but 1, 2 and 4), TIME, UNIT, TYPE, COUNT, SHORT, LONG, TIME. Refused, no place is open
 * that was not before and no serial is used up: the centre's next call that is good gives the serial that this one would have
 * given. */
trawnosz_begun trawnosz_begin_and_write(trawnosz_exchanges table, uint8_t centre, uint8_t *out, size_t out_length,
                                        trawnosz_draft draft, size_t length);

/* The step of the exchange that the reply fits, with its place and outcome: `source` is the source address of the reply's
 * packet, and only an exchange of the centre that has this address fits; a confirm fits a send, an answer a request, a deny
 * either, a bad answer (command 5, refused at VERSION or later in the order of trawnosz_judge_packet; LONG is among them,
 * though its number is 28) a request. Refuse STATE, STRAY (also where neither centre has the address). Of a refused answer
 * trawnosz_read_packet gives zeros: trawnosz_take_packet, below, takes serial and source from the bytes. */
trawnosz_replied trawnosz_reply_confirm(trawnosz_exchanges table, trawnosz_address source, uint16_t serial);
trawnosz_replied trawnosz_reply_answer(trawnosz_exchanges table, trawnosz_address source, uint16_t serial);
trawnosz_replied trawnosz_reply_deny(trawnosz_exchanges table, trawnosz_address source, uint16_t serial);
trawnosz_replied trawnosz_reply_bad_answer(trawnosz_exchanges table, trawnosz_address source, uint16_t serial);

/* Takes a packet's bytes and does with the table what the packet is to it, under the serial and the source address that stand
 * in the bytes:
 *
 *     command        judged good              refused at VERSION or later    refused before
 *     3 confirm      trawnosz_reply_confirm   the refusal                    the refusal
 *     5 answer       trawnosz_reply_answer    trawnosz_reply_bad_answer      the refusal
 *     6 deny         trawnosz_reply_deny      the refusal                    the refusal
 *     any other      nothing is told          the refusal                    the refusal
 *
 * What a confirm or a deny carries makes no difference. A reply refuses STATE, STRAY as its single call does. The refusal is
 * the judge's, number and place; it and a good packet that is no reply leave the table as it came, whatever is in it, with
 * outcome NOTHING. */
trawnosz_replied trawnosz_take_packet(trawnosz_exchanges table, const uint8_t *packet, size_t packet_length);

/* One tick of every place of both centres, each with its report. Refuses STATE. */
trawnosz_ticked trawnosz_tick(trawnosz_exchanges table);

/* ---- The device table. ---- */

/* The judge of a device table: per section CUT of the count, MANY, CUT, then ORDER (for parts ORDER, ORPHAN) of each entry;
 * TAIL last. A good one has 4 bytes, 2 for each system and 38 for each part: 60,932 at most. */
trawnosz_table trawnosz_judge_table(const uint8_t *table, size_t table_length);

/* Where the description of a part stands in a table. Refuses as the table's judge, then UNLISTED. */
trawnosz_found trawnosz_find_part(const uint8_t *table, size_t table_length, trawnosz_key key);

/* ---- Names. ---- */

/* Writes the name of a refusal, an event or an outcome, as these lists have it behind its family (ROOM, NOISE, CONFIRMED),
 * to the front of `out`, with no zero behind it; it stands from `from` to `to`. 0 is OK, also as an outcome; a number that
 * has no name is good, from 0 to 0, and nothing is written. Refuses ROOM (out shorter than the name). */
trawnosz_found trawnosz_name(uint8_t number, uint8_t *out, size_t out_length);

/* Writes the number of the archive's release in the same way. Refuses ROOM (out shorter than it). */
trawnosz_found trawnosz_release(uint8_t *out, size_t out_length);

/* ---- Stack: the bytes that a call needs at most, all that it calls included, beside its arguments, its answer and what memcpy,
 * memmove and memset need; read out of the archive's code by tests/stack. ----
 *
 *   trawnosz_answer_to                288
 *   trawnosz_begin_and_write          656
 *   trawnosz_exchanges_fresh          144
 *   trawnosz_find_description          96
 *   trawnosz_find_object               96
 *   trawnosz_find_part                 72
 *   trawnosz_find_unit                144
 *   trawnosz_fresh                     16
 *   trawnosz_judge_packet             128
 *   trawnosz_judge_table               48
 *   trawnosz_judge_unit                64
 *   trawnosz_judge_unit_under          64
 *   trawnosz_name                      40
 *   trawnosz_read_object              128
 *   trawnosz_read_packet              192
 *   trawnosz_receive                  184
 *   trawnosz_release                   16
 *   trawnosz_reply_answer             532
 *   trawnosz_reply_bad_answer         532
 *   trawnosz_reply_confirm            548
 *   trawnosz_reply_deny               532
 *   trawnosz_take_packet              820
 *   trawnosz_tick                     672
 *   trawnosz_unit_length                8
 *   trawnosz_write_object             176
 *   trawnosz_write_packet             176
 *   trawnosz_write_packet_object      192
 *   trawnosz_write_packet_text         56
 *   trawnosz_write_text                40
 */

/* ---- The layout that the archive was built for, each member of each struct: an error in one of these lines is another one. ---- */

#define TRAWNOSZ_LAYOUT(type, member, at) typedef char type##_##member##_layout[offsetof(type, member) == (at) ? 1 : -1]
#define TRAWNOSZ_LAYOUT_SIZE(type, size) typedef char type##_layout[sizeof(type) == (size) ? 1 : -1]

TRAWNOSZ_LAYOUT_SIZE(trawnosz_verdict, 16);
TRAWNOSZ_LAYOUT(trawnosz_verdict, number, 0);
TRAWNOSZ_LAYOUT(trawnosz_verdict, place, 8);
TRAWNOSZ_LAYOUT_SIZE(trawnosz_found, 32);
TRAWNOSZ_LAYOUT(trawnosz_found, verdict, 0);
TRAWNOSZ_LAYOUT(trawnosz_found, from, 16);
TRAWNOSZ_LAYOUT(trawnosz_found, to, 24);
TRAWNOSZ_LAYOUT_SIZE(trawnosz_label, 6);
TRAWNOSZ_LAYOUT(trawnosz_label, second, 0);
TRAWNOSZ_LAYOUT(trawnosz_label, minute, 1);
TRAWNOSZ_LAYOUT(trawnosz_label, hour, 2);
TRAWNOSZ_LAYOUT(trawnosz_label, day, 3);
TRAWNOSZ_LAYOUT(trawnosz_label, month, 4);
TRAWNOSZ_LAYOUT(trawnosz_label, year, 5);
TRAWNOSZ_LAYOUT_SIZE(trawnosz_header, 22);
TRAWNOSZ_LAYOUT(trawnosz_header, serial, 0);
TRAWNOSZ_LAYOUT(trawnosz_header, version, 2);
TRAWNOSZ_LAYOUT(trawnosz_header, label, 3);
TRAWNOSZ_LAYOUT(trawnosz_header, source, 9);
TRAWNOSZ_LAYOUT(trawnosz_header, destination, 15);
TRAWNOSZ_LAYOUT(trawnosz_header, command, 21);
TRAWNOSZ_LAYOUT_SIZE(trawnosz_draft, 14);
TRAWNOSZ_LAYOUT(trawnosz_draft, version, 0);
TRAWNOSZ_LAYOUT(trawnosz_draft, label, 1);
TRAWNOSZ_LAYOUT(trawnosz_draft, source, 7);
TRAWNOSZ_LAYOUT(trawnosz_draft, command, 13);
TRAWNOSZ_LAYOUT_SIZE(trawnosz_opened, 48);
TRAWNOSZ_LAYOUT(trawnosz_opened, verdict, 0);
TRAWNOSZ_LAYOUT(trawnosz_opened, header, 16);
TRAWNOSZ_LAYOUT(trawnosz_opened, shown, 38);
TRAWNOSZ_LAYOUT(trawnosz_opened, length, 40);
TRAWNOSZ_LAYOUT_SIZE(trawnosz_fields, 24);
TRAWNOSZ_LAYOUT(trawnosz_fields, kind, 0);
TRAWNOSZ_LAYOUT(trawnosz_fields, system, 1);
TRAWNOSZ_LAYOUT(trawnosz_fields, address, 2);
TRAWNOSZ_LAYOUT(trawnosz_fields, part, 3);
TRAWNOSZ_LAYOUT(trawnosz_fields, part_address, 4);
TRAWNOSZ_LAYOUT(trawnosz_fields, value, 8);
TRAWNOSZ_LAYOUT(trawnosz_fields, low, 10);
TRAWNOSZ_LAYOUT(trawnosz_fields, high, 11);
TRAWNOSZ_LAYOUT(trawnosz_fields, analogue, 12);
TRAWNOSZ_LAYOUT(trawnosz_fields, operation, 13);
TRAWNOSZ_LAYOUT(trawnosz_fields, operator_, 14);
TRAWNOSZ_LAYOUT(trawnosz_fields, state, 15);
TRAWNOSZ_LAYOUT(trawnosz_fields, main, 16);
TRAWNOSZ_LAYOUT(trawnosz_fields, minor, 17);
TRAWNOSZ_LAYOUT(trawnosz_fields, label, 18);
TRAWNOSZ_LAYOUT_SIZE(trawnosz_typed, 48);
TRAWNOSZ_LAYOUT(trawnosz_typed, verdict, 0);
TRAWNOSZ_LAYOUT(trawnosz_typed, fields, 16);
TRAWNOSZ_LAYOUT(trawnosz_typed, shown, 40);
TRAWNOSZ_LAYOUT_SIZE(trawnosz_served, 48);
TRAWNOSZ_LAYOUT(trawnosz_served, event, 0);
TRAWNOSZ_LAYOUT(trawnosz_served, length, 8);
TRAWNOSZ_LAYOUT(trawnosz_served, skipped, 16);
TRAWNOSZ_LAYOUT(trawnosz_served, taken, 24);
TRAWNOSZ_LAYOUT(trawnosz_served, held, 32);
TRAWNOSZ_LAYOUT(trawnosz_served, count, 40);
TRAWNOSZ_LAYOUT_SIZE(trawnosz_answer, 24);
TRAWNOSZ_LAYOUT(trawnosz_answer, verdict, 0);
TRAWNOSZ_LAYOUT(trawnosz_answer, command, 16);
TRAWNOSZ_LAYOUT_SIZE(trawnosz_exchange, 8);
TRAWNOSZ_LAYOUT(trawnosz_exchange, serial, 0);
TRAWNOSZ_LAYOUT(trawnosz_exchange, mode, 2);
TRAWNOSZ_LAYOUT(trawnosz_exchange, resends, 4);
TRAWNOSZ_LAYOUT(trawnosz_exchange, age, 6);
TRAWNOSZ_LAYOUT_SIZE(trawnosz_address, 6);
TRAWNOSZ_LAYOUT(trawnosz_address, bytes, 0);
TRAWNOSZ_LAYOUT_SIZE(trawnosz_centre, 8);
TRAWNOSZ_LAYOUT(trawnosz_centre, address, 0);
TRAWNOSZ_LAYOUT(trawnosz_centre, next, 6);
TRAWNOSZ_LAYOUT_SIZE(trawnosz_exchanges, 146);
TRAWNOSZ_LAYOUT(trawnosz_exchanges, places, 0);
TRAWNOSZ_LAYOUT(trawnosz_exchanges, centres, 128);
TRAWNOSZ_LAYOUT(trawnosz_exchanges, timeout, 144);
TRAWNOSZ_LAYOUT(trawnosz_exchanges, resends, 145);
TRAWNOSZ_LAYOUT_SIZE(trawnosz_made, 168);
TRAWNOSZ_LAYOUT(trawnosz_made, verdict, 0);
TRAWNOSZ_LAYOUT(trawnosz_made, state, 16);
TRAWNOSZ_LAYOUT_SIZE(trawnosz_begun, 184);
TRAWNOSZ_LAYOUT(trawnosz_begun, verdict, 0);
TRAWNOSZ_LAYOUT(trawnosz_begun, exchange_place, 16);
TRAWNOSZ_LAYOUT(trawnosz_begun, length, 24);
TRAWNOSZ_LAYOUT(trawnosz_begun, serial, 32);
TRAWNOSZ_LAYOUT(trawnosz_begun, state, 34);
TRAWNOSZ_LAYOUT_SIZE(trawnosz_replied, 176);
TRAWNOSZ_LAYOUT(trawnosz_replied, verdict, 0);
TRAWNOSZ_LAYOUT(trawnosz_replied, exchange_place, 16);
TRAWNOSZ_LAYOUT(trawnosz_replied, outcome, 24);
TRAWNOSZ_LAYOUT(trawnosz_replied, state, 26);
TRAWNOSZ_LAYOUT_SIZE(trawnosz_report, 4);
TRAWNOSZ_LAYOUT(trawnosz_report, outcome, 0);
TRAWNOSZ_LAYOUT(trawnosz_report, serial, 2);
TRAWNOSZ_LAYOUT_SIZE(trawnosz_ticked, 232);
TRAWNOSZ_LAYOUT(trawnosz_ticked, verdict, 0);
TRAWNOSZ_LAYOUT(trawnosz_ticked, reports, 16);
TRAWNOSZ_LAYOUT(trawnosz_ticked, state, 80);
TRAWNOSZ_LAYOUT_SIZE(trawnosz_table, 32);
TRAWNOSZ_LAYOUT(trawnosz_table, verdict, 0);
TRAWNOSZ_LAYOUT(trawnosz_table, systems, 16);
TRAWNOSZ_LAYOUT(trawnosz_table, parts, 24);
TRAWNOSZ_LAYOUT_SIZE(trawnosz_key, 8);
TRAWNOSZ_LAYOUT(trawnosz_key, system, 0);
TRAWNOSZ_LAYOUT(trawnosz_key, address, 1);
TRAWNOSZ_LAYOUT(trawnosz_key, part, 2);
TRAWNOSZ_LAYOUT(trawnosz_key, part_address, 4);

#undef TRAWNOSZ_LAYOUT_SIZE
#undef TRAWNOSZ_LAYOUT

#ifdef __cplusplus
}
#endif

#endif
