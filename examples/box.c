/*
 * A small box, in C99 or C++: takes bytes of the panel's line from standard input, replies to packets and answers requests,
 * sends events on to two centres, under serials of its own for each, sends them again as the exchange table says, and tells
 * a line for each thing that happened. It begins with an empty exchange table: what was open before it was started is
 * forgotten. In box.hex the second centre is silent: what was sent to it fails, and the first's exchanges go on as ever.
 * A panel without a clock has six zeros for a time: the box says so, sends them on as they came and never takes them for its
 * own clock. A centre's confirm may carry bytes: they end its exchange as an empty one does, and the box shows them as they are.
 * Of a report that is cut the box tells the object at which it ends, of one with bytes behind it LONG; both are denied.
 */
#include <stdio.h>
#include <string.h>

#include "trawnosz.h"

enum { TICK_BYTES = 80, TIMEOUT = 1, RESENDS = 1, UNIT_AT = 27, FRAME_BYTES = 30 };

/* A packet that may have to be sent again. */
typedef struct sent {
    uint8_t bytes[TRAWNOSZ_LONGEST_PACKET];
    size_t length;
} sent;

typedef struct box {
    uint8_t hold[TRAWNOSZ_LONGEST_PACKET];
    size_t held, count;
    trawnosz_exchanges table;
    sent kept[TRAWNOSZ_EXCHANGES]; /* what was sent, by the exchange's place, each centre's in its own eight */
    trawnosz_label clock;
} box;

/* Two systems, then three parts by their seven bytes, each with 31 bytes of description. */
static const char devices[] = "\2\0" "\1\1" "\1\2"
                              "\3\0"
                              "\1\1\50\1\0\0\0" "Reading room, north wall       "
                              "\1\1\50\2\0\0\0" "Stack 3, upper shelves         "
                              "\1\2\27\1\0\0\0" "Loading bay, manual call point ";

static void print_name(uint8_t number)
{
    uint8_t name[TRAWNOSZ_LONGEST_NAME];
    trawnosz_found found = trawnosz_name(number, name, sizeof name);
    printf("%.*s", (int)found.to, (const char *)name);
}

/* Of a unit that is cut, the first object that is not whole is told too, so that one can look for it in the panel. */
static void print_verdict(trawnosz_verdict verdict)
{
    print_name(verdict.number);
    if (verdict.number == TRAWNOSZ_REFUSED_SHORT)
        printf(" at object %zu", verdict.place);
}

/* A line on an exchange names its centre first, since both centres may have one serial open. */
static void print_centre(size_t centre)
{
    printf("  %s centre, ", centre == TRAWNOSZ_CENTRE_FIRST ? "first" : "second");
}

static void print_bytes(const char *what, const uint8_t *bytes, size_t n)
{
    printf("  %s", what);
    for (size_t i = 0; i < n; i++)
        printf(" %02X", bytes[i]);
    putchar('\n');
}

/* Ends the line on what was read from a sender without a clock, so that nobody looks for its time. */
static void print_no_time(uint8_t shown)
{
    if (shown == TRAWNOSZ_SHOWN_NO_TIME)
        fputs(", no time", stdout);
}

/* Tells the part that an object of type 2 speaks of. */
static void print_part(trawnosz_typed object)
{
    trawnosz_fields fields = object.fields;
    trawnosz_key key = {fields.system, fields.address, fields.part, fields.part_address};
    trawnosz_found found = trawnosz_find_part((const uint8_t *)devices, sizeof devices - 1, key);
    printf("  state %02X %02X of part %u.%u.%u: ", fields.low, fields.high, key.system, key.address, key.part);
    while (found.to > found.from && devices[found.to - 1] == ' ')
        found.to--;
    if (found.verdict.number)
        print_name(found.verdict.number);
    else
        printf("%.*s", (int)(found.to - found.from), devices + found.from);
    print_no_time(object.shown);
    putchar('\n');
}

static void print_parts(const uint8_t *unit, size_t length)
{
    for (size_t i = 0; i < unit[1]; i++)
        print_part(trawnosz_read_object(unit, length, i));
}

/* Sends a panel's unit on to a centre; the packet is kept, to be sent again, at the place that only the call tells. */
static void forward(box *b, uint8_t centre, const uint8_t *unit, size_t length)
{
    uint8_t out[TRAWNOSZ_LONGEST_PACKET];
    trawnosz_draft draft = {0, b->clock, {2}, TRAWNOSZ_COMMAND_SEND};
    memcpy(out + UNIT_AT, unit, length);
    trawnosz_begun begun = trawnosz_begin_and_write(b->table, centre, out, sizeof out, draft, length);
    b->table = begun.state;
    if (begun.verdict.number) {
        print_centre(centre);
        fputs("not sent: ", stdout);
        print_verdict(begun.verdict);
        putchar('\n');
        return;
    }
    sent *kept = &b->kept[begun.exchange_place];
    memcpy(kept->bytes, out, begun.length);
    kept->length = begun.length;
    print_bytes("sent", kept->bytes, kept->length);
}

/* Each centre gets a packet of its own, so that where one has no place free the other is still told. */
static void forward_to_both(box *b, const uint8_t *unit, size_t length)
{
    for (uint8_t centre = 0; centre < TRAWNOSZ_CENTRES; centre++)
        forward(b, centre, unit, length);
}

/* Answers a request for the states of systems: each that was asked for is in order. */
static void answer(box *b, const trawnosz_header *asked, const uint8_t *unit, size_t length)
{
    uint8_t out[TRAWNOSZ_LONGEST_PACKET];
    uint8_t n = unit[1];
    size_t size = trawnosz_unit_length(TRAWNOSZ_TYPE_SYSTEM_STATE, n);
    trawnosz_header header = *asked;
    memcpy(header.source, asked->destination, sizeof header.source);
    memcpy(header.destination, asked->source, sizeof header.destination);
    header.label = b->clock;
    header.command = TRAWNOSZ_COMMAND_ANSWER;
    out[UNIT_AT] = TRAWNOSZ_TYPE_SYSTEM_STATE;
    out[UNIT_AT + 1] = n;
    for (size_t i = 0; i < n; i++) {
        trawnosz_fields fields = trawnosz_read_object(unit, length, i).fields;
        fields.kind = TRAWNOSZ_TYPE_SYSTEM_STATE;
        fields.low = 1;
        fields.label = b->clock;
        trawnosz_write_packet_object(out, sizeof out, size, i, fields, NULL, 0);
    }
    if (trawnosz_write_packet(out, sizeof out, header, size).number == TRAWNOSZ_OK)
        print_bytes("answer", out, FRAME_BYTES + size);
}

/* What became of an exchange, whose place says which centre it is with; where it is to be sent again, the packet that was
 * kept goes out as it was. */
static void on_outcome(const box *b, size_t exchange_place, uint8_t outcome)
{
    const sent *kept = &b->kept[exchange_place];
    if (outcome == TRAWNOSZ_OUTCOME_NOTHING)
        return;
    print_centre(exchange_place / TRAWNOSZ_CENTRE_EXCHANGES);
    printf("serial %u: ", kept->bytes[2] | kept->bytes[3] << 8);
    print_name(outcome);
    putchar('\n');
    if (outcome == TRAWNOSZ_OUTCOME_RESENT)
        print_bytes("sent", kept->bytes, kept->length);
}

/* Sets the clock by a control's object only where its label is a time: six zeros are good too, but no time to set it to. */
static void set_clock(box *b, const uint8_t *unit, size_t length)
{
    trawnosz_typed object = trawnosz_read_object(unit, length, 0);
    if (object.shown == TRAWNOSZ_SHOWN_TIME) {
        b->clock = object.fields.label;
        fputs("  clock set to", stdout);
    } else {
        fputs("  no time given, clock stays at", stdout);
    }
    printf(" %02u:%02u:%02u\n", b->clock.hour, b->clock.minute, b->clock.second);
}

/* What a good packet brings. A confirm's or deny's bytes are no unit, so no call on units or objects is given them. */
static void act(box *b, const uint8_t *packet, size_t length, const trawnosz_header *header)
{
    trawnosz_found found = trawnosz_find_unit(packet, length);
    const uint8_t *unit = packet + found.from;
    size_t unit_length = found.to - found.from;
    switch (header->command) {
    case TRAWNOSZ_COMMAND_CONTROL:
        set_clock(b, unit, unit_length);
        break;
    case TRAWNOSZ_COMMAND_SEND:
        if (unit[0] == TRAWNOSZ_TYPE_PART_STATE)
            print_parts(unit, unit_length);
        forward_to_both(b, unit, unit_length);
        break;
    case TRAWNOSZ_COMMAND_REQUEST:
        if (unit[0] == TRAWNOSZ_TYPE_READ_SYSTEM_STATE)
            answer(b, header, unit, unit_length);
        break;
    case TRAWNOSZ_COMMAND_CONFIRM:
    case TRAWNOSZ_COMMAND_DENY:
        if (unit_length > 0)
            print_bytes("it carries", unit, unit_length);
        break;
    }
}

/* Where the packet is a reply, good or a refused answer, the exchange that it fits takes its step; by its source the table
 * knows which centre it is from. */
static void take(box *b, const uint8_t *packet, size_t length)
{
    trawnosz_replied replied = trawnosz_take_packet(b->table, packet, length);
    b->table = replied.state;
    if (replied.verdict.number == TRAWNOSZ_REFUSED_STRAY)
        puts("  no exchange fits");
    on_outcome(b, replied.exchange_place, replied.outcome);
}

static void on_packet(box *b, const uint8_t *packet, const trawnosz_served *served)
{
    uint8_t out[TRAWNOSZ_REPLY_BYTES];
    trawnosz_opened opened = trawnosz_read_packet(packet, served->length);
    printf("%zu skipped, packet of %zu bytes, command %u: ", served->skipped, served->length, packet[26]);
    print_verdict(opened.verdict);
    print_no_time(opened.shown);
    putchar('\n');
    trawnosz_answer due = trawnosz_answer_to(packet, served->length, b->clock, out, sizeof out);
    if (due.command)
        print_bytes(due.command == TRAWNOSZ_COMMAND_CONFIRM ? "confirm" : "deny", out, sizeof out);
    take(b, packet, served->length);
    if (opened.verdict.number == TRAWNOSZ_OK)
        act(b, packet, served->length, &opened.header);
}

static void on_event(box *b, const uint8_t *packet, const trawnosz_served *served)
{
    if (served->event == TRAWNOSZ_EVENT_MORE)
        return;
    if (served->event == TRAWNOSZ_EVENT_PACKET) {
        on_packet(b, packet, served);
        return;
    }
    printf("%zu skipped, ", served->skipped);
    print_name(served->event);
    putchar('\n');
}

/* Offers a piece, then what was not yet taken of it, until the receiver asks for more or refuses. */
static void on_piece(box *b, const uint8_t *piece, size_t n)
{
    uint8_t packet[TRAWNOSZ_LONGEST_PACKET];
    trawnosz_served served;
    do {
        served = trawnosz_receive(b->hold, b->held, b->count, piece, n, packet, sizeof packet);
        b->held = served.held;
        b->count = served.count;
        piece += served.taken;
        n -= served.taken;
        on_event(b, packet, &served);
    } while (served.event != TRAWNOSZ_EVENT_MORE && served.event != TRAWNOSZ_REFUSED_STATE
             && served.event != TRAWNOSZ_REFUSED_ROOM);
}

static void on_tick(box *b)
{
    trawnosz_ticked ticked = trawnosz_tick(b->table);
    b->table = ticked.state;
    puts("tick");
    for (size_t i = 0; i < TRAWNOSZ_EXCHANGES; i++)
        on_outcome(b, i, ticked.reports[i].outcome);
}

int main(void)
{
    static const size_t sizes[] = {1, 2, 3, 5, 7, 11, 13};
    static const trawnosz_label noon = {0, 0, 12, 1, 1, 25};
    static const trawnosz_address first = {{3}}, second = {{4}};
    static box b;
    uint8_t piece[13];
    size_t n, total = 0, ticks = 0;
    trawnosz_fresh(b.hold);
    b.table = trawnosz_exchanges_fresh(TIMEOUT, RESENDS, first, second).state;
    b.clock = noon;
    for (size_t i = 0; (n = fread(piece, 1, sizes[i % 7], stdin)) > 0; i++) {
        on_piece(&b, piece, n);
        total += n;
        for (; ticks < total / TICK_BYTES; ticks++)
            on_tick(&b);
    }
    printf("held %zu skipped %zu\n", b.held, b.count);
    return 0;
}
