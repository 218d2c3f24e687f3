/* The exchange table, with none, some and all of the places of each centre open. */
#include "bench.h"

/* The source addresses of replies: those of the two centres, and one that neither has. */
static const trawnosz_address from_first = {{1}}, from_second = {{2}}, from_neither = {{3}};

static trawnosz_exchanges ours, plain;

static void same_centres(void)
{
    for (size_t i = 0; i < TRAWNOSZ_CENTRES; i++) {
        const trawnosz_centre *a = &ours.centres[i], *b = &plain.centres[i];
        agree(a->next == b->next && memcmp(a->address.bytes, b->address.bytes, sizeof a->address.bytes) == 0);
    }
}

static void same_tables(void)
{
    agree(ours.timeout == plain.timeout && ours.resends == plain.resends);
    same_centres();
    for (size_t i = 0; i < TRAWNOSZ_EXCHANGES; i++) {
        const trawnosz_exchange *a = &ours.places[i], *b = &plain.places[i];
        agree(a->serial == b->serial && a->mode == b->mode && a->resends == b->resends && a->age == b->age);
    }
}

/* A centre with its first `open` places open under serials from 0, and the given age. */
static void set_centre(uint8_t centre, trawnosz_address address, size_t open, uint8_t age)
{
    trawnosz_exchange *places = &plain.places[centre * TRAWNOSZ_CENTRE_EXCHANGES];
    plain.centres[centre].address = address;
    plain.centres[centre].next = (uint16_t)open;
    for (size_t i = 0; i < open; i++) {
        places[i].serial = (uint16_t)i;
        places[i].mode = i % 2 ? TRAWNOSZ_MODE_REQUEST : TRAWNOSZ_MODE_SEND;
        places[i].age = age;
    }
}

/* Both tables with so many places of the first and of the second centre open. */
static void set(size_t first, size_t second, uint8_t resends, uint8_t age)
{
    memset(&plain, 0, sizeof plain);
    plain.timeout = 10;
    plain.resends = resends;
    set_centre(TRAWNOSZ_CENTRE_FIRST, from_first, first, age);
    set_centre(TRAWNOSZ_CENTRE_SECOND, from_second, second, age);
    ours = plain;
}

static void fresh(void)
{
    unsigned number = row("exchanges_fresh", 0, NOT_ABOVE_TWIN);
    trawnosz_made made;
    trawnosz_verdict verdict;
    MEASURE(REGION(number, OURS), made = trawnosz_exchanges_fresh(10, 3, from_first, from_second); ours = made.state);
    MEASURE(REGION(number, PLAIN), verdict = twin_exchanges_fresh(&plain, 10, 3, from_first.bytes, from_second.bytes));
    agree(same_verdict(made.verdict, verdict));
    same_tables();
}

static uint8_t out[2][TRAWNOSZ_LONGEST_PACKET];

/* A unit of n objects in both outputs, where a packet has it. */
static size_t units(uint8_t type, uint8_t n, size_t size)
{
    memset(out, 0, sizeof out);
    make_unit(out[0] + 27, type, n, size);
    return make_unit(out[1] + 27, type, n, size);
}

static void begin_and_write(const char *name, uint8_t centre, uint8_t command, size_t length)
{
    unsigned number = row(name, 30 + length, NOT_ABOVE_TWIN);
    trawnosz_draft draft = {0, sample_label, {4}, command};
    trawnosz_begun a;
    twin_begun b;
    MEASURE(REGION(number, OURS), a = trawnosz_begin_and_write(ours, centre, out[0], sizeof out[0], draft, length);
            ours = a.state);
    MEASURE(REGION(number, PLAIN), b = twin_begin_and_write(&plain, centre, out[1], sizeof out[1], &draft, length));
    agree(same_verdict(a.verdict, b.verdict) && a.exchange_place == b.place && a.serial == b.serial && a.length == b.length);
    agree(memcmp(out[0], out[1], sizeof out[0]) == 0);
    same_tables();
}

/* A send of 39 bytes to a centre, with so many places of each open. */
static void begin_send(const char *name, uint8_t centre, size_t first, size_t second)
{
    set(first, second, 3, 0);
    begin_and_write(name, centre, TRAWNOSZ_COMMAND_SEND, units(21, 1, 7));
}

/* The same after the serials have come round, so that those from the next one on are open. */
static void begin_past(const char *name, uint8_t centre, size_t first, size_t second)
{
    set(first, second, 3, 0);
    for (size_t i = 0; i < TRAWNOSZ_CENTRES; i++)
        plain.centres[i].next = ours.centres[i].next = 0;
    begin_and_write(name, centre, TRAWNOSZ_COMMAND_SEND, units(21, 1, 7));
}

typedef trawnosz_replied library_reply(trawnosz_exchanges, trawnosz_address, uint16_t);
typedef twin_replied twin_reply(trawnosz_exchanges *, const uint8_t *, uint16_t);

static void reply(const char *name, library_reply *library, twin_reply *twin, trawnosz_address source, uint16_t serial)
{
    unsigned number = row(name, 0, NOT_ABOVE_TWIN);
    trawnosz_replied a;
    twin_replied b;
    MEASURE(REGION(number, OURS), a = library(ours, source, serial); ours = a.state);
    MEASURE(REGION(number, PLAIN), b = twin(&plain, source.bytes, serial));
    agree(same_verdict(a.verdict, b.verdict) && a.exchange_place == b.place && a.outcome == b.outcome);
    same_tables();
}

static uint8_t packet[TRAWNOSZ_LONGEST_PACKET];

/* Puts another byte into the packet around a unit, and what it is more into the sum. */
static void replace(size_t unit, size_t at, uint8_t byte)
{
    packet[27 + unit] += (uint8_t)(byte - packet[at]);
    packet[at] = byte;
}

/* A packet from the given address, under a serial and a main version. */
static size_t reply_packet(uint8_t command, size_t unit, trawnosz_address source, uint8_t serial, uint8_t version)
{
    size_t length = make_packet(packet, command, unit);
    for (size_t i = 0; i < sizeof source.bytes; i++)
        replace(unit, 12 + i, source.bytes[i]);
    replace(unit, 2, serial);
    replace(unit, 4, version);
    return length;
}

static void take(const char *name, size_t length)
{
    unsigned number = row(name, length, NOT_ABOVE_TWIN);
    trawnosz_replied a;
    twin_replied b;
    set(8, 8, 3, 0);
    MEASURE(REGION(number, OURS), a = trawnosz_take_packet(ours, packet, length); ours = a.state);
    MEASURE(REGION(number, PLAIN), b = twin_take_packet(&plain, packet, length));
    agree(same_verdict(a.verdict, b.verdict) && a.exchange_place == b.place && a.outcome == b.outcome);
    same_tables();
}

static void tick(const char *name)
{
    unsigned number = row(name, 0, NOT_ABOVE_TWIN);
    trawnosz_ticked a;
    trawnosz_verdict b;
    trawnosz_report reports[TRAWNOSZ_EXCHANGES];
    MEASURE(REGION(number, OURS), a = trawnosz_tick(ours); ours = a.state);
    MEASURE(REGION(number, PLAIN), b = twin_tick(&plain, reports));
    agree(same_verdict(a.verdict, b));
    for (size_t i = 0; i < TRAWNOSZ_EXCHANGES; i++)
        agree(a.reports[i].outcome == reports[i].outcome && a.reports[i].serial == reports[i].serial);
    same_tables();
}

static void bench_begin_sends(void)
{
    begin_send("begin_and_write: 39 bytes, first centre, empty table", TRAWNOSZ_CENTRE_FIRST, 0, 0);
    begin_send("begin_and_write: 39 bytes, second centre, empty table", TRAWNOSZ_CENTRE_SECOND, 0, 0);
    begin_send("begin_and_write: 39 bytes, first centre, 4 + 4 open", TRAWNOSZ_CENTRE_FIRST, 4, 4);
    begin_send("begin_and_write: 39 bytes, second centre, 4 + 4 open", TRAWNOSZ_CENTRE_SECOND, 4, 4);
    begin_send("begin_and_write: 39 bytes, first centre, 7 + 7 open", TRAWNOSZ_CENTRE_FIRST, 7, 7);
    begin_send("begin_and_write: 39 bytes, second centre, 7 + 7 open", TRAWNOSZ_CENTRE_SECOND, 7, 7);
    begin_past("begin_and_write: 39 bytes, first centre, 7 + 7 open, the next 7 serials", TRAWNOSZ_CENTRE_FIRST, 7, 7);
    begin_past("begin_and_write: 39 bytes, second centre, 7 + 7 open, the next 7 serials", TRAWNOSZ_CENTRE_SECOND, 7, 7);
}

/* Packets other than a send of 39 bytes. */
static void bench_begin_others(void)
{
    set(7, 7, 3, 0);
    size_t request = units(61, 1, 2);
    out[0][30] = out[1][30] = 2;
    begin_and_write("begin_and_write: 34 bytes, a request, second centre, 7 + 7 open", TRAWNOSZ_CENTRE_SECOND,
                    TRAWNOSZ_COMMAND_REQUEST, request);
    set(4, 4, 3, 0);
    begin_and_write("begin_and_write: 542 bytes, second centre, 4 + 4 open", TRAWNOSZ_CENTRE_SECOND, TRAWNOSZ_COMMAND_SEND,
                    units(1, 51, 10));
    set(4, 4, 3, 0);
    begin_and_write("begin_and_write: 1,052 bytes, second centre, 4 + 4 open", TRAWNOSZ_CENTRE_SECOND, TRAWNOSZ_COMMAND_SEND,
                    units(1, 102, 10));
    set(0, 0, 3, 0);
    begin_and_write("begin_and_write: 38 bytes, type 90 in a send, refused", TRAWNOSZ_CENTRE_FIRST, TRAWNOSZ_COMMAND_SEND,
                    units(90, 1, 6));
}

/* FULL while the other centre has none open and where all are, and CENTRE. */
static void bench_begin_refused(void)
{
    begin_send("begin_and_write: first centre, 8 + 0 open, refused", TRAWNOSZ_CENTRE_FIRST, 8, 0);
    begin_send("begin_and_write: second centre, 0 + 8 open, refused", TRAWNOSZ_CENTRE_SECOND, 0, 8);
    begin_send("begin_and_write: first centre, full table, refused", TRAWNOSZ_CENTRE_FIRST, 8, 8);
    begin_send("begin_and_write: second centre, full table, refused", TRAWNOSZ_CENTRE_SECOND, 8, 8);
    begin_send("begin_and_write: a centre 2, empty table, refused", TRAWNOSZ_CENTRES, 0, 0);
    begin_send("begin_and_write: a centre 2, full table, refused", TRAWNOSZ_CENTRES, 8, 8);
}

/* Both tables full, each centre's serials sixteen apart: they leave one mark, so that each is looked for among the others. */
static void set_apart(void)
{
    set(8, 8, 3, 0);
    for (size_t i = 0; i < TRAWNOSZ_EXCHANGES; i++)
        plain.places[i].serial *= 16;
    ours = plain;
}

static void bench_deny(void)
{
    set(0, 0, 3, 0);
    reply("reply_deny: empty table, refused", trawnosz_reply_deny, twin_reply_deny, from_first, 0);
    set(4, 4, 3, 0);
    reply("reply_deny: 4 + 4 open, place 11, resent", trawnosz_reply_deny, twin_reply_deny, from_second, 3);
    set(8, 8, 3, 0);
    reply("reply_deny: full table, first place, resent", trawnosz_reply_deny, twin_reply_deny, from_first, 0);
    set(8, 8, 3, 0);
    reply("reply_deny: full table, last place, resent", trawnosz_reply_deny, twin_reply_deny, from_second, 7);
    set(8, 8, 0, 0);
    reply("reply_deny: full table, last place, failed", trawnosz_reply_deny, twin_reply_deny, from_second, 7);
    set_apart();
    reply("reply_deny: full table, serials 16 apart, last place, resent", trawnosz_reply_deny, twin_reply_deny, from_second, 7 * 16);
    set(8, 8, 3, 0);
    reply("reply_deny: full table, from neither centre, refused", trawnosz_reply_deny, twin_reply_deny, from_neither, 7);
}

static void bench_reply(void)
{
    bench_deny();
    set(8, 8, 3, 0);
    reply("reply_confirm: full table, place 14", trawnosz_reply_confirm, twin_reply_confirm, from_second, 6);
    set(8, 8, 3, 0);
    reply("reply_answer: full table, last place", trawnosz_reply_answer, twin_reply_answer, from_second, 7);
    set(8, 8, 3, 0);
    reply("reply_bad_answer: full table, last place", trawnosz_reply_bad_answer, twin_reply_bad_answer, from_second, 7);
}

static void bench_take(void)
{
    take("take_packet: a confirm, place 14", reply_packet(TRAWNOSZ_COMMAND_CONFIRM, 0, from_second, 6, 1));
    take("take_packet: 1,054 bytes, a confirm with 1,024, place 14",
         reply_packet(TRAWNOSZ_COMMAND_CONFIRM, TRAWNOSZ_LONGEST_UNIT, from_second, 6, 1));
    take("take_packet: a deny, last place, resent", reply_packet(TRAWNOSZ_COMMAND_DENY, 0, from_second, 7, 1));
    take("take_packet: a deny from neither centre, refused", reply_packet(TRAWNOSZ_COMMAND_DENY, 0, from_neither, 7, 1));
    take("take_packet: 542 bytes, an answer, last place",
         reply_packet(TRAWNOSZ_COMMAND_ANSWER, make_unit(packet + 27, 1, 51, 10), from_second, 7, 1));
    take("take_packet: 1,052 bytes, an answer, last place",
         reply_packet(TRAWNOSZ_COMMAND_ANSWER, make_unit(packet + 27, 1, 102, 10), from_second, 7, 1));
    take("take_packet: 542 bytes of version 2, a bad answer",
         reply_packet(TRAWNOSZ_COMMAND_ANSWER, make_unit(packet + 27, 1, 51, 10), from_second, 7, 2));
    take("take_packet: 30 bytes of version 2, a confirm, refused",
         reply_packet(TRAWNOSZ_COMMAND_CONFIRM, 0, from_second, 6, 2));
    take("take_packet: 39 bytes, a send, nothing told",
         reply_packet(TRAWNOSZ_COMMAND_SEND, make_unit(packet + 27, 21, 1, 7), from_second, 7, 1));
}

static void bench_tick(void)
{
    set(0, 0, 3, 0);
    tick("tick: empty table");
    set(8, 0, 3, 0);
    tick("tick: 8 + 0 open");
    set(4, 4, 3, 0);
    tick("tick: 4 + 4 open");
    set(8, 8, 3, 0);
    tick("tick: full table");
    set(8, 8, 3, 9);
    tick("tick: full table, all resent");
    set(8, 8, 0, 9);
    tick("tick: full table, all failed");
}

void bench_exchanges(void)
{
    section("Exchange table");
    fresh();
    bench_begin_sends();
    bench_begin_others();
    bench_begin_refused();
    bench_reply();
    bench_take();
    bench_tick();
}
