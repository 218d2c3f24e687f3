/* The plain twin's exchange table. */
#include <string.h>

#include "twin.h"

enum { AROUND_UNIT = 30, SOURCE_AT = 12, ADDRESS_BYTES = 6 };

static trawnosz_verdict refused(uint8_t number)
{
    trawnosz_verdict verdict = {number, 0};
    return verdict;
}

static int place_bad(const trawnosz_exchanges *table, const trawnosz_exchange *place)
{
    if (place->mode == TRAWNOSZ_MODE_FREE)
        return place->serial || place->resends || place->age;
    return place->mode > TRAWNOSZ_MODE_REQUEST || place->age >= table->timeout || place->resends > table->resends;
}

/* A serial is open in one of the places from `from` on, before `to`. */
static int is_open(const trawnosz_exchanges *table, size_t from, size_t to, uint16_t serial)
{
    for (size_t i = from; i < to; i++)
        if (table->places[i].mode != TRAWNOSZ_MODE_FREE && table->places[i].serial == serial)
            return 1;
    return 0;
}

/* A reply is told by its source whose it is, so that the two addresses differ. */
static int setting_bad(uint8_t timeout, uint8_t resends, const uint8_t *first, const uint8_t *second)
{
    return timeout < 1 || timeout > TRAWNOSZ_LONGEST_TIMEOUT || resends > TRAWNOSZ_MOST_RESENDS
           || memcmp(first, second, ADDRESS_BYTES) == 0;
}

/* A serial may be open once in each centre, so that a place is compared with those before it of its own centre. */
static int state_bad(const trawnosz_exchanges *table)
{
    if (setting_bad(table->timeout, table->resends, table->centres[TRAWNOSZ_CENTRE_FIRST].address.bytes,
                    table->centres[TRAWNOSZ_CENTRE_SECOND].address.bytes))
        return 1;
    for (size_t i = 0; i < TRAWNOSZ_EXCHANGES; i++) {
        const trawnosz_exchange *place = &table->places[i];
        size_t first = i - i % TRAWNOSZ_CENTRE_EXCHANGES;
        if (place_bad(table, place))
            return 1;
        if (place->mode != TRAWNOSZ_MODE_FREE && is_open(table, first, i, place->serial))
            return 1;
    }
    return 0;
}

trawnosz_verdict twin_exchanges_fresh(trawnosz_exchanges *table, uint8_t timeout, uint8_t resends, const uint8_t first[6],
                                      const uint8_t second[6])
{
    memset(table, 0, sizeof *table);
    if (setting_bad(timeout, resends, first, second))
        return refused(TRAWNOSZ_REFUSED_SETTING);
    memcpy(table->centres[TRAWNOSZ_CENTRE_FIRST].address.bytes, first, ADDRESS_BYTES);
    memcpy(table->centres[TRAWNOSZ_CENTRE_SECOND].address.bytes, second, ADDRESS_BYTES);
    table->timeout = timeout;
    table->resends = resends;
    return refused(TRAWNOSZ_OK);
}

/* The mode that an exchange begins in under a command; FREE where the command begins none. */
static uint8_t mode_of(uint8_t command)
{
    switch (command) {
    case TRAWNOSZ_COMMAND_CONTROL:
    case TRAWNOSZ_COMMAND_SEND:
        return TRAWNOSZ_MODE_SEND;
    case TRAWNOSZ_COMMAND_REQUEST:
        return TRAWNOSZ_MODE_REQUEST;
    default:
        return TRAWNOSZ_MODE_FREE;
    }
}

/* A command that begins nothing is made 0, so that the packet's writer refuses it in its turn, after LENGTH and ROOM. */
static trawnosz_header header_of(const trawnosz_draft *draft, const trawnosz_centre *centre, uint16_t serial, uint8_t mode)
{
    trawnosz_header header = {serial, draft->version, draft->label, {0}, {0}, 0};
    memcpy(header.source, draft->source, sizeof header.source);
    memcpy(header.destination, centre->address.bytes, sizeof header.destination);
    if (mode != TRAWNOSZ_MODE_FREE)
        header.command = draft->command;
    return header;
}

/* STATE and CENTRE, before a centre's own places can be looked at. */
static uint8_t judge_begin(const trawnosz_exchanges *table, uint8_t centre)
{
    if (state_bad(table))
        return TRAWNOSZ_REFUSED_STATE;
    return centre >= TRAWNOSZ_CENTRES ? TRAWNOSZ_REFUSED_CENTRE : TRAWNOSZ_OK;
}

twin_begun twin_begin_and_write(trawnosz_exchanges *table, uint8_t centre, uint8_t *out, size_t out_length,
                                const trawnosz_draft *draft, size_t length)
{
    twin_begun begun = {refused(judge_begin(table, centre)), 0, 0, 0};
    if (begun.verdict.number)
        return begun;
    size_t first = centre * TRAWNOSZ_CENTRE_EXCHANGES, end = first + TRAWNOSZ_CENTRE_EXCHANGES;
    size_t i = first;
    while (i < end && table->places[i].mode != TRAWNOSZ_MODE_FREE)
        i++;
    if (i == end) {
        begun.verdict.number = TRAWNOSZ_REFUSED_FULL;
        return begun;
    }
    uint16_t serial = table->centres[centre].next;
    while (is_open(table, first, end, serial))
        serial++;
    uint8_t mode = mode_of(draft->command);
    trawnosz_header header = header_of(draft, &table->centres[centre], serial, mode);
    begun.verdict = twin_write_packet(out, out_length, &header, length);
    if (begun.verdict.number)
        return begun;
    table->places[i].serial = serial;
    table->places[i].mode = mode;
    table->centres[centre].next = (uint16_t)(serial + 1);
    begun.place = i;
    begun.length = AROUND_UNIT + length;
    begun.serial = serial;
    return begun;
}

static void set_free(trawnosz_exchange *place)
{
    memset(place, 0, sizeof *place);
}

/* Sends again or gives up. */
static uint8_t again(const trawnosz_exchanges *table, trawnosz_exchange *place)
{
    if (place->resends < table->resends) {
        place->resends++;
        place->age = 0;
        return TRAWNOSZ_OUTCOME_RESENT;
    }
    set_free(place);
    return TRAWNOSZ_OUTCOME_FAILED;
}

/* The centre that has an address; TRAWNOSZ_CENTRES where neither has it. */
static size_t centre_of(const trawnosz_exchanges *table, const uint8_t *address)
{
    size_t centre = 0;
    while (centre < TRAWNOSZ_CENTRES && memcmp(table->centres[centre].address.bytes, address, ADDRESS_BYTES) != 0)
        centre++;
    return centre;
}

/* The open place of a serial, within the source's centre, whose mode is among `modes`, a bit for each; TRAWNOSZ_EXCHANGES
 * where there is none. */
static size_t fitting(const trawnosz_exchanges *table, const uint8_t *source, uint16_t serial, unsigned modes)
{
    size_t centre = centre_of(table, source);
    if (centre == TRAWNOSZ_CENTRES)
        return TRAWNOSZ_EXCHANGES;
    size_t first = centre * TRAWNOSZ_CENTRE_EXCHANGES;
    for (size_t i = first; i < first + TRAWNOSZ_CENTRE_EXCHANGES; i++)
        if (table->places[i].serial == serial && (modes >> table->places[i].mode & 1))
            return i;
    return TRAWNOSZ_EXCHANGES;
}

/* A reply with an outcome of its own ends the exchange that it fits; one without sends it again or gives it up. */
static twin_replied reply(trawnosz_exchanges *table, const uint8_t *source, uint16_t serial, unsigned modes, uint8_t ended)
{
    twin_replied replied = {refused(TRAWNOSZ_OK), 0, TRAWNOSZ_OUTCOME_NOTHING};
    if (state_bad(table)) {
        replied.verdict.number = TRAWNOSZ_REFUSED_STATE;
        return replied;
    }
    size_t i = fitting(table, source, serial, modes);
    if (i == TRAWNOSZ_EXCHANGES) {
        replied.verdict.number = TRAWNOSZ_REFUSED_STRAY;
        return replied;
    }
    replied.place = i;
    replied.outcome = ended;
    if (ended)
        set_free(&table->places[i]);
    else
        replied.outcome = again(table, &table->places[i]);
    return replied;
}

twin_replied twin_reply_confirm(trawnosz_exchanges *table, const uint8_t source[6], uint16_t serial)
{
    return reply(table, source, serial, 1u << TRAWNOSZ_MODE_SEND, TRAWNOSZ_OUTCOME_CONFIRMED);
}

twin_replied twin_reply_answer(trawnosz_exchanges *table, const uint8_t source[6], uint16_t serial)
{
    return reply(table, source, serial, 1u << TRAWNOSZ_MODE_REQUEST, TRAWNOSZ_OUTCOME_ANSWERED);
}

twin_replied twin_reply_deny(trawnosz_exchanges *table, const uint8_t source[6], uint16_t serial)
{
    return reply(table, source, serial, 1u << TRAWNOSZ_MODE_SEND | 1u << TRAWNOSZ_MODE_REQUEST, TRAWNOSZ_OUTCOME_NOTHING);
}

twin_replied twin_reply_bad_answer(trawnosz_exchanges *table, const uint8_t source[6], uint16_t serial)
{
    return reply(table, source, serial, 1u << TRAWNOSZ_MODE_REQUEST, TRAWNOSZ_OUTCOME_NOTHING);
}

/* The numbers below VERSION are those of the tests before it. */
twin_replied twin_take_packet(trawnosz_exchanges *table, const uint8_t *packet, size_t packet_length)
{
    twin_replied other = {twin_judge_packet(packet, packet_length), 0, TRAWNOSZ_OUTCOME_NOTHING};
    uint8_t number = other.verdict.number;
    if (number && number < TRAWNOSZ_REFUSED_VERSION)
        return other;
    uint16_t serial = (uint16_t)(packet[2] | packet[3] << 8);
    const uint8_t *source = packet + SOURCE_AT;
    if (packet[26] == TRAWNOSZ_COMMAND_ANSWER)
        return number ? twin_reply_bad_answer(table, source, serial) : twin_reply_answer(table, source, serial);
    if (!number && packet[26] == TRAWNOSZ_COMMAND_CONFIRM)
        return twin_reply_confirm(table, source, serial);
    if (!number && packet[26] == TRAWNOSZ_COMMAND_DENY)
        return twin_reply_deny(table, source, serial);
    return other;
}

trawnosz_verdict twin_tick(trawnosz_exchanges *table, trawnosz_report reports[TRAWNOSZ_EXCHANGES])
{
    memset(reports, 0, TRAWNOSZ_EXCHANGES * sizeof *reports);
    if (state_bad(table))
        return refused(TRAWNOSZ_REFUSED_STATE);
    for (size_t i = 0; i < TRAWNOSZ_EXCHANGES; i++) {
        trawnosz_exchange *place = &table->places[i];
        reports[i].serial = place->serial;
        if (place->mode != TRAWNOSZ_MODE_FREE && ++place->age >= table->timeout)
            reports[i].outcome = again(table, place);
    }
    return refused(TRAWNOSZ_OK);
}
