/* The receiver: the reading over the held bytes, to which bytes of the piece are added one by one. */
#include "independent.h"

#include <stdlib.h>
#include <string.h>

void ind_fresh_hold(struct ind_hold *hold)
{
    memset(hold, 0, sizeof *hold);
}

/* "up to 1,054 held bytes and a skipped count of 0 to 65,534; unused room in the hold reads zero". */
static bool hold_sound(const struct ind_hold *hold)
{
    if (hold->held > IND_LONGEST_PACKET)
        return false;
    if (hold->count > 65534)
        return false;
    for (size_t i = hold->held; i < IND_LONGEST_PACKET; i++) {
        if (hold->row[i] != 0)
            return false;
    }
    return true;
}

static void *room_for(size_t size)
{
    void *bytes = malloc(size + 1);
    if (!bytes)
        abort();
    return bytes;
}

/* Reads on, adding a byte whenever more is asked for: so no byte is taken "beyond the one that decides". */
static size_t read_byte_by_byte(struct ind_reading *reading, uint8_t *stream, size_t held, const uint8_t *piece, size_t size)
{
    size_t taken = 0;
    ind_read_on(reading, stream, held);
    while (reading->event == IND_MORE && taken < size) {
        stream[held + taken] = piece[taken];
        taken++;
        ind_read_on(reading, stream, held + taken);
    }
    return taken;
}

static void keep(struct ind_hold *hold, const uint8_t *rest, size_t size, size_t count)
{
    memset(hold->row, 0, sizeof hold->row);
    memcpy(hold->row, rest, size);
    hold->held = size;
    hold->count = count;
}

/* "Receiver call: STATE, ROOM." */
struct ind_received ind_receive(struct ind_hold *hold, const uint8_t *piece, size_t size, uint8_t *out, size_t room)
{
    struct ind_received received = {IND_REFUSED, IND_GOOD, 0, 0, 0};
    if (!hold_sound(hold))
        received.refusal = IND_STATE;
    else if (room < IND_LONGEST_PACKET)
        received.refusal = IND_ROOM;
    if (received.refusal)
        return received;
    uint8_t *stream = room_for(hold->held + size);
    struct ind_reading reading = {.count = hold->count};
    memcpy(stream, hold->row, hold->held);
    received.taken = read_byte_by_byte(&reading, stream, hold->held, piece, size);
    received.event = reading.event;
    received.carried = reading.carried;
    received.packet_size = reading.packet_size;
    if (reading.event == IND_PACKET)
        memcpy(out, stream + reading.packet_at, reading.packet_size);
    keep(hold, stream + reading.position, hold->held + received.taken - reading.position, reading.count);
    free(stream);
    return received;
}
