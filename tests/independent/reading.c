/* "One reading of the stream is defined from a position p". */
#include "independent.h"

/* What the paper's four cases say of the bytes from a position on. */
static enum ind_event at_position(const uint8_t *from, size_t there)
{
    if (there >= 1 && from[0] != 64)
        return IND_SKIP;
    if (there >= 2 && from[1] != 64)
        return IND_SKIP;
    if (there < 26)
        return IND_MORE;
    size_t unit_size = ind_low_first(from + 24);
    if (unit_size > IND_LONGEST_UNIT)
        return IND_EVENT_LENGTH;
    if (there < IND_FRAME_BYTES + unit_size)
        return IND_MORE;
    if (from[28 + unit_size] != 35 || from[29 + unit_size] != 35)
        return IND_EVENT_END;
    if (from[27 + unit_size] != ind_sum(from, unit_size))
        return IND_EVENT_SUM;
    return IND_PACKET;
}

/* "LENGTH, END, SUM and PACKET carry the skipped count so far, which restarts at 0; NOISE carries 65,535." */
static void give(struct ind_reading *reading, enum ind_event event)
{
    reading->event = event;
    reading->carried = reading->count;
    reading->count = 0;
}

/* "skip one byte, count up. At 65,535 the event NOISE is given and the count restarts at 0". */
static void skip(struct ind_reading *reading)
{
    reading->event = IND_SKIP;
    reading->position++;
    reading->count++;
    if (reading->count == 65535)
        give(reading, IND_NOISE);
}

/* One case of the reading, at the present position. */
static void step(struct ind_reading *reading, const uint8_t *stream, size_t size)
{
    const uint8_t *from = stream + reading->position;
    enum ind_event event = at_position(from, size - reading->position);
    if (event == IND_MORE) {
        reading->event = IND_MORE;
    } else if (event == IND_SKIP) {
        skip(reading);
    } else if (event == IND_PACKET) {
        give(reading, IND_PACKET);
        reading->packet_at = reading->position;
        reading->packet_size = IND_FRAME_BYTES + ind_low_first(from + 24);
        reading->position += reading->packet_size;
    } else {
        give(reading, event);
        reading->position += 1;
    }
}

void ind_read_on(struct ind_reading *reading, const uint8_t *stream, size_t size)
{
    reading->carried = 0;
    reading->packet_at = 0;
    reading->packet_size = 0;
    do {
        step(reading, stream, size);
    } while (reading->event == IND_SKIP);
}
