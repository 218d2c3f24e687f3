/* Writing packets, and objects and texts into a packet's output. */
#include "independent.h"

#include <string.h>

/* Writes all bytes of a packet other than its unit, which already stands. */
void ind_frame(uint8_t *out, const struct ind_packet *fields)
{
    size_t unit_size = fields->unit_size;
    out[0] = 64;
    out[1] = 64;
    out[2] = (uint8_t)(fields->serial % 256);
    out[3] = (uint8_t)(fields->serial / 256);
    out[4] = 1;
    out[5] = fields->user_version;
    memcpy(out + 6, fields->label, 6);
    memcpy(out + 12, fields->source, 6);
    memcpy(out + 18, fields->destination, 6);
    out[24] = (uint8_t)(unit_size % 256);
    out[25] = (uint8_t)(unit_size / 256);
    out[26] = fields->command;
    out[27 + unit_size] = ind_sum(out, unit_size);
    out[28 + unit_size] = 35;
    out[29 + unit_size] = 35;
}

/* "Packet writer: LENGTH, ROOM, then the judge's order from COMMAND"; by request Q-2 a confirm and a deny may carry bytes too,
 * "and the writer can send one". */
struct ind_verdict ind_write_packet(uint8_t *out, size_t room, const struct ind_packet *fields)
{
    if (fields->unit_size > IND_LONGEST_UNIT)
        return ind_refuse(IND_LENGTH);
    if (room < IND_FRAME_BYTES + fields->unit_size)
        return ind_refuse(IND_ROOM);
    if (fields->command < IND_COMMAND_CONTROL || fields->command > IND_COMMAND_DENY)
        return ind_refuse(IND_COMMAND);
    if (!ind_label_good(fields->label))
        return ind_refuse_at(IND_TIME, 0);
    struct ind_verdict verdict = ind_judge_unit_under(out + 27, fields->unit_size, fields->command);
    if (!verdict.refusal)
        ind_frame(out, fields);
    return verdict;
}

/* "Objects are written into the part of the output that begins at byte 28." */
struct ind_verdict ind_write_packet_object(uint8_t *out, size_t room, size_t unit_size, size_t number,
                                           const struct ind_object *object, const uint8_t *description,
                                           size_t description_size)
{
    if (unit_size > IND_LONGEST_UNIT)
        return ind_refuse(IND_LENGTH);
    if (room < 27 + unit_size)
        return ind_refuse(IND_ROOM);
    return ind_write_object(out + 27, unit_size, number, object, description, description_size);
}

struct ind_verdict ind_write_packet_text(uint8_t *out, size_t room, const uint8_t *text, size_t text_size)
{
    if (text_size > IND_LONGEST_TEXT)
        return ind_refuse(IND_LENGTH);
    if (room < 27 + 3 + text_size)
        return ind_refuse(IND_ROOM);
    return ind_write_text(out + 27, room - 27, text, text_size);
}
