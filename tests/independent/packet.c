/* Judging and reading packets. */
#include "independent.h"

#include <string.h>

unsigned ind_low_first(const uint8_t *two_bytes)
{
    return two_bytes[0] + 256u * two_bytes[1];
}

/* "sum of bytes 3 to 27+L, modulo 256", bytes counted from 1. */
uint8_t ind_sum(const uint8_t *packet, size_t unit_size)
{
    unsigned sum = 0;
    for (size_t byte = 3; byte <= 27 + unit_size; byte++)
        sum += packet[byte - 1];
    return (uint8_t)(sum % 256);
}

/* "CUT under 30, START, LENGTH, CUT, END, SUM": what stands before VERSION. */
static struct ind_verdict judge_frame(const uint8_t *packet, size_t size)
{
    if (size < IND_FRAME_BYTES)
        return ind_refuse(IND_CUT);
    if (packet[0] != 64 || packet[1] != 64)
        return ind_refuse(IND_START);
    size_t unit_size = ind_low_first(packet + 24);
    if (unit_size > IND_LONGEST_UNIT)
        return ind_refuse(IND_LENGTH);
    if (size != IND_FRAME_BYTES + unit_size)
        return ind_refuse(IND_CUT);
    if (packet[28 + unit_size] != 35 || packet[29 + unit_size] != 35)
        return ind_refuse(IND_END);
    if (packet[27 + unit_size] != ind_sum(packet, unit_size))
        return ind_refuse(IND_SUM);
    return ind_good();
}

/* "VERSION, COMMAND, TIME of the header", then the unit's own order. */
struct ind_verdict ind_judge_packet(const uint8_t *packet, size_t size)
{
    struct ind_verdict frame = judge_frame(packet, size);
    if (frame.refusal)
        return frame;
    if (packet[4] != 1)
        return ind_refuse(IND_VERSION);
    if (packet[26] < IND_COMMAND_CONTROL || packet[26] > IND_COMMAND_DENY)
        return ind_refuse(IND_COMMAND);
    if (!ind_label_good(packet + 6))
        return ind_refuse_at(IND_TIME, 0);
    return ind_judge_unit_under(packet + 27, size - 30, packet[26]);
}

/* "in header and objects alike, read and written": the reading of a packet shows what its header's label is. */
struct ind_packet ind_read_packet(const uint8_t *packet, size_t size)
{
    struct ind_packet fields;
    memset(&fields, 0, sizeof fields);
    fields.verdict = ind_judge_packet(packet, size);
    if (fields.verdict.refusal)
        return fields;
    fields.serial = (uint16_t)ind_low_first(packet + 2);
    fields.user_version = packet[5];
    memcpy(fields.label, packet + 6, 6);
    fields.shown = ind_show_label(packet + 6);
    memcpy(fields.source, packet + 12, 6);
    memcpy(fields.destination, packet + 18, 6);
    fields.command = packet[26];
    fields.unit_size = ind_low_first(packet + 24);
    return fields;
}

/* "the part of the packet that begins at byte 28", of a confirm or a deny the bytes that it carries, "kept as bytes". */
struct ind_span ind_unit_span(const uint8_t *packet, size_t size)
{
    struct ind_verdict verdict = ind_judge_packet(packet, size);
    if (verdict.refusal)
        return ind_no_span(verdict);
    return ind_span_at(27, ind_low_first(packet + 24));
}
