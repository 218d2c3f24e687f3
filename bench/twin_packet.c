/* The plain twin's packets and replies. */
#include <string.h>

#include "twin.h"

enum { AROUND_UNIT = 30, UNIT_AT = 27 };

static trawnosz_verdict refused(uint8_t number)
{
    trawnosz_verdict verdict = {number, 0};
    return verdict;
}

static size_t length_of(const uint8_t *packet)
{
    return packet[24] + 256u * packet[25];
}

static uint8_t sum_of(const uint8_t *packet, size_t unit)
{
    uint8_t sum = 0;
    for (size_t i = 2; i < UNIT_AT + unit; i++)
        sum += packet[i];
    return sum;
}

/* CUT, START, LENGTH, CUT, END and SUM. */
static uint8_t judge_frame(const uint8_t *p, size_t n)
{
    if (n < AROUND_UNIT)
        return TRAWNOSZ_REFUSED_CUT;
    if (p[0] != 64 || p[1] != 64)
        return TRAWNOSZ_REFUSED_START;
    size_t unit = length_of(p);
    if (unit > TRAWNOSZ_LONGEST_UNIT)
        return TRAWNOSZ_REFUSED_LENGTH;
    if (n != AROUND_UNIT + unit)
        return TRAWNOSZ_REFUSED_CUT;
    if (p[n - 2] != 35 || p[n - 1] != 35)
        return TRAWNOSZ_REFUSED_END;
    return sum_of(p, unit) != p[n - 3] ? TRAWNOSZ_REFUSED_SUM : TRAWNOSZ_OK;
}

/* From COMMAND on, which the packet's writer judges too. */
static trawnosz_verdict judge_content(uint8_t command, const uint8_t *label, const uint8_t *unit, size_t length)
{
    if (command < TRAWNOSZ_COMMAND_CONTROL || command > TRAWNOSZ_COMMAND_DENY)
        return refused(TRAWNOSZ_REFUSED_COMMAND);
    if (twin_label_bad(label))
        return refused(TRAWNOSZ_REFUSED_TIME);
    return twin_judge_unit_under(unit, length, command);
}

static trawnosz_verdict judge_rest(const uint8_t *packet)
{
    if (packet[4] != 1)
        return refused(TRAWNOSZ_REFUSED_VERSION);
    return judge_content(packet[26], packet + 6, packet + UNIT_AT, length_of(packet));
}

trawnosz_verdict twin_judge_packet(const uint8_t *packet, size_t packet_length)
{
    uint8_t number = judge_frame(packet, packet_length);
    return number ? refused(number) : judge_rest(packet);
}

trawnosz_verdict twin_read_packet(const uint8_t *packet, size_t packet_length, trawnosz_header *header, uint8_t *shown,
                                  size_t *length)
{
    trawnosz_verdict verdict = twin_judge_packet(packet, packet_length);
    memset(header, 0, sizeof *header);
    *shown = TRAWNOSZ_SHOWN_NOTHING;
    *length = 0;
    if (verdict.number)
        return verdict;
    header->serial = (uint16_t)(packet[2] + 256u * packet[3]);
    header->version = packet[5];
    memcpy(&header->label, packet + 6, 6);
    memcpy(header->source, packet + 12, 6);
    memcpy(header->destination, packet + 18, 6);
    header->command = packet[26];
    *shown = twin_label_shown(packet + 6);
    *length = length_of(packet);
    return verdict;
}

trawnosz_found twin_find_unit(const uint8_t *packet, size_t packet_length)
{
    trawnosz_found part = {twin_judge_packet(packet, packet_length), 0, 0};
    if (part.verdict.number)
        return part;
    part.from = UNIT_AT;
    part.to = packet_length - 3;
    return part;
}

static void fill(uint8_t *out, const trawnosz_header *header, size_t length)
{
    out[0] = out[1] = 64;
    out[2] = (uint8_t)header->serial;
    out[3] = (uint8_t)(header->serial >> 8);
    out[4] = 1;
    out[5] = header->version;
    memcpy(out + 6, &header->label, 6);
    memcpy(out + 12, header->source, 6);
    memcpy(out + 18, header->destination, 6);
    out[24] = (uint8_t)length;
    out[25] = (uint8_t)(length >> 8);
    out[26] = header->command;
    out[UNIT_AT + length] = sum_of(out, length);
    out[28 + length] = out[29 + length] = 35;
}

trawnosz_verdict twin_write_packet(uint8_t *out, size_t out_length, const trawnosz_header *header, size_t length)
{
    if (length > TRAWNOSZ_LONGEST_UNIT)
        return refused(TRAWNOSZ_REFUSED_LENGTH);
    if (out_length < AROUND_UNIT + length)
        return refused(TRAWNOSZ_REFUSED_ROOM);
    trawnosz_verdict verdict = judge_content(header->command, &header->label.second, out + UNIT_AT, length);
    if (verdict.number == TRAWNOSZ_OK)
        fill(out, header, length);
    return verdict;
}

trawnosz_verdict twin_write_packet_object(uint8_t *out, size_t out_length, size_t length, size_t number,
                                          const trawnosz_fields *fields, const uint8_t *description,
                                          size_t description_length)
{
    if (length > TRAWNOSZ_LONGEST_UNIT)
        return refused(TRAWNOSZ_REFUSED_LENGTH);
    if (out_length < UNIT_AT + length)
        return refused(TRAWNOSZ_REFUSED_ROOM);
    return twin_write_object(out + UNIT_AT, length, number, fields, description, description_length);
}

trawnosz_verdict twin_write_packet_text(uint8_t *out, size_t out_length, const uint8_t *text, size_t text_length)
{
    if (text_length > TRAWNOSZ_LONGEST_TEXT)
        return refused(TRAWNOSZ_REFUSED_LENGTH);
    if (out_length < AROUND_UNIT + text_length)
        return refused(TRAWNOSZ_REFUSED_ROOM);
    return twin_write_text(out + UNIT_AT, out_length - UNIT_AT, text, text_length);
}

/* The reply's command, 0 where none is due. */
static uint8_t due(uint8_t refusal, uint8_t command)
{
    if (refusal == TRAWNOSZ_OK)
        return command == TRAWNOSZ_COMMAND_CONTROL || command == TRAWNOSZ_COMMAND_SEND ? TRAWNOSZ_COMMAND_CONFIRM : 0;
    return command == TRAWNOSZ_COMMAND_CONFIRM || command == TRAWNOSZ_COMMAND_ANSWER || command == TRAWNOSZ_COMMAND_DENY ? 0 : TRAWNOSZ_COMMAND_DENY;
}

trawnosz_answer twin_answer_to(const uint8_t *packet, size_t packet_length, const trawnosz_label *label, uint8_t *out,
                               size_t out_length)
{
    trawnosz_answer answer = {refused(judge_frame(packet, packet_length)), 0};
    if (answer.verdict.number)
        return answer;
    uint8_t command = due(judge_rest(packet).number, packet[26]);
    if (!command)
        return answer;
    if (twin_label_bad(&label->second))
        answer.verdict.number = TRAWNOSZ_REFUSED_TIME;
    else if (out_length < TRAWNOSZ_REPLY_BYTES)
        answer.verdict.number = TRAWNOSZ_REFUSED_ROOM;
    if (answer.verdict.number)
        return answer;
    trawnosz_header header = {(uint16_t)(packet[2] + 256u * packet[3]), packet[5], *label, {0}, {0}, command};
    memcpy(header.source, packet + 18, 6);
    memcpy(header.destination, packet + 12, 6);
    fill(out, &header, 0);
    answer.command = command;
    return answer;
}
