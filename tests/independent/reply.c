/* Replies to packets. */
#include "independent.h"

#include <string.h>

/* "To a packet judged good: 1 and 2 get confirm; 3, 4, 5, 6 get none." */
static uint8_t due_when_good(uint8_t command)
{
    switch (command) {
    case IND_COMMAND_CONTROL:
    case IND_COMMAND_SEND:
        return IND_COMMAND_CONFIRM;
    default:
        return 0;
    }
}

/* "To one refused at VERSION or later: commands 3, 5, 6 get none, all others deny." */
static uint8_t due_when_refused(uint8_t command)
{
    switch (command) {
    case IND_COMMAND_CONFIRM:
    case IND_COMMAND_ANSWER:
    case IND_COMMAND_DENY:
        return 0;
    default:
        return IND_COMMAND_DENY;
    }
}

/* The refusals that stand before VERSION in the order: "Earlier refusals give no reply and come back as that refusal". */
bool ind_before_version(enum ind_refusal refusal)
{
    switch (refusal) {
    case IND_CUT:
    case IND_START:
    case IND_LENGTH:
    case IND_END:
    case IND_SUM:
        return true;
    default:
        return false;
    }
}

/* "A reply copies serial and user version, swaps the addresses, takes the caller's label and an empty unit"; by request Q-2
 * "Our own replies stay empty." */
static void write_reply(uint8_t *out, const uint8_t *packet, const uint8_t label[6], uint8_t command)
{
    struct ind_packet reply;
    memset(&reply, 0, sizeof reply);
    reply.serial = (uint16_t)ind_low_first(packet + 2);
    reply.user_version = packet[5];
    memcpy(reply.label, label, 6);
    memcpy(reply.source, packet + 18, 6);
    memcpy(reply.destination, packet + 12, 6);
    reply.command = command;
    ind_frame(out, &reply);
}

/* "Then TIME of the label, then ROOM; a reply that is not due needs neither." */
struct ind_reply ind_answer_to(const uint8_t *packet, size_t size, const uint8_t label[6], uint8_t *out, size_t room)
{
    struct ind_reply reply = {ind_judge_packet(packet, size), 0};
    if (ind_before_version(reply.verdict.refusal))
        return reply;
    uint8_t due = reply.verdict.refusal ? due_when_refused(packet[26]) : due_when_good(packet[26]);
    reply.verdict = ind_good();
    if (due == 0)
        return reply;
    if (!ind_label_good(label)) {
        reply.verdict = ind_refuse_at(IND_TIME, 0);
    } else if (room < IND_FRAME_BYTES) {
        reply.verdict = ind_refuse(IND_ROOM);
    } else {
        write_reply(out, packet, label, due);
        reply.command = due;
    }
    return reply;
}
