/* Replies: to every command, good and refused packets, with bad labels and every room from 0 to 40. */
#include "comparing.h"

static void ask(struct trial *t, const uint8_t *packet, size_t size)
{
    uint8_t label[6];
    uint8_t out[40];
    fill(t, out, sizeof out);
    make_label(t, label);
    both_answer_to(t, packet, size, label, out, t->turn % 41);
    both_answer_to(t, packet, size, label, out, between(t, 28, 32));
    make_bad_label(t, label);
    both_answer_to(t, packet, size, label, out, below(t, 41));
}

/* A packet under a command that is none of its own, or with another thing wrong behind the sum. */
void try_replies(struct trial *t)
{
    uint8_t packet[MADE_MOST];
    size_t size = make_any_packet(t, packet);
    ask(t, packet, size);
    packet[26] = chance(t, 60) ? (uint8_t)below(t, 8) : any_byte(t);
    if (chance(t, 30))
        packet[4] = (uint8_t)below(t, 3);
    if (chance(t, 20))
        make_bad_label(t, packet + 6);
    seal(packet, size - 30);
    ask(t, packet, size);
    if (chance(t, 50))
        spoil_packet(t, packet, &size);
    ask(t, packet, size);
}
