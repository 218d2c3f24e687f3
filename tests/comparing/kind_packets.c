/* Packets: good ones at their limits, with one or two things wrong, of every length, and with each byte damaged. */
#include "comparing.h"

#include <string.h>

/* All calls that read a packet, a reply to it included. */
static void read_all_ways(struct trial *t, const uint8_t *packet, size_t size)
{
    uint8_t label[6];
    uint8_t out[40];
    size_t room = chance(t, 80) ? between(t, 30, 40) : below(t, 30);
    if (chance(t, 85))
        make_label(t, label);
    else
        make_bad_label(t, label);
    fill(t, out, sizeof out);
    both_judge_packet(t, packet, size);
    both_read_packet(t, packet, size);
    both_unit_place(t, packet, size);
    both_answer_to(t, packet, size, label, out, room);
}

void try_packets(struct trial *t)
{
    uint8_t packet[MADE_MOST];
    size_t size = make_any_packet(t, packet);
    if (chance(t, 80))
        spoil_packet(t, packet, &size);
    if (size >= 30 && size <= 1054 && chance(t, 25))
        spoil_packet(t, packet, &size);
    read_all_ways(t, packet, size);
}

/* Every length from 0 to 1,100 in turn, with an L that fits it and one that does not. */
void try_packet_lengths(struct trial *t)
{
    uint8_t packet[MADE_MOST];
    size_t size = t->turn % 1101;
    size_t unit_size = size < 30 ? 0 : size - 30;
    fill(t, packet, sizeof packet);
    if (chance(t, 70))
        make_any_unit(t, packet + 27);
    make_head(t, packet, unit_size, (uint8_t)between(t, 1, 6));
    seal(packet, unit_size);
    read_all_ways(t, packet, size);
    make_head(t, packet, unit_size + 1 - 2 * below(t, 2), (uint8_t)between(t, 1, 6));
    seal(packet, unit_size);
    read_all_ways(t, packet, size);
}

/* One byte damaged, with the old sum and with a right one. */
static void damage(struct trial *t, uint8_t *packet, size_t size, size_t at, uint8_t by)
{
    uint8_t damaged[MADE_MOST];
    memcpy(damaged, packet, size);
    damaged[at] ^= by;
    both_judge_packet(t, damaged, size);
    both_unit_place(t, damaged, size);
    if (at < size - 3) {
        seal(damaged, size - 30);
        both_read_packet(t, damaged, size);
        both_judge_packet(t, damaged, size);
    }
}

/* Each byte of a packet in turn, of the long ones from time to time only. */
void try_damage(struct trial *t)
{
    uint8_t packet[MADE_MOST];
    size_t size = make_any_packet(t, packet);
    if (size < 120 || t->turn % 256 == 0) {
        for (size_t at = 0; at < size; at++)
            damage(t, packet, size, at, (uint8_t)(chance(t, 50) ? 1u << below(t, 8) : between(t, 1, 255)));
    } else {
        for (int i = 0; i < 16; i++)
            damage(t, packet, size, below(t, size), (uint8_t)between(t, 1, 255));
    }
}
