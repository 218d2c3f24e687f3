/* Streams of line bytes: good packets, spoiled ones, noise, hostile starts and packets inside refused ones. */
#include "comparing.h"

#include <string.h>

/* What does not fit any more is left out. */
void add_bytes(struct stream *stream, const uint8_t *bytes, size_t size)
{
    if (size > sizeof stream->bytes - stream->size)
        size = sizeof stream->bytes - stream->size;
    memcpy(stream->bytes + stream->size, bytes, size);
    stream->size += size;
}

void add_run(struct stream *stream, uint8_t byte, size_t size)
{
    for (size_t i = 0; i < size; i++)
        add_bytes(stream, &byte, 1);
}

/* Noise in which starts and ends are frequent, one time in three. */
void add_noise(struct trial *t, struct stream *stream, size_t size)
{
    bool rich = chance(t, 33);
    for (size_t i = 0; i < size; i++) {
        uint8_t byte = any_byte(t);
        if (rich && byte < 160)
            byte = byte < 120 ? '@' : '#';
        add_bytes(stream, &byte, 1);
    }
}

void add_packet(struct trial *t, struct stream *stream)
{
    uint8_t packet[MADE_MOST];
    size_t size = make_any_packet(t, packet);
    add_bytes(stream, packet, size);
}

void add_spoiled_packet(struct trial *t, struct stream *stream)
{
    uint8_t packet[MADE_MOST];
    size_t size = make_any_packet(t, packet);
    spoil_packet(t, packet, &size);
    add_bytes(stream, packet, size);
}

/* A start with an L of any size, which swallows what follows; one time in two as long as it says, mostly wrong inside. */
void add_hostile_start(struct trial *t, struct stream *stream)
{
    static const size_t lengths[] = {0, 1, 9, 30, 255, 1000, 1023, 1024, 1025, 1026, 1280, 0x2323, 0x4040, 0xFFFF};
    uint8_t packet[MADE_MOST];
    size_t length = chance(t, 70) ? lengths[below(t, 14)] : below(t, 1100);
    make_head(t, packet, length, any_byte(t));
    add_bytes(stream, packet, chance(t, 80) ? 27 : below(t, 28));
    if (length > 1024 || chance(t, 50))
        return;
    fill(t, packet + 27, length + 3);
    if (chance(t, 60))
        seal(packet, length);
    if (chance(t, 30))
        packet[27 + length]++;
    add_bytes(stream, packet + 27, length + 3);
}

/* A packet of L bytes that hold whole packets and starts; refused by END or SUM, or in a right frame, where the judge takes
 * it as a confirm or a deny and not as a send. */
void add_nested(struct trial *t, struct stream *stream)
{
    uint8_t packet[2 * MADE_MOST];
    uint8_t inner[MADE_MOST];
    size_t length = 0;
    for (size_t i = between(t, 1, 4); i > 0; i--) {
        size_t size = make_any_packet(t, inner);
        if (chance(t, 20))
            size = below(t, size);
        if (length + size > 1024)
            break;
        memcpy(packet + 27 + length, inner, size);
        length += size;
    }
    make_head(t, packet, length, chance(t, 50) ? 2 : make_carrier(t));
    seal(packet, length);
    size_t wrong = below(t, 5);
    if (wrong < 3)
        packet[27 + length + wrong]++;
    add_bytes(stream, packet, 30 + length);
}

void add_segment(struct trial *t, struct stream *stream)
{
    switch (below(t, 8)) {
    case 0:
    case 1:
        add_packet(t, stream);
        break;
    case 2:
        add_spoiled_packet(t, stream);
        break;
    case 3:
        add_hostile_start(t, stream);
        break;
    case 4:
    case 5:
        add_nested(t, stream);
        break;
    case 6:
        add_run(stream, '@', between(t, 1, 60));
        break;
    default:
        add_noise(t, stream, below(t, 80));
    }
}
