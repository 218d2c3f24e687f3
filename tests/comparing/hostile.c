/* Writes a hostile stream and the listing that is expected of it: hostile SEED STREAM EXPECTED. */
#include "comparing.h"

#include <stdlib.h>
#include <string.h>

static struct stream stream;

/* A packet whose frame is right and whose inside has one thing wrong, with its sum made right. */
static void add_refused(struct trial *t, const struct made_type *type, size_t n, size_t at, uint8_t to, uint8_t command)
{
    uint8_t packet[MADE_MOST];
    size_t unit_size = type ? make_unit(t, packet + 27, type, n) : 0;
    make_head(t, packet, unit_size, command);
    if (at > 0)
        packet[at] = to;
    seal(packet, unit_size);
    add_bytes(&stream, packet, 30 + unit_size);
}

/* One packet for each refusal that the judge of a packet in a right frame gives; of a label by a day of 32, which is TIME also
 * beside zeros, of SHORT and LONG by a type whose object is longer or shorter. */
static void add_each_refusal(struct trial *t)
{
    const struct made_type *clock = made_type_of(28);
    add_refused(t, clock, 1, 4, 2, 2);
    add_refused(t, clock, 1, 0, 0, 7);
    add_refused(t, clock, 1, 9, 32, 2);
    add_refused(t, clock, 1, 32, 32, 5);
    add_refused(t, NULL, 0, 0, 0, 2);
    add_refused(t, clock, 1, 0, 0, 1);
    add_refused(t, clock, 2, 0, 0, 2);
    add_refused(t, clock, 1, 27, 1, 2);
    add_refused(t, clock, 1, 27, 25, 2);
}

/* A confirm or a deny that carries bytes of one kind, good or, by its main version, refused. */
static void add_carrier(struct trial *t, uint8_t command, uint8_t byte, size_t size, uint8_t version)
{
    uint8_t packet[MADE_MOST];
    make_head(t, packet, size, command);
    packet[4] = version;
    memset(packet + 27, byte, size);
    seal(packet, size);
    add_bytes(&stream, packet, 30 + size);
}

/* "For 3 and 6 a unit of 0 to 1,024 bytes is accepted": also bytes that a packet begins or ends with, and a unit. */
static void add_each_carrier(struct trial *t)
{
    static const size_t sizes[] = {0, 1, 2, 1023, 1024};
    for (uint8_t command = 3; command <= 6; command += 3) {
        for (size_t i = 0; i < 5; i++)
            add_carrier(t, command, 0xFF, sizes[i], 1);
        add_carrier(t, command, '@', 1024, 1);
        add_carrier(t, command, '#', 40, 1);
        add_carrier(t, command, 0xFF, 1, 2);
        add_refused(t, made_type_of(28), 1, 0, 0, command);
    }
}

/* A clock's packet with its own label and its object's as they are given. */
static void add_labelled(struct trial *t, const uint8_t header[6], const uint8_t object[6])
{
    uint8_t packet[MADE_MOST];
    size_t unit_size = make_unit(t, packet + 27, made_type_of(28), 1);
    make_head(t, packet, unit_size, 2);
    memcpy(packet + 6, header, 6);
    memcpy(packet + 29, object, 6);
    seal(packet, unit_size);
    add_bytes(&stream, packet, 30 + unit_size);
}

/* "Six zeros are to mean "no time" in header and objects alike"; "A day of 0 with any other byte above 0 stays TIME." */
static void add_each_no_time(struct trial *t)
{
    static const uint8_t time[6] = {0, 0, 0, 1, 1, 0}, no_time[6];
    add_labelled(t, no_time, time);
    add_labelled(t, time, no_time);
    add_labelled(t, no_time, no_time);
    for (size_t i = 0; i < 6; i++) {
        uint8_t nearly[6] = {0};
        nearly[i] = 1;
        add_labelled(t, nearly, no_time);
        add_labelled(t, no_time, nearly);
    }
}

/* Every type at n 1 and at its largest n. */
static void add_each_type(struct trial *t)
{
    for (int i = 0; i < TYPES; i++) {
        uint8_t command = make_command(t, made_types[i].type);
        add_refused(t, &made_types[i], 1, 0, 0, command);
        add_refused(t, &made_types[i], made_types[i].most, 0, 0, command);
    }
}

static void make_stream(struct trial *t)
{
    add_each_type(t);
    add_run(&stream, 0, 65535 + between(t, 1, 500));
    add_each_refusal(t);
    add_each_no_time(t);
    add_each_carrier(t);
    for (int i = 0; i < 100; i++)
        add_segment(t, &stream);
    add_packet(t, &stream);
    add_run(&stream, '#', 65535 + 65534);
    add_packet(t, &stream);
    for (int i = 0; i < 40; i++)
        add_segment(t, &stream);
}

/* A start of the longest L with too few bytes behind it, so that something is held at the end. */
static void add_held(struct trial *t)
{
    uint8_t packet[MADE_MOST];
    make_head(t, packet, 1024, 2);
    fill(t, packet + 27, 1024);
    add_run(&stream, 0, 1100);
    add_bytes(&stream, packet, between(t, 26, 27 + 1024));
}

static FILE *open_file(const char *name)
{
    FILE *file = fopen(name, "wb");
    if (!file) {
        perror(name);
        exit(1);
    }
    return file;
}

static void close_file(FILE *file, const char *name)
{
    if (ferror(file) || fclose(file) != 0) {
        perror(name);
        exit(1);
    }
}

int main(int arguments, char **argument)
{
    if (arguments != 4) {
        fprintf(stderr, "usage: SEED STREAM EXPECTED\n");
        return 2;
    }
    struct trial t = {.seed = strtoull(argument[1], NULL, 10)};
    start_random(&t);
    make_stream(&t);
    add_held(&t);
    FILE *file = open_file(argument[2]);
    fwrite(stream.bytes, 1, stream.size, file);
    close_file(file, argument[2]);
    file = open_file(argument[3]);
    ind_list(file, stream.bytes, stream.size);
    close_file(file, argument[3]);
    return 0;
}
