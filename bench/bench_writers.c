/* Writing objects, texts and packets; both write into rows that were equal before. */
#include "bench.h"

static uint8_t out[2][TRAWNOSZ_LONGEST_PACKET];
static const uint8_t text[TRAWNOSZ_LONGEST_TEXT] = "reading room, second floor, by the lift";
static const trawnosz_label late = {59, 58, 23, 31, 12, 99};

static void same_rows(trawnosz_verdict ours, trawnosz_verdict plain)
{
    agree(same_verdict(ours, plain) && memcmp(out[0], out[1], sizeof out[0]) == 0);
}

/* Units of n objects in both rows, from `at` on. */
static size_t units(size_t at, uint8_t type, uint8_t n, size_t size)
{
    memset(out, 0, sizeof out);
    make_unit(out[0] + at, type, n, size);
    return make_unit(out[1] + at, type, n, size);
}

/* The same with no time in any of them. */
static size_t units_without_time(size_t at, uint8_t type, uint8_t n, size_t size)
{
    size_t length = units(at, type, n, size);
    without_time(out[0] + at, length);
    return without_time(out[1] + at, length);
}

static trawnosz_fields fields_of(uint8_t type)
{
    trawnosz_fields fields = {.kind = type, .system = 9, .address = 8, .part = 41, .part_address = 0x01020304, .value = -300,
                              .low = 1, .high = 128, .analogue = 2, .operation = 3, .operator_ = 4, .state = 255,
                              .main = 5, .minor = 6, .label = late};
    return fields;
}

static void write_object_with(const char *name, uint8_t type, uint8_t n, size_t size, trawnosz_label label)
{
    size_t length = units(0, type, n, size);
    size_t described = type == 2 || type == 7 ? TRAWNOSZ_DESCRIPTION_BYTES : 0;
    trawnosz_fields fields = fields_of(type);
    fields.label = label;
    unsigned number = row(name, size, NOT_ABOVE_TWIN);
    trawnosz_verdict ours, plain;
    MEASURE(REGION(number, OURS), ours = trawnosz_write_object(out[0], length, n - 1u, fields, text, described));
    MEASURE(REGION(number, PLAIN), plain = twin_write_object(out[1], length, n - 1u, &fields, text, described));
    same_rows(ours, plain);
}

static void write_object(const char *name, uint8_t type, uint8_t n, size_t size)
{
    write_object_with(name, type, n, size, late);
}

static void write_packet_object(const char *name, uint8_t type, uint8_t n, size_t size)
{
    size_t length = units(27, type, n, size);
    size_t described = type == 2 || type == 7 ? TRAWNOSZ_DESCRIPTION_BYTES : 0;
    trawnosz_fields fields = fields_of(type);
    unsigned number = row(name, size, NOT_ABOVE_TWIN);
    trawnosz_verdict ours, plain;
    MEASURE(REGION(number, OURS), ours = trawnosz_write_packet_object(out[0], sizeof out[0], length, n - 1u, fields, text,
                                                                      described));
    MEASURE(REGION(number, PLAIN), plain = twin_write_packet_object(out[1], sizeof out[1], length, n - 1u, &fields, text,
                                                                    described));
    same_rows(ours, plain);
}

static void write_text(const char *name, size_t length)
{
    unsigned number = row(name, length, NOT_ABOVE_TWIN);
    trawnosz_verdict ours, plain;
    memset(out, 0, sizeof out);
    MEASURE(REGION(number, OURS), ours = trawnosz_write_text(out[0], sizeof out[0], text, length));
    MEASURE(REGION(number, PLAIN), plain = twin_write_text(out[1], sizeof out[1], text, length));
    same_rows(ours, plain);
}

static void write_packet_text(const char *name, size_t length)
{
    unsigned number = row(name, length, NOT_ABOVE_TWIN);
    trawnosz_verdict ours, plain;
    memset(out, 0, sizeof out);
    MEASURE(REGION(number, OURS), ours = trawnosz_write_packet_text(out[0], sizeof out[0], text, length));
    MEASURE(REGION(number, PLAIN), plain = twin_write_packet_text(out[1], sizeof out[1], text, length));
    same_rows(ours, plain);
}

static void write_packet_with(const char *name, uint8_t command, size_t length, trawnosz_label label)
{
    trawnosz_header header = sample_header;
    header.command = command;
    header.label = label;
    unsigned number = row(name, 30 + length, NOT_ABOVE_TWIN);
    trawnosz_verdict ours, plain;
    MEASURE(REGION(number, OURS), ours = trawnosz_write_packet(out[0], sizeof out[0], header, length));
    MEASURE(REGION(number, PLAIN), plain = twin_write_packet(out[1], sizeof out[1], &header, length));
    same_rows(ours, plain);
}

static void write_packet(const char *name, uint8_t command, size_t length)
{
    write_packet_with(name, command, length, sample_label);
}

void bench_writers(void)
{
    section("Writers");
    write_object("write_object: type 21", 21, 1, 7);
    write_object_with("write_object: type 21, no time", 21, 1, 7, no_time);
    write_object("write_object: one of type 2", 2, 1, 46);
    write_object("write_object: last of 22 of type 2", 2, 22, 46);
    write_object("write_object: last of 102 of type 1", 1, 102, 10);
    write_object("write_object: last of 22 of type 62", 62, 22, 6);
    write_packet_object("write_packet_object: last of 22 of type 2", 2, 22, 46);
    write_text("write_text: no text", 0);
    write_text("write_text: 255 bytes", 255);
    write_packet_text("write_packet_text: 255 bytes", 255);
    write_packet("write_packet: 30 bytes, a confirm", TRAWNOSZ_COMMAND_CONFIRM, 0);
    write_packet("write_packet: 31 bytes, a deny with 1", TRAWNOSZ_COMMAND_DENY, 1);
    write_packet("write_packet: 1,054 bytes, a deny with 1,024", TRAWNOSZ_COMMAND_DENY, TRAWNOSZ_LONGEST_UNIT);
    write_packet("write_packet: 39 bytes, type 21", TRAWNOSZ_COMMAND_SEND, units(27, 21, 1, 7));
    write_packet_with("write_packet: 39 bytes, type 21, no time", TRAWNOSZ_COMMAND_SEND, units_without_time(27, 21, 1, 7),
                      no_time);
    write_packet("write_packet: 542 bytes, 51 of type 1", TRAWNOSZ_COMMAND_SEND, units(27, 1, 51, 10));
    write_packet("write_packet: 1,052 bytes, 102 of type 1", TRAWNOSZ_COMMAND_SEND, units(27, 1, 102, 10));
}
