/* Runs all rows; the plugin counts, and the lines printed here say what was counted. */
#include <stdio.h>
#include <stdlib.h>

#include "bench.h"

static unsigned rows;
static const char *present;

void section(const char *name)
{
    printf("0|%s\n", name);
}

unsigned row(const char *name, size_t bytes, const char *targets)
{
    present = name;
    printf("%u|%s|%zu|%s\n", ++rows, name, bytes, targets);
    agree(REGION(rows, TUNED) < MARK_REGIONS);
    return rows;
}

void agree(int same)
{
    if (same)
        return;
    fflush(stdout);
    fprintf(stderr, "bench: the answers differ: %s\n", present);
    exit(1);
}

int same_verdict(trawnosz_verdict a, trawnosz_verdict b)
{
    return a.number == b.number && a.place == b.place;
}

int same_part(trawnosz_found a, trawnosz_found b)
{
    return same_verdict(a.verdict, b.verdict) && a.from == b.from && a.to == b.to;
}

const trawnosz_label sample_label = {0, 30, 8, 15, 6, 24};
const trawnosz_label no_time = {0, 0, 0, 0, 0, 0};
const trawnosz_header sample_header = {5, 0, {0, 30, 8, 15, 6, 24}, {1}, {2}, TRAWNOSZ_COMMAND_CONFIRM};

size_t make_unit(uint8_t *unit, uint8_t type, uint8_t n, size_t size)
{
    static const uint8_t text[TRAWNOSZ_DESCRIPTION_BYTES] = "north stack, upper shelves, 3";
    size_t length = 2 + n * size;
    int described = type == TRAWNOSZ_TYPE_PART_STATE || type == TRAWNOSZ_TYPE_PART_CONFIGURATION;
    memset(unit, 0, length);
    unit[0] = type;
    unit[1] = n;
    for (uint8_t i = 0; i < n; i++) {
        trawnosz_fields fields = {.kind = type, .system = 1, .address = i, .part = 40, .part_address = i * 1000u, .value = -3,
                                  .low = 2, .high = 255, .analogue = 3, .operation = 1, .operator_ = 7, .state = 1,
                                  .main = 1, .minor = 2, .label = sample_label};
        agree(!twin_write_object(unit, length, i, &fields, text, described ? sizeof text : 0).number);
    }
    return length;
}

size_t without_time(uint8_t *unit, size_t length)
{
    for (size_t i = 0; i < unit[1]; i++) {
        trawnosz_fields fields;
        uint8_t shown;
        agree(!twin_read_object(unit, length, i, &fields, &shown).number);
        fields.label = no_time;
        agree(!twin_write_object(unit, length, i, &fields, NULL, 0).number);
    }
    return length;
}

size_t make_packet(uint8_t *packet, uint8_t command, size_t unit)
{
    static const uint8_t front[24] = {64, 64, 5, 0, 1, 0, 0, 30, 8, 15, 6, 24, 1};
    uint8_t sum = 0;
    memcpy(packet, front, sizeof front);
    packet[24] = (uint8_t)unit;
    packet[25] = (uint8_t)(unit >> 8);
    packet[26] = command;
    for (size_t i = 2; i < 27 + unit; i++)
        sum += packet[i];
    packet[27 + unit] = sum;
    packet[28 + unit] = packet[29 + unit] = 35;
    return 30 + unit;
}

int main(void)
{
    for (int i = 0; i < 100; i++)
        MEASURE(OURS, );
    bench_receiver();
    bench_packets();
    bench_units();
    bench_writers();
    bench_exchanges();
    bench_devices();
    bench_names();
    return 0;
}
