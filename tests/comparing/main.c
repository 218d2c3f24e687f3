/* Runs the cases of a seed: comparing SEED COUNT [CASE]. */
#define _DEFAULT_SOURCE
#include "comparing.h"

#include <inttypes.h>
#include <stdlib.h>
#include <unistd.h>

/* The kinds of input, each as often as it stands here; cases take them in turn. */
static void (*const kinds[])(struct trial *) = {
    try_streams, try_packets, try_units, try_object_writer, try_exchange_states, try_good_devices, try_receiver_states,
    try_packet_lengths, try_packet_object_writer, try_replies, try_streams, try_packets, try_exchange_sequence,
    try_spoiled_devices, try_packet_writer, try_damage, try_receiver_states, try_unit_lengths, try_text_writers, try_packets,
    try_streams, try_units, try_unit_ends, try_object_writer, try_exchange_states, try_spoiled_devices, try_round_trip,
    try_empties, try_packet_writer, try_receiver_states, try_packets, try_takes, try_names, try_takes, try_begins,
    try_begin_orders, try_begin_traces, try_begins, try_lives, try_centres, try_unit_ends,
};

/* Long noise and the documents' examples are cases of their own now and then, in the place of every kind in turn. */
enum { KINDS = sizeof kinds / sizeof kinds[0], SELDOM = 1000 };
_Static_assert(KINDS % 2 != 0 && KINDS % 5 != 0, "the same few kinds would always give their place to them");

/* A case depends on the seed and its number alone, so that it can be run again by itself. */
static void run_case(uint64_t seed, uint64_t number, bool show)
{
    bool examples = number % SELDOM == 999;
    struct trial t = {.seed = seed, .number = number, .turn = number / (examples ? SELDOM : KINDS), .show = show};
    start_random(&t);
    t.empty_is_null = chance(&t, 50);
    t.at_end = chance(&t, 50);
    if (examples)
        try_examples(&t);
    else if (number % SELDOM == 499)
        try_noise(&t);
    else
        kinds[number % KINDS](&t);
}

static void show_progress(uint64_t done, uint64_t count)
{
    bool terminal = isatty(STDERR_FILENO);
    if (done % (terminal ? 2000 : 50000) == 0 && done > 0)
        fprintf(stderr, "%s%" PRIu64 " of %" PRIu64 " cases%s", terminal ? "\r" : "", done, count, terminal ? "" : "\n");
    if (done == count && terminal)
        fprintf(stderr, "\r%40s\r", "");
}

static bool read_number(const char *text, uint64_t *number)
{
    char *end;
    *number = strtoull(text, &end, 10);
    return *text >= '0' && *text <= '9' && *end == '\0';
}

int main(int arguments, char **argument)
{
    uint64_t seed, count, only = 0;
    bool right = (arguments == 3 || arguments == 4) && read_number(argument[1], &seed) && read_number(argument[2], &count);
    bool single = right && arguments == 4;
    if (!right || (single && (!read_number(argument[3], &only) || only >= count))) {
        fprintf(stderr, "usage: SEED COUNT [CASE], whole numbers, CASE below COUNT\n");
        return 2;
    }
    make_lent_memory();
    watch_signals();
    if (single) {
        run_case(seed, only, true);
        printf("seed %" PRIu64 ": case %" PRIu64 ", 0 differences\n", seed, only);
        return 0;
    }
    for (uint64_t number = 0; number < count; number++) {
        run_case(seed, number, false);
        show_progress(number + 1, count);
    }
    printf("seed %" PRIu64 ": %" PRIu64 " cases, 0 differences\n", seed, count);
    return 0;
}
