/* Names, the release's number, and the length of a unit. */
#include "bench.h"

static uint8_t ours[TRAWNOSZ_LONGEST_NAME], plain[TRAWNOSZ_LONGEST_NAME];

static void name(const char *what, uint8_t told, size_t room)
{
    unsigned number = row(what, 0, NOT_ABOVE_TWIN);
    trawnosz_found a, b;
    MEASURE(REGION(number, OURS), a = trawnosz_name(told, ours, room));
    MEASURE(REGION(number, PLAIN), b = twin_name(told, plain, room));
    agree(same_part(a, b) && memcmp(ours, plain, sizeof ours) == 0);
}

static void release(void)
{
    unsigned number = row("release", 0, NOT_ABOVE_TWIN);
    trawnosz_found a, b;
    MEASURE(REGION(number, OURS), a = trawnosz_release(ours, sizeof ours));
    MEASURE(REGION(number, PLAIN), b = twin_release(plain, sizeof plain));
    agree(same_part(a, b) && memcmp(ours, plain, sizeof ours) == 0);
}

static void length(const char *what, uint8_t type, size_t n)
{
    unsigned number = row(what, 0, NOT_ABOVE_TWIN);
    size_t a, b;
    MEASURE(REGION(number, OURS), a = trawnosz_unit_length(type, n));
    MEASURE(REGION(number, PLAIN), b = twin_unit_length(type, n));
    agree(a == b);
}

void bench_names(void)
{
    section("Names and lengths");
    name("name: OK", TRAWNOSZ_OK, sizeof ours);
    name("name: UNLISTED", TRAWNOSZ_REFUSED_UNLISTED, sizeof ours);
    name("name: CENTRE", TRAWNOSZ_REFUSED_CENTRE, sizeof ours);
    name("name: CONFIRMED", TRAWNOSZ_OUTCOME_CONFIRMED, sizeof ours);
    name("name: CONFIRMED, refused", TRAWNOSZ_OUTCOME_CONFIRMED, sizeof ours - 1);
    name("name: a number without one", 200, sizeof ours);
    release();
    length("unit_length: 102 of type 1", TRAWNOSZ_TYPE_SYSTEM_STATE, 102);
    length("unit_length: type 90", TRAWNOSZ_TYPE_SET_CLOCK, 1);
    length("unit_length: type 26", TRAWNOSZ_TYPE_TRANSMITTER_CONFIGURATION, 1);
    length("unit_length: a type that is not in the table", 200, 1);
}
