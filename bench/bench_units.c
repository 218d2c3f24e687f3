/* Judging units and reading objects. */
#include "bench.h"

static uint8_t unit[TRAWNOSZ_LONGEST_UNIT];

static void judge(const char *name, size_t length)
{
    unsigned number = row(name, length, NOT_ABOVE_TWIN);
    trawnosz_verdict ours, plain;
    MEASURE(REGION(number, OURS), ours = trawnosz_judge_unit(unit, length));
    MEASURE(REGION(number, PLAIN), plain = twin_judge_unit(unit, length));
    agree(same_verdict(ours, plain));
}

static void judge_under(const char *name, size_t length, uint8_t command)
{
    unsigned number = row(name, length, NOT_ABOVE_TWIN);
    trawnosz_verdict ours, plain;
    MEASURE(REGION(number, OURS), ours = trawnosz_judge_unit_under(unit, length, command));
    MEASURE(REGION(number, PLAIN), plain = twin_judge_unit_under(unit, length, command));
    agree(same_verdict(ours, plain));
}

typedef trawnosz_found finder(const uint8_t *unit, size_t unit_length, size_t number);

static void place(const char *name, finder *library, finder *twin, size_t length, size_t object)
{
    unsigned number = row(name, length, NOT_ABOVE_TWIN);
    trawnosz_found ours, plain;
    MEASURE(REGION(number, OURS), ours = library(unit, length, object));
    MEASURE(REGION(number, PLAIN), plain = twin(unit, length, object));
    agree(same_part(ours, plain));
}

static void object(const char *name, size_t length, size_t number)
{
    place(name, trawnosz_find_object, twin_find_object, length, number);
}

static void description(const char *name, size_t length, size_t number)
{
    place(name, trawnosz_find_description, twin_find_description, length, number);
}

static void read(const char *name, size_t length, size_t object)
{
    unsigned number = row(name, length, NOT_ABOVE_TWIN);
    trawnosz_typed ours;
    trawnosz_verdict plain;
    trawnosz_fields fields;
    uint8_t shown;
    MEASURE(REGION(number, OURS), ours = trawnosz_read_object(unit, length, object));
    MEASURE(REGION(number, PLAIN), plain = twin_read_object(unit, length, object, &fields, &shown));
    agree(same_verdict(ours.verdict, plain) && ours.shown == shown);
    agree(memcmp(&ours.fields, &fields, sizeof fields) == 0);
}

static size_t text_unit(size_t length)
{
    static const uint8_t text[TRAWNOSZ_LONGEST_TEXT];
    agree(!twin_write_text(unit, sizeof unit, text, length).number);
    return 3 + length;
}

static void bench_judge(void)
{
    judge("judge_unit: 9 bytes, type 21", make_unit(unit, 21, 1, 7));
    judge("judge_unit: 9 bytes, type 21, no time", without_time(unit, make_unit(unit, 21, 1, 7)));
    judge("judge_unit: 252 bytes, 25 of type 1", make_unit(unit, 1, 25, 10));
    judge("judge_unit: 512 bytes, 51 of type 1", make_unit(unit, 1, 51, 10));
    judge("judge_unit: 1,022 bytes, 102 of type 1", make_unit(unit, 1, 102, 10));
    judge("judge_unit: 1,022 bytes, 102 of type 1, no time", without_time(unit, make_unit(unit, 1, 102, 10)));
    judge("judge_unit: 1,018 bytes, 127 of type 24", make_unit(unit, 24, 127, 8));
    judge("judge_unit: 990 bytes, 26 of type 7", make_unit(unit, 7, 26, 38));
    judge("judge_unit: 258 bytes, type 26", text_unit(255));
    judge("judge_unit: 8 bytes, type 90", make_unit(unit, 90, 1, 6));
    judge("judge_unit: 8 bytes, type 21, SHORT", make_unit(unit, 21, 1, 7) - 1);
    judge("judge_unit: 505 bytes, 63 of type 24, SHORT", make_unit(unit, 24, 63, 8) - 1);
    judge("judge_unit: 1,017 bytes, 127 of type 24, SHORT", make_unit(unit, 24, 127, 8) - 1);
    judge("judge_unit: 1,021 bytes, 102 of type 1, SHORT", make_unit(unit, 1, 102, 10) - 1);
    judge("judge_unit: 257 bytes, type 26, SHORT", text_unit(255) - 1);
    judge("judge_unit: 1,019 bytes, 127 of type 24, LONG", make_unit(unit, 24, 127, 8) + 1);
    judge("judge_unit: 1,023 bytes, 102 of type 1, LONG", make_unit(unit, 1, 102, 10) + 1);
    judge_under("judge_unit_under: 9 bytes, type 21", make_unit(unit, 21, 1, 7), TRAWNOSZ_COMMAND_SEND);
    judge_under("judge_unit_under: 1,022 bytes, 102 of type 1", make_unit(unit, 1, 102, 10), TRAWNOSZ_COMMAND_ANSWER);
    judge_under("judge_unit_under: 1 byte, a confirm's", 1, TRAWNOSZ_COMMAND_CONFIRM);
    judge_under("judge_unit_under: 1,024 bytes, a deny's", sizeof unit, TRAWNOSZ_COMMAND_DENY);
}

void bench_units(void)
{
    section("Units and objects");
    bench_judge();
    object("find_object: type 21", make_unit(unit, 21, 1, 7), 0);
    object("find_object: first of 22 of type 2", make_unit(unit, 2, 22, 46), 0);
    object("find_object: last of 22 of type 2", make_unit(unit, 2, 22, 46), 21);
    read("read_object: type 21", make_unit(unit, 21, 1, 7), 0);
    read("read_object: type 21, no time", without_time(unit, make_unit(unit, 21, 1, 7)), 0);
    read("read_object: one of type 2", make_unit(unit, 2, 1, 46), 0);
    read("read_object: first of 22 of type 2", make_unit(unit, 2, 22, 46), 0);
    read("read_object: last of 22 of type 2", make_unit(unit, 2, 22, 46), 21);
    read("read_object: last of 63 of type 3", make_unit(unit, 3, 63, 16), 62);
    read("read_object: last of 102 of type 1", make_unit(unit, 1, 102, 10), 101);
    read("read_object: last of 26 of type 7", make_unit(unit, 7, 26, 38), 25);
    read("read_object: last of 22 of type 62", make_unit(unit, 62, 22, 6), 21);
    description("find_description: one of type 2", make_unit(unit, 2, 1, 46), 0);
    description("find_description: last of 22 of type 2", make_unit(unit, 2, 22, 46), 21);
    description("find_description: type 26, 255 bytes of text", text_unit(255), 0);
}
