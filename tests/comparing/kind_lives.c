/* The lives of exchanges: sequences of calls from a fresh table on, whose answers must keep request Q-10 for each centre, and
 * short logs by which it is tried that the independent program tells one that keeps it from one that does not. */
#include "comparing.h"

/* A table, and what the calls on it have answered. */
struct box {
    struct ind_book book;
    struct ind_lives lives;
};

/* What comes beside beginnings and ticks. */
enum beside { EVERY_REPLY, NO_REPLY, DENY_AT_EACH };

static void expect_kept(struct trial *t, const char *wrong)
{
    if (wrong)
        differ(t, wrong);
}

static struct ind_begun begin(struct trial *t, struct box *box, struct made_begin *made)
{
    struct ind_begun begun = both_begin(t, &box->book, made);
    expect_kept(t, ind_lives_begin(&box->lives, made->centre, &begun));
    return begun;
}

static void begin_any(struct trial *t, struct box *box)
{
    struct made_begin made;
    make_any_begin(t, &made);
    begin(t, box, &made);
}

static void reply(struct trial *t, struct box *box, enum ind_told told, const uint8_t source[6], uint16_t serial)
{
    struct ind_turn turn = both_reply(t, &box->book, told, source, serial);
    expect_kept(t, ind_lives_reply(&box->lives, &turn));
}

static void reply_any(struct trial *t, struct box *box)
{
    struct made_reply made = make_reply(t, &box->book);
    reply(t, box, (enum ind_told)below(t, 4), made.source, made.serial);
}

static void take(struct trial *t, struct box *box)
{
    uint8_t packet[MADE_MOST];
    size_t size = make_reply_packet(t, &box->book, packet);
    struct ind_turn turn = both_take_packet(t, &box->book, packet, size);
    expect_kept(t, ind_lives_reply(&box->lives, &turn));
}

static void tick(struct trial *t, struct box *box)
{
    struct ind_tick ticked = both_tick(t, &box->book);
    expect_kept(t, ind_lives_tick(&box->lives, &ticked));
}

/* The place of an exchange that is open by what was answered, or 16. */
static size_t any_open(struct trial *t, const struct box *box)
{
    size_t from = below(t, 16);
    for (size_t i = 0; i < 16; i++) {
        if (box->lives.life[(from + i) % 16].open)
            return (from + i) % 16;
    }
    return 16;
}

static void deny_one(struct trial *t, struct box *box)
{
    size_t place = any_open(t, box);
    if (place < 16)
        reply(t, box, IND_DENY_CAME, box->book.centre[place / 8].address, box->lives.life[place].serial);
}

static void one_call(struct trial *t, struct box *box, unsigned begins, enum beside beside)
{
    if (chance(t, begins))
        begin_any(t, box);
    else if (beside != EVERY_REPLY || chance(t, 30))
        tick(t, box);
    else if (chance(t, 30))
        take(t, box);
    else
        reply_any(t, box);
    if (beside == DENY_AT_EACH)
        deny_one(t, box);
}

/* Begins, some of them refused, for one centre. */
static void begin_some(struct trial *t, struct box *box, uint8_t centre, size_t most)
{
    struct made_begin made;
    for (size_t i = between(t, 1, most); i > 0; i--) {
        make_any_begin(t, &made);
        made.centre = centre;
        begin(t, box, &made);
    }
}

/* The serials of a centre go round once, past those of a few of its exchanges that stay open, and not past those that are open
 * for the other: each later one is confirmed at once. */
static void go_round(struct trial *t, struct box *box)
{
    struct made_begin made;
    make_begin(t, &made, made_type_of(IND_SET_TRANSMITTER_CLOCK));
    begin_some(t, box, made.centre, 7);
    begin_some(t, box, (uint8_t)(1 - made.centre), 8);
    for (size_t i = 0; i < 65536; i++)
        reply(t, box, IND_CONFIRM_CAME, box->book.centre[made.centre].address, begin(t, box, &made).serial);
}

/* "enough ticks to come": "(R+1) times T". */
static void end_all(struct trial *t, struct box *box)
{
    for (unsigned i = (box->book.limit + 1u) * box->book.timeout; i > 0; i--)
        tick(t, box);
    if (any_open(t, box) < 16)
        differ(t, "an exchange has not ended in (R+1) times T ticks");
}

/* Logs by letters, and how many of their answers are wrong: B begins at place 0 under serial 0, P at that place under another
 * serial, S under that serial at another place; of place 0 a reply tells c, a, r or f, and a tick R, F or by - nothing; X is
 * a tick that names another serial. Of the second centre D begins at place 8 under serial 0 too, and d confirms that; V begins
 * for the first centre at place 9, and W for the second at place 1. */
static const struct {
    uint8_t timeout;
    uint8_t limit;
    const char *letters;
    size_t wrong;
} logs[] = {
    {1, 0, "BF-BF", 0},  {1, 1, "BRF", 0},    {2, 1, "B-R-F", 0},  {3, 0, "B--F", 0},   {3, 0, "B--c", 0},
    {2, 1, "B-R-a", 0},  {2, 1, "BrF", 0},    {2, 1, "B-r-F", 0},  {9, 2, "Brrf", 0},   {1, 0, "BcBaBf", 0},
    {2, 1, "BcP", 0},    {2, 1, "BcS", 0},    {2, 1, "BcX", 0},    {1, 0, "c", 1},      {1, 0, "F", 1},
    {1, 1, "BRFF", 1},   {1, 1, "BRFR", 1},   {2, 1, "Bca", 1},    {2, 1, "Bar", 1},    {9, 2, "Brrff", 1},
    {2, 1, "BP", 1},     {2, 1, "BS", 1},     {2, 1, "BX", 1},     {9, 2, "Brrr", 1},   {2, 1, "B-R-R", 1},
    {1, 0, "B-", 1},     {2, 1, "B-R--", 1},  {2, 1, "Br----", 1}, {2, 1, "B----c", 2}, {2, 1, "BRF", 1},
    {2, 1, "BrcBRF", 1}, {2, 1, "B---F", 1},  {2, 0, "BF", 1},     {2, 1, "Bf", 1},     {9, 1, "BD-cd", 0},
    {9, 1, "DdBD", 0},   {9, 1, "BDcS", 0},   {9, 1, "BDdS", 1},   {9, 1, "BDD", 1},    {9, 1, "BDdc", 0},
    {9, 1, "Bd", 1},     {9, 1, "BDcc", 1},   {9, 1, "V", 1},      {9, 1, "W", 1},      {1, 0, "BDF", 1},
};

enum { LOGS = sizeof logs / sizeof logs[0] };

static enum ind_outcome outcome_of(char letter)
{
    switch (letter) {
    case 'c':
    case 'd':
        return IND_CONFIRMED;
    case 'a':
        return IND_ANSWERED;
    case 'r':
    case 'R':
        return IND_RESENT;
    case 'f':
    case 'F':
        return IND_FAILED;
    default:
        return IND_NOTHING;
    }
}

static const char *read_begin(struct ind_lives *lives, char letter)
{
    bool second = letter == 'D' || letter == 'W';
    size_t place = letter == 'S' || letter == 'W' ? 1 : letter == 'D' ? 8 : letter == 'V' ? 9 : 0;
    struct ind_begun begun = {.place = place, .serial = letter == 'P'};
    return ind_lives_begin(lives, second, &begun);
}

static const char *read_letter(struct ind_lives *lives, char letter)
{
    struct ind_turn turn = {.place = letter == 'd' ? 8 : 0, .outcome = outcome_of(letter)};
    struct ind_tick ticked = {.outcome = {outcome_of(letter)}, .serial = {letter == 'X'}};
    switch (letter) {
    case 'B':
    case 'P':
    case 'S':
    case 'D':
    case 'V':
    case 'W':
        return read_begin(lives, letter);
    case 'R':
    case 'F':
    case 'X':
    case '-':
        return ind_lives_tick(lives, &ticked);
    default:
        return ind_lives_reply(lives, &turn);
    }
}

static void read_log(struct trial *t, size_t number)
{
    struct ind_lives lives;
    size_t wrong = 0;
    ind_lives_start(&lives, logs[number].timeout, logs[number].limit);
    for (const char *letter = logs[number].letters; *letter; letter++)
        wrong += read_letter(&lives, *letter) != NULL;
    calling(t, "none: a log by letters is read");
    with_number("log", number);
    if (wrong != logs[number].wrong)
        differ(t, "what is wrong in a log is not found, or is found where it is not");
}

/* Sixty calls from a fresh table on, a few thousand from time to time, then the ticks by which all must have ended; cases
 * take every T with every R in turn. */
void try_lives(struct trial *t)
{
    struct box box;
    uint8_t timeout = (uint8_t)(t->turn % 10 + 1), limit = (uint8_t)(t->turn / 10 % 10);
    unsigned begins = (unsigned)between(t, 20, 70);
    enum beside beside = (enum beside)below(t, 3);
    make_fresh(t, &box.book, timeout, limit);
    ind_lives_start(&box.lives, timeout, limit);
    if (t->turn % 4093 == 4092)
        go_round(t, &box);
    for (size_t i = t->turn % 127 == 0 ? 4000 : 60; i > 0; i--)
        one_call(t, &box, begins, beside);
    end_all(t, &box);
    read_log(t, t->turn % LOGS);
}
