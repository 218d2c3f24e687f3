/* Two centres that do not disturb each other: a sequence of the library's calls from a fresh table on, and the same one again
 * with all calls of one centre left out, in which every call must answer as before. "Replies from one, and beginnings for it,
 * alter no place, serial or answer of the other; a tick serves both." */
#include "comparing.h"

#include <string.h>

enum { MOST_STEPS = 100, NEITHER = 2 };

/* What a call answered and, beginning an exchange, left in its output. */
struct said {
    struct answer answer;
    uint8_t out[BEGIN_MOST];
};

/* One call by what it is given beside the table, and what it told when none was left out. */
struct step {
    enum { BEGINS, REPLIES, TAKES, TICKS } call;
    struct made_begin begin;
    enum ind_told told;
    struct made_reply reply;
    uint8_t packet[MADE_MOST];
    size_t size;
    struct said before;
};

static struct step steps[MOST_STEPS];

/* The next call of a sequence, whose replies are to what is open in the table as it stands. */
static void make_step(struct trial *t, struct step *step, const trawnosz_exchanges *table, unsigned begins)
{
    struct ind_book book = our_book(table);
    step->call = chance(t, begins) ? BEGINS : chance(t, 30) ? TICKS : chance(t, 40) ? TAKES : REPLIES;
    step->told = (enum ind_told)below(t, 4);
    if (step->call == BEGINS)
        make_any_begin(t, &step->begin);
    else if (step->call == REPLIES)
        step->reply = make_reply(t, &book);
    else if (step->call == TAKES)
        step->size = make_reply_packet(t, &book, step->packet);
}

static size_t centre_with(const trawnosz_exchanges *table, const uint8_t address[6])
{
    size_t centre = 0;
    while (centre < NEITHER && memcmp(table->centres[centre].address.bytes, address, 6) != 0)
        centre++;
    return centre;
}

/* The centre whose call it is: the one that a beginning names or that a reply or packet comes from, or neither. */
static size_t centre_of(const struct step *step, const trawnosz_exchanges *table)
{
    switch (step->call) {
    case BEGINS:
        return step->begin.centre < NEITHER ? step->begin.centre : NEITHER;
    case REPLIES:
        return centre_with(table, step->reply.source);
    case TAKES:
        return step->size < 18 ? NEITHER : centre_with(table, step->packet + 12);
    default:
        return NEITHER;
    }
}

static trawnosz_exchanges begin(struct trial *t, const struct step *step, trawnosz_exchanges table, struct said *said)
{
    const struct made_begin *made = &step->begin;
    with_draft(made->centre, made->out, made->room, &made->draft);
    uint8_t *lent = lend(t, LENT_OUTPUT, made->out, made->room);
    trawnosz_draft draft = their_draft(&made->draft);
    trawnosz_begun begun = trawnosz_begin_and_write(table, made->centre, lent, made->room, draft, made->draft.unit_size);
    tell_their_begun(&said->answer, &begun);
    if (made->room > 0)
        memcpy(said->out, lent, made->room);
    return begun.state;
}

static trawnosz_exchanges reply(const struct step *step, trawnosz_exchanges table, struct said *said)
{
    with_bytes("source", step->reply.source, 6);
    with_number("serial", step->reply.serial);
    trawnosz_address source = their_address(step->reply.source);
    trawnosz_replied replied = reply_calls[step->told].call(table, source, step->reply.serial);
    tell_their_reply(&said->answer, &replied);
    return replied.state;
}

static trawnosz_exchanges take(struct trial *t, const struct step *step, trawnosz_exchanges table, struct said *said)
{
    with_bytes("packet", step->packet, step->size);
    trawnosz_replied replied = trawnosz_take_packet(table, lend(t, LENT_INPUT, step->packet, step->size), step->size);
    tell_their_reply(&said->answer, &replied);
    return replied.state;
}

/* Of a tick the verdict and the reports of the kept centre's places are told. */
static trawnosz_exchanges tick(trawnosz_exchanges table, size_t kept, struct said *said)
{
    trawnosz_ticked ticked = trawnosz_tick(table);
    tell_their_verdict(&said->answer, ticked.verdict);
    for (size_t i = 8 * kept; i < 8 * kept + 8; i++)
        tell_their_report(&said->answer, &ticked, i);
    return ticked.state;
}

static trawnosz_exchanges call(struct trial *t, const struct step *step, trawnosz_exchanges table, size_t kept,
                               struct said *said)
{
    switch (step->call) {
    case BEGINS:
        return begin(t, step, table, said);
    case REPLIES:
        return reply(step, table, said);
    case TAKES:
        return take(t, step, table, said);
    default:
        return tick(table, kept, said);
    }
}

/* Makes a call, and tells what it answered and what the table that it handed back has of the kept centre. */
static void run(struct trial *t, const struct step *step, trawnosz_exchanges *table, size_t kept, struct said *said)
{
    static const char *const others[] = {
        [BEGINS] = "trawnosz_begin_and_write", [TAKES] = "trawnosz_take_packet", [TICKS] = "trawnosz_tick"
    };
    struct ind_book book = our_book(table);
    calling_on(t, step->call == REPLIES ? reply_calls[step->told].name : others[step->call], &book);
    said->answer.lines = 0;
    *table = call(t, step, *table, kept, said);
    tell_their_half(&said->answer, table, kept);
}

/* What was lent has the bytes of the first sequence, and nothing beside it was touched. */
static void check_memory(struct trial *t, const struct step *step)
{
    if (step->call == BEGINS)
        check_lent(t, LENT_OUTPUT, "out", step->before.out);
    else if (step->call == TAKES)
        check_lent(t, LENT_INPUT, "packet", step->packet);
}

/* The whole sequence, made as it goes on. */
static void run_all(struct trial *t, trawnosz_exchanges *table, size_t calls, size_t kept)
{
    unsigned begins = (unsigned)between(t, 20, 70);
    for (size_t i = 0; i < calls; i++) {
        make_step(t, &steps[i], table, begins);
        run(t, &steps[i], table, kept, &steps[i].before);
        show_answer(t, &steps[i].before.answer);
        check_memory(t, &steps[i]);
    }
}

static void hold(struct trial *t, const struct answer *before, const struct answer *now)
{
    name_sides("with all calls", "with the other centre's left out");
    agree(t, before, now);
}

/* The sequence again, without the calls of the centre that is not kept. */
static void run_kept(struct trial *t, trawnosz_exchanges *table, size_t calls, size_t kept)
{
    static struct said now;
    for (size_t i = 0; i < calls; i++) {
        if (centre_of(&steps[i], table) == 1 - kept)
            continue;
        run(t, &steps[i], table, kept, &now);
        hold(t, &steps[i].before.answer, &now.answer);
        check_memory(t, &steps[i]);
    }
}

static trawnosz_exchanges make_table(struct trial *t)
{
    struct ind_book book;
    uint8_t timeout = (uint8_t)between(t, 1, 10);
    make_fresh(t, &book, timeout, (uint8_t)below(t, 10));
    return their_table(&book);
}

/* One centre's calls are kept in both sequences, and what both have left of it is held against each other too. */
void try_centres(struct trial *t)
{
    struct answer a = {0}, b = {0};
    size_t kept = below(t, 2), calls = between(t, 1, MOST_STEPS);
    trawnosz_exchanges all = make_table(t), fewer = all;
    run_all(t, &all, calls, kept);
    run_kept(t, &fewer, calls, kept);
    tell_their_half(&a, &all, kept);
    tell_their_half(&b, &fewer, kept);
    calling(t, "none: what two sequences have left of a centre");
    hold(t, &a, &b);
}
