/* The lives of exchanges, read from what calls answer and never from a table: request Q-10, which by Q-11 "holds for each"
 * centre. */
#include "independent.h"

#include <string.h>

void ind_lives_start(struct ind_lives *lives, uint8_t timeout, uint8_t limit)
{
    memset(lives, 0, sizeof *lives);
    lives->timeout = timeout;
    lives->limit = limit;
}

/* "no later than (R+1) times T ticks after its beginning". */
static unsigned most_ticks(const struct ind_lives *lives)
{
    return (lives->limit + 1u) * lives->timeout;
}

/* "it is sent at most R+1 times, the first sending and each reported resend counted". */
static unsigned most_sendings(const struct ind_lives *lives)
{
    return lives->limit + 1u;
}

static bool out_of_time(const struct ind_lives *lives, const struct ind_life *life)
{
    return life->open && life->ticks >= most_ticks(lives);
}

static bool is_open_under(const struct ind_life *life, uint16_t serial)
{
    return life->open && life->serial == serial;
}

/* "its serial is given to no other while it is open", where "a serial is open only within its centre"; a refused beginning
 * tells nothing. */
const char *ind_lives_begin(struct ind_lives *lives, uint8_t centre, const struct ind_begun *begun)
{
    if (begun->verdict.refusal)
        return NULL;
    if (ind_centre_of(begun->place) != centre)
        return "an exchange begins at a place that is not its centre's";
    if (lives->life[begun->place].open)
        return "an exchange begins at a place at which one is open";
    for (size_t i = 0; i < IND_PLACES; i++) {
        if (ind_centre_of(i) == centre && is_open_under(&lives->life[i], begun->serial))
            return "an exchange begins under a serial under which one of its centre is open";
    }
    lives->life[begun->place] = (struct ind_life){.open = true, .serial = begun->serial, .sendings = 1};
    return NULL;
}

/* "with fewer than R resends it is resent, one resend more and age 0, else it has failed": of ticks alone each T-th acts as
 * deny, so that the last of them fails it. */
static const char *judge_failure(const struct ind_lives *lives, const struct ind_life *life)
{
    if (life->sendings != most_sendings(lives))
        return "an exchange has failed after other than R+1 sendings";
    if (!life->replied && life->ticks != most_ticks(lives))
        return "an exchange has failed by ticks alone at another tick than the (R+1) times T-th";
    return NULL;
}

/* "each exchange begun ends once, confirmed, answered or failed": of one that is not open nothing is told. */
static const char *hear_of(const struct ind_lives *lives, struct ind_life *life, enum ind_outcome outcome)
{
    if (outcome == IND_NOTHING)
        return NULL;
    if (!life->open)
        return "something is told of a place at which no exchange is open";
    if (outcome == IND_RESENT)
        return ++life->sendings > most_sendings(lives) ? "an exchange is sent more than R+1 times" : NULL;
    life->open = false;
    return outcome == IND_FAILED ? judge_failure(lives, life) : NULL;
}

/* A refused reply, and a packet that is no reply, tell nothing. */
const char *ind_lives_reply(struct ind_lives *lives, const struct ind_turn *turn)
{
    if (turn->outcome == IND_NOTHING)
        return NULL;
    struct ind_life *life = &lives->life[turn->place];
    if (out_of_time(lives, life))
        return "a reply is told of an exchange that has had (R+1) times T ticks";
    life->replied = true;
    return hear_of(lives, life, turn->outcome);
}

static const char *tick_one(const struct ind_lives *lives, struct ind_life *life, enum ind_outcome outcome, uint16_t serial)
{
    life->ticks++;
    if (life->open && life->serial != serial)
        return "a tick tells of an open exchange under another serial than its own";
    const char *wrong = hear_of(lives, life, outcome);
    return !wrong && out_of_time(lives, life) ? "an exchange is still open after (R+1) times T ticks" : wrong;
}

/* "The tick answers all sixteen places"; the first thing wrong is told. */
const char *ind_lives_tick(struct ind_lives *lives, const struct ind_tick *tick)
{
    const char *first = NULL;
    for (size_t i = 0; i < IND_PLACES; i++) {
        const char *wrong = tick_one(lives, &lives->life[i], tick->outcome[i], tick->serial[i]);
        first = first ? first : wrong;
    }
    return first;
}
