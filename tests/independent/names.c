/* Verdicts, spans and the names of refusals, events and outcomes. */
#include "independent.h"

#include <string.h>

struct ind_verdict ind_refuse_at(enum ind_refusal refusal, size_t place)
{
    struct ind_verdict verdict = {refusal, place};
    return verdict;
}

struct ind_verdict ind_refuse(enum ind_refusal refusal)
{
    return ind_refuse_at(refusal, 0);
}

struct ind_verdict ind_good(void)
{
    return ind_refuse(IND_GOOD);
}

struct ind_span ind_no_span(struct ind_verdict verdict)
{
    struct ind_span span = {verdict, 0, 0};
    return span;
}

struct ind_span ind_span_at(size_t start, size_t length)
{
    struct ind_span span = {ind_good(), start, length};
    return span;
}

/* NULL for a number below the last one that is no refusal. */
const char *ind_refusal_name(enum ind_refusal refusal)
{
    static const char *const names[] = {
        "OK", "STATE", "ROOM", "CUT", "START", "LENGTH", "END", "SUM", "VERSION", "COMMAND", "TIME", "UNIT", "TYPE",
        "COUNT", "SHORT", "NUMBER", "KIND", "TEXT", "SETTING", "FULL", "STRAY", "MANY", "ORDER", "ORPHAN", "TAIL", "UNLISTED",
        [IND_LONG] = "LONG", [IND_CENTRE] = "CENTRE"
    };
    return names[refusal];
}

const char *ind_event_name(enum ind_event event)
{
    static const char *const names[] = {"MORE", "SKIP", "NOISE", "LENGTH", "END", "SUM", "PACKET", "REFUSED"};
    return names[event];
}

/* The names of our own numbers, and of the refusals, of which the papers that we go by leave out 26, 27, 29 and 31; nothing
 * told is 0, which is good. */
const char *ind_name(uint8_t number)
{
    const char *refusal = number <= IND_CENTRE ? ind_refusal_name((enum ind_refusal)number) : NULL;
    switch (number) {
    case IND_TOLD_MORE:
        return "MORE";
    case IND_TOLD_NOISE:
        return "NOISE";
    case IND_TOLD_PACKET:
        return "PACKET";
    case IND_TOLD_CONFIRMED:
        return "CONFIRMED";
    case IND_TOLD_ANSWERED:
        return "ANSWERED";
    case IND_TOLD_RESENT:
        return "RESENT";
    case IND_TOLD_FAILED:
        return "FAILED";
    default:
        return refusal ? refusal : "";
    }
}

/* ROOM: "other output shorter than what is written". */
struct ind_span ind_put_front(uint8_t *out, size_t room, const char *text)
{
    size_t letters = strlen(text);
    if (room < letters)
        return ind_no_span(ind_refuse(IND_ROOM));
    for (size_t i = 0; i < letters; i++)
        out[i] = (uint8_t)text[i];
    return ind_span_at(0, letters);
}
