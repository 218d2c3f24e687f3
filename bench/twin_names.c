/* The plain twin's names. */
#include <string.h>

#include "twin.h"

static const char *const names[] = {
    [TRAWNOSZ_OK] = "OK", [TRAWNOSZ_REFUSED_STATE] = "STATE", [TRAWNOSZ_REFUSED_ROOM] = "ROOM",
    [TRAWNOSZ_REFUSED_CUT] = "CUT", [TRAWNOSZ_REFUSED_START] = "START", [TRAWNOSZ_REFUSED_LENGTH] = "LENGTH",
    [TRAWNOSZ_REFUSED_END] = "END", [TRAWNOSZ_REFUSED_SUM] = "SUM", [TRAWNOSZ_REFUSED_VERSION] = "VERSION",
    [TRAWNOSZ_REFUSED_COMMAND] = "COMMAND", [TRAWNOSZ_REFUSED_TIME] = "TIME", [TRAWNOSZ_REFUSED_UNIT] = "UNIT",
    [TRAWNOSZ_REFUSED_TYPE] = "TYPE", [TRAWNOSZ_REFUSED_COUNT] = "COUNT", [TRAWNOSZ_REFUSED_SHORT] = "SHORT",
    [TRAWNOSZ_REFUSED_NUMBER] = "NUMBER", [TRAWNOSZ_REFUSED_KIND] = "KIND", [TRAWNOSZ_REFUSED_TEXT] = "TEXT",
    [TRAWNOSZ_REFUSED_SETTING] = "SETTING", [TRAWNOSZ_REFUSED_FULL] = "FULL", [TRAWNOSZ_REFUSED_STRAY] = "STRAY",
    [TRAWNOSZ_REFUSED_MANY] = "MANY", [TRAWNOSZ_REFUSED_ORDER] = "ORDER", [TRAWNOSZ_REFUSED_ORPHAN] = "ORPHAN",
    [TRAWNOSZ_REFUSED_TAIL] = "TAIL", [TRAWNOSZ_REFUSED_UNLISTED] = "UNLISTED", [TRAWNOSZ_REFUSED_LONG] = "LONG",
    [TRAWNOSZ_REFUSED_CENTRE] = "CENTRE",
    [TRAWNOSZ_EVENT_MORE] = "MORE", [TRAWNOSZ_EVENT_NOISE] = "NOISE", [TRAWNOSZ_EVENT_PACKET] = "PACKET",
    [TRAWNOSZ_OUTCOME_CONFIRMED] = "CONFIRMED", [TRAWNOSZ_OUTCOME_ANSWERED] = "ANSWERED",
    [TRAWNOSZ_OUTCOME_RESENT] = "RESENT", [TRAWNOSZ_OUTCOME_FAILED] = "FAILED",
};

static trawnosz_found put(const char *text, uint8_t *out, size_t out_length)
{
    trawnosz_found found = {{TRAWNOSZ_OK, 0}, 0, 0};
    size_t length = text ? strlen(text) : 0;
    if (out_length < length) {
        found.verdict.number = TRAWNOSZ_REFUSED_ROOM;
        return found;
    }
    if (length > 0)
        memcpy(out, text, length);
    found.to = length;
    return found;
}

trawnosz_found twin_name(uint8_t number, uint8_t *out, size_t out_length)
{
    return put(number < sizeof names / sizeof names[0] ? names[number] : NULL, out, out_length);
}

trawnosz_found twin_release(uint8_t *out, size_t out_length)
{
    return put(TRAWNOSZ_RELEASE, out, out_length);
}
