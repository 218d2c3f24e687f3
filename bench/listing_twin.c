/* A plain C listing of standard input (document 01, "The listing program"), made of the plain twins: each line by one write. */
#include <stdio.h>
#include <unistd.h>

#include "twin.h"

static const char *const names[] = {
    "OK",   "STATE", "ROOM", "CUT",    "START", "LENGTH", "END",     "SUM",  "VERSION", "COMMAND", "TIME",   "UNIT", "TYPE",
    "COUNT", "SHORT", "NUMBER", "KIND", "TEXT",  "SETTING", "FULL", "STRAY", "MANY",    "ORDER",   "ORPHAN", "TAIL", "UNLISTED",
    [TRAWNOSZ_REFUSED_LONG] = "LONG",
};

static int put(const char *line, int length)
{
    return write(STDOUT_FILENO, line, (size_t)length) == length;
}

/* The line of an event; the packet, where there is one, stands in the front of `out`. */
static int list(const trawnosz_served *served, const uint8_t *out)
{
    char line[128];
    if (served->event == TRAWNOSZ_EVENT_NOISE)
        return put(line, snprintf(line, sizeof line, "%zu NOISE\n", served->skipped));
    if (served->event != TRAWNOSZ_EVENT_PACKET)
        return put(line, snprintf(line, sizeof line, "%zu %s\n", served->skipped, names[served->event]));
    trawnosz_verdict judged = twin_judge_packet(out, served->length);
    return put(line, snprintf(line, sizeof line, "%zu PACKET %zu %d %d %s\n", served->skipped, served->length,
                              out[2] + 256 * out[3], out[26], names[judged.number]));
}

/* Offers a piece, again from what was not taken, until more is asked for. */
static int offer(twin_receiver *receiver, const uint8_t *piece, size_t length)
{
    static uint8_t out[TRAWNOSZ_LONGEST_PACKET];
    for (;;) {
        trawnosz_served served = twin_receive(receiver, piece, length, out, sizeof out);
        if (served.event == TRAWNOSZ_EVENT_MORE)
            return 1;
        if (!list(&served, out))
            return 0;
        piece += served.taken;
        length -= served.taken;
    }
}

int main(void)
{
    static uint8_t piece[4096];
    char line[128];
    twin_receiver receiver;
    ssize_t got;
    twin_fresh(&receiver);
    while ((got = read(STDIN_FILENO, piece, sizeof piece)) > 0)
        if (!offer(&receiver, piece, (size_t)got))
            return 1;
    if (got < 0)
        return 1;
    return !put(line, snprintf(line, sizeof line, "held %zu skipped %zu\n", receiver.held, receiver.count));
}
