/* The documents' numbers, in one table: each as document 01 or, for a unit's end, for two centres and for more parts, requests
 * of document 02 write it, and the few that the papers leave to us. */
#ifndef NUMBERS_H
#define NUMBERS_H

/* Sizes and limits. */
enum {
    IND_LONGEST_PACKET = 1054,  /* "A packet has 30+L bytes, 1,054 at most." */
    IND_LONGEST_UNIT = 1024,    /* "L, length of the unit, 0 to 1,024", for 3 and 6 too */
    IND_FRAME_BYTES = 30,       /* "A packet has 30+L bytes" */
    IND_LONGEST_TEXT = 255,     /* "from a text of 0 to 255 bytes" */
    IND_LONGEST_NAME = 9,       /* CONFIRMED has nine letters */
    IND_DESCRIPTION_BYTES = 31, /* "description 31" */
    IND_PLACES = 16,            /* "Sixteen places" */
    IND_CENTRES = 2,            /* "Reports go to two centres." */
    IND_CENTRE_PLACES = 8,      /* "Places 0 to 7 are the first centre's, 8 to 15 the second's" */
    IND_LONGEST_TIMEOUT = 10,   /* "Timeout T is 1 to 10 ticks" */
    IND_MOST_RESENDS = 9,       /* "resends R 0 to 9" */
    IND_MOST_SYSTEMS = 64,      /* "systems (at most 64; type, address)" */
    IND_MOST_PARTS = 1600,      /* "Raise the limit to 1,600 parts" */
    IND_EARLIER_PARTS = 1024    /* "parts (at most 1,024; the 38 bytes of a type 7 body)": the limit of "the earlier program" */
};

/* "Refusal numbers", with request Q-4's "14 SHORT" and "28 LONG" and Q-11's "30 CENTRE"; 0 is none of them. */
enum ind_refusal {
    IND_GOOD = 0,
    IND_STATE = 1,
    IND_ROOM = 2,
    IND_CUT = 3,
    IND_START = 4,
    IND_LENGTH = 5,
    IND_END = 6,
    IND_SUM = 7,
    IND_VERSION = 8,
    IND_COMMAND = 9,
    IND_TIME = 10,
    IND_UNIT = 11,
    IND_TYPE = 12,
    IND_COUNT = 13,
    IND_SHORT = 14,
    IND_NUMBER = 15,
    IND_KIND = 16,
    IND_TEXT = 17,
    IND_SETTING = 18,
    IND_FULL = 19,
    IND_STRAY = 20,
    IND_MANY = 21,
    IND_ORDER = 22,
    IND_ORPHAN = 23,
    IND_TAIL = 24,
    IND_UNLISTED = 25,
    IND_LONG = 28,
    IND_CENTRE = 30
};

/* "Commands 1 control, 2 send, 3 confirm, 4 request, 5 answer, 6 deny." */
enum ind_command {
    IND_COMMAND_CONTROL = 1,
    IND_COMMAND_SEND = 2,
    IND_COMMAND_CONFIRM = 3,
    IND_COMMAND_REQUEST = 4,
    IND_COMMAND_ANSWER = 5,
    IND_COMMAND_DENY = 6
};

/* "Units": the table's first column. */
enum ind_type_number {
    IND_SYSTEM_STATE = 1,
    IND_PART_STATE = 2,
    IND_ANALOGUE_VALUE = 3,
    IND_SYSTEM_OPERATION = 4,
    IND_PART_CONFIGURATION = 7,
    IND_SYSTEM_CLOCK = 8,
    IND_TRANSMITTER_STATE = 21,
    IND_TRANSMITTER_OPERATION = 24,
    IND_TRANSMITTER_VERSION = 25,
    IND_TRANSMITTER_CONFIGURATION = 26,
    IND_TRANSMITTER_CLOCK = 28,
    IND_READ_SYSTEM_STATE = 61,
    IND_READ_PART_STATE = 62,
    IND_SET_TRANSMITTER_CLOCK = 90
};

/* "Places 0 to 7 are the first centre's": the numbers by which a centre is named are ours. */
enum { IND_FIRST_CENTRE = 0, IND_SECOND_CENTRE = 1 };

/* "mode (free, send, request)"; "A free place is all zero." */
enum ind_mode { IND_FREE = 0, IND_SEND = 1, IND_REQUEST = 2 };

/* "The judgement of a label now has three answers: a time, no time, bad" and "the typed reading shows it": request Q-1 gives
 * no numbers, so they are ours. Nothing is shown where a reading is refused, which returns "zero or nothing for all else"; an
 * object of a type without a label is not one without a time. */
enum ind_shown {
    IND_SHOWN_NOTHING = 0,
    IND_SHOWN_TIME = 1,
    IND_SHOWN_NO_TIME = 2,
    IND_SHOWN_NO_LABEL = 3
};

/* The paper numbers no outcome, and no event but LENGTH, END and SUM. Ours lie above the numbers up to 31 that document 02
 * uses; nothing is 0. */
enum {
    IND_TOLD_MORE = 32,
    IND_TOLD_NOISE = 33,
    IND_TOLD_PACKET = 34,
    IND_TOLD_NOTHING = 0,
    IND_TOLD_CONFIRMED = 40,
    IND_TOLD_ANSWERED = 41,
    IND_TOLD_RESENT = 42,
    IND_TOLD_FAILED = 43
};

#endif
