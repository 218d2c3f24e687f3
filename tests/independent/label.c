/* Time labels: request Q-1 gives their judgement three answers. */
#include "independent.h"

/* "second 0-59, minute 0-59, hour 0-23, day 1-31, month 1-12, year 0-99; each byte is judged alone". */
static const struct {
    uint8_t least;
    uint8_t most;
} ranges[6] = {
    {0, 59},
    {0, 59},
    {0, 23},
    {1, 31},
    {1, 12},
    {0, 99},
};

static bool in_range(const uint8_t label[6])
{
    for (int i = 0; i < 6; i++) {
        if (label[i] < ranges[i].least || label[i] > ranges[i].most)
            return false;
    }
    return true;
}

/* "Six zeros are to mean "no time" in header and objects alike, read and written." All six are looked at: "A day of 0 with any
 * other byte above 0 stays TIME." */
static bool six_zeros(const uint8_t label[6])
{
    for (int i = 0; i < 6; i++) {
        if (label[i] != 0)
            return false;
    }
    return true;
}

/* "The judgement of a label now has three answers: a time, no time, bad." */
enum ind_judged ind_judge_label(const uint8_t label[6])
{
    if (six_zeros(label))
        return IND_JUDGED_NO_TIME;
    return in_range(label) ? IND_JUDGED_TIME : IND_JUDGED_BAD;
}

/* "Refusals: none new; TIME narrows": a label is refused where it is neither a time nor no time. */
bool ind_label_good(const uint8_t label[6])
{
    return ind_judge_label(label) != IND_JUDGED_BAD;
}

/* "All who call it pass the difference on, and the typed reading shows it." */
enum ind_shown ind_show_label(const uint8_t label[6])
{
    switch (ind_judge_label(label)) {
    case IND_JUDGED_TIME:
        return IND_SHOWN_TIME;
    case IND_JUDGED_NO_TIME:
        return IND_SHOWN_NO_TIME;
    default:
        return IND_SHOWN_NOTHING;
    }
}
