/* The book of open exchanges with two centres: its rules, its making, and which of its places are whose. */
#include "independent.h"

#include <string.h>

static bool settings_good(uint8_t timeout, uint8_t limit)
{
    return timeout >= 1 && timeout <= IND_LONGEST_TIMEOUT && limit <= IND_MOST_RESENDS;
}

static bool place_sound(const struct ind_book *book, const struct ind_exchange *one)
{
    switch (one->mode) {
    case IND_FREE:
        return one->serial == 0 && one->resends == 0 && one->age == 0;
    case IND_SEND:
    case IND_REQUEST:
        return one->age < book->timeout && one->resends <= book->limit;
    default:
        return false;
    }
}

bool ind_same_address(const uint8_t one[6], const uint8_t other[6])
{
    return memcmp(one, other, 6) == 0;
}

/* "Places 0 to 7 are the first centre's, 8 to 15 the second's". */
size_t ind_centre_of(size_t place)
{
    return place / IND_CENTRE_PLACES;
}

size_t ind_first_of(size_t centre)
{
    return centre * IND_CENTRE_PLACES;
}

size_t ind_end_of(size_t centre)
{
    return ind_first_of(centre) + IND_CENTRE_PLACES;
}

bool ind_is_open_under(const struct ind_exchange *one, uint16_t serial)
{
    return one->mode != IND_FREE && one->serial == serial;
}

/* "a serial is open only within its centre": the place of the centre at which it is open, or the one behind its last. */
size_t ind_open_at(const struct ind_book *book, size_t centre, uint16_t serial)
{
    size_t place = ind_first_of(centre);
    while (place < ind_end_of(centre) && !ind_is_open_under(&book->exchange[place], serial))
        place++;
    return place;
}

/* "STATE: T or R out of range, an open place with age T or more or resends above R, two open with one serial, a free
 * place not zero"; by Q-11 "STATE for one serial twice within one centre, or equal centre addresses". */
bool ind_book_sound(const struct ind_book *book)
{
    if (!settings_good(book->timeout, book->limit))
        return false;
    if (ind_same_address(book->centre[IND_FIRST_CENTRE].address, book->centre[IND_SECOND_CENTRE].address))
        return false;
    for (size_t i = 0; i < IND_PLACES; i++) {
        const struct ind_exchange *one = &book->exchange[i];
        if (!place_sound(book, one))
            return false;
        if (one->mode != IND_FREE && ind_open_at(book, ind_centre_of(i), one->serial) != i)
            return false;
    }
    return true;
}

/* "making a table: SETTING, with a table of zeros", by Q-11 for equal centre addresses too; "each centre has an address and a
 * next serial of its own", and "A fresh table starts at serial 0". The addresses do not lie in the book. */
struct ind_verdict ind_make_book(struct ind_book *book, uint8_t timeout, uint8_t limit, const uint8_t first[6],
                                 const uint8_t second[6])
{
    memset(book, 0, sizeof *book);
    if (!settings_good(timeout, limit) || ind_same_address(first, second))
        return ind_refuse(IND_SETTING);
    book->timeout = timeout;
    book->limit = limit;
    memcpy(book->centre[IND_FIRST_CENTRE].address, first, 6);
    memcpy(book->centre[IND_SECOND_CENTRE].address, second, 6);
    return ind_good();
}
