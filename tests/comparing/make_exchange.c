/* The addresses of two centres, and exchange tables, sound and not. */
#include "comparing.h"

#include <string.h>

/* Different ones: any two, or two that are one byte apart, at each of the six. */
void make_addresses(struct trial *t, uint8_t first[6], uint8_t second[6])
{
    fill(t, first, 6);
    if (chance(t, 10))
        memset(first, 0, 6);
    memcpy(second, first, 6);
    if (chance(t, 40))
        fill(t, second, 6);
    if (memcmp(first, second, 6) == 0)
        second[below(t, 6)] ^= (uint8_t)between(t, 1, 255);
}

/* A table made by both, for any two centres. */
void make_fresh(struct trial *t, struct ind_book *book, uint8_t timeout, uint8_t limit)
{
    uint8_t first[6], second[6];
    make_addresses(t, first, second);
    both_exchanges_fresh(t, book, timeout, limit, first, second);
}

static uint16_t first_serial(struct trial *t)
{
    return (uint16_t)(chance(t, 40) ? 65535 - below(t, 20) : draw(t));
}

/* Serials that lie close together from a first one on, so that the next one often is open; all of a centre are different. */
static void open_places(struct trial *t, struct ind_book *book, size_t centre, size_t open, uint16_t serial)
{
    struct ind_exchange *eight = &book->exchange[8 * centre];
    book->centre[centre].next = (uint16_t)(serial + below(t, 3));
    for (size_t i = 0; i < open; i++) {
        size_t place = below(t, 8);
        while (eight[place].mode != 0)
            place = (place + 1) % 8;
        struct ind_exchange *one = &eight[place];
        one->serial = serial;
        one->mode = (uint8_t)between(t, 1, 2);
        one->resends = (uint8_t)below(t, book->limit + 1u);
        one->age = (uint8_t)(chance(t, 40) ? book->timeout - 1u : below(t, book->timeout));
        serial = (uint16_t)(serial + (chance(t, 70) ? 1 : between(t, 1, 300)));
    }
    if (chance(t, 20))
        book->centre[centre].next = (uint16_t)draw(t);
}

/* So many places open for the first centre and for the second, mostly from one serial on, so that many are open for both. */
void make_book_with(struct trial *t, struct ind_book *book, size_t first, size_t second)
{
    uint16_t serial = first_serial(t);
    memset(book, 0, sizeof *book);
    book->timeout = (uint8_t)(chance(t, 30) ? 1 : between(t, 1, 10));
    book->limit = (uint8_t)(chance(t, 30) ? 0 : below(t, 10));
    make_addresses(t, book->centre[0].address, book->centre[1].address);
    open_places(t, book, 0, first, serial);
    open_places(t, book, 1, second, chance(t, 60) ? serial : first_serial(t));
}

static size_t choose_open(struct trial *t)
{
    return chance(t, 35) ? 8 : chance(t, 25) ? 7 : below(t, 9);
}

/* Each centre's eight are full or not on their own. */
void make_book(struct trial *t, struct ind_book *book)
{
    size_t first = choose_open(t);
    make_book_with(t, book, first, choose_open(t));
}

/* A free place for each centre. */
void make_book_with_room(struct trial *t, struct ind_book *book)
{
    size_t first = below(t, 8);
    make_book_with(t, book, first, below(t, 8));
}

static void make_equal(struct trial *t, struct ind_book *book)
{
    size_t from = below(t, 2);
    memcpy(book->centre[1 - from].address, book->centre[from].address, 6);
}

/* Spoils a free place, or an open one where all are open; a serial that another place has is only wrong within one centre. */
static void spoil_place(struct trial *t, struct ind_book *book)
{
    struct ind_exchange *one = &book->exchange[below(t, 16)];
    bool open = one->mode != 0;
    switch (below(t, 5)) {
    case 0:
        one->age = (uint16_t)(open ? (chance(t, 60) ? book->timeout : between(t, book->timeout, 65535)) : between(t, 1, 65535));
        break;
    case 1:
        one->resends = (uint16_t)(open ? (chance(t, 60) ? book->limit + 1u : between(t, book->limit + 1u, 65535)) : 1);
        break;
    case 2:
        one->mode = (uint16_t)(chance(t, 40) ? 3 : chance(t, 40) ? 256u * between(t, 1, 255) + below(t, 3) : between(t, 3, 65535));
        break;
    case 3:
        one->serial = (uint16_t)(open ? one->serial : between(t, 1, 65535));
        one->mode = open ? 0 : one->mode;
        break;
    default:
        one->serial = book->exchange[below(t, 16)].serial;
        one->mode = (uint8_t)between(t, 1, 2);
    }
}

void spoil_book(struct trial *t, struct ind_book *book)
{
    switch (below(t, 14)) {
    case 0:
        book->timeout = (uint8_t)(chance(t, 30) ? 0 : chance(t, 50) ? 11 : any_byte(t));
        break;
    case 1:
        book->limit = (uint8_t)(chance(t, 60) ? 10 : any_byte(t));
        break;
    case 2:
        memset(book, 0, sizeof *book);
        break;
    case 3:
        make_equal(t, book);
        break;
    default:
        spoil_place(t, book);
    }
}

/* One serial open twice within the centre of a place. */
static void open_twice(struct trial *t, struct ind_book *book, size_t place)
{
    size_t beside = place / 8 * 8 + (place + between(t, 1, 7)) % 8;
    uint16_t serial = (uint16_t)draw(t);
    book->exchange[place] = (struct ind_exchange){.serial = serial, .mode = IND_SEND};
    book->exchange[beside] = (struct ind_exchange){.serial = serial, .mode = IND_REQUEST};
}

/* Breaks one of the rules for certain, that of a place in one centre alone: each is broken by a table with any number of open
 * places. */
void break_book(struct trial *t, struct ind_book *book)
{
    size_t place = below(t, 16);
    struct ind_exchange *one = &book->exchange[place];
    switch (below(t, 8)) {
    case 0:
        book->timeout = (uint8_t)(chance(t, 50) ? 0 : between(t, 11, 255));
        break;
    case 1:
        book->limit = (uint8_t)between(t, 10, 255);
        break;
    case 2:
        one->mode = (uint16_t)between(t, 3, 65535);
        break;
    case 3:
        one->age = book->timeout;
        break;
    case 4:
        one->resends = (uint8_t)(book->limit + 1u);
        break;
    case 5:
        *one = (struct ind_exchange){.serial = (uint16_t)between(t, 1, 65535), .mode = IND_FREE};
        break;
    case 6:
        make_equal(t, book);
        break;
    default:
        open_twice(t, book, place);
    }
}
