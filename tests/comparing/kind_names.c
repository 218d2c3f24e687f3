/* Names and lengths: each number in turn, with every row of 0 to 12 bytes; each type with every n. */
#include "comparing.h"

void try_names(struct trial *t)
{
    static const size_t huge[] = {256, 257, 65536, (size_t)1 << 32, SIZE_MAX / 2, SIZE_MAX - 1, SIZE_MAX};
    uint8_t row[12];
    uint8_t turn = (uint8_t)t->turn;
    for (size_t room = 0; room <= sizeof row; room++) {
        fill(t, row, sizeof row);
        both_name(t, turn, row, room);
        fill(t, row, sizeof row);
        both_release(t, row, room);
    }
    for (size_t n = 0; n <= 255; n++)
        both_unit_length(t, turn, n);
    for (size_t i = 0; i < sizeof huge / sizeof huge[0]; i++)
        both_unit_length(t, turn, huge[i]);
}
