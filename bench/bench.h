/* The measuring program: each row runs the library's call and the twin's on one input, and ends the program if they differ. */
#ifndef BENCH_H
#define BENCH_H

#include <string.h>

#include "mark.h"
#include "twin.h"

enum { OURS = 1, PLAIN = 2, TUNED = 3 };

#define REGION(row, column) (4ul * (row) + (column))

/* Targets of a row: most of the twin's instructions, most a call, most a byte; - for none. */
#define NOT_ABOVE_TWIN "1 - -"

/* The heading of the rows that follow. */
void section(const char *name);

/* Opens a row under its name, with the bytes that its calls work on and its targets; its number. */
unsigned row(const char *name, size_t bytes, const char *targets);

/* Ends the program where the library and a twin do not agree in the present row. */
void agree(int same);

int same_verdict(trawnosz_verdict a, trawnosz_verdict b);
int same_part(trawnosz_found a, trawnosz_found b);

extern const trawnosz_label sample_label, no_time;
extern const trawnosz_header sample_header;

/* Writes n objects of a type and of the given size behind the type and n; the unit's length. */
size_t make_unit(uint8_t *unit, uint8_t type, uint8_t n, size_t size);

/* Takes the time out of each object of a unit of a type without descriptions; the unit's length. */
size_t without_time(uint8_t *unit, size_t length);

/* Writes a packet around the unit that stands in it, good or not; its length. */
size_t make_packet(uint8_t *packet, uint8_t command, size_t unit);

void bench_receiver(void);
void bench_packets(void);
void bench_units(void);
void bench_writers(void);
void bench_exchanges(void);
void bench_devices(void);
void bench_names(void);

#endif
