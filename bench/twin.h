/*
 * A plain C twin of the library's calls, for comparison: the same checks in the same order, the same answers and bytes.
 * It is written as C usually is: a state is changed through a pointer, large answers go through pointers too.
 * What it refuses it leaves as it was; an answer behind a pointer is then all zero.
 */
#ifndef TWIN_H
#define TWIN_H

#include "../include/trawnosz.h"

typedef struct twin_receiver {
    uint8_t hold[TRAWNOSZ_LONGEST_PACKET];
    size_t held;
    size_t count;
} twin_receiver;

void twin_fresh(twin_receiver *receiver);
trawnosz_served twin_receive(twin_receiver *receiver, const uint8_t *piece, size_t piece_length, uint8_t *out,
                             size_t out_length);

/* The same receiver, tuned for speed. */
trawnosz_served tuned_receive(twin_receiver *receiver, const uint8_t *piece, size_t piece_length, uint8_t *out,
                              size_t out_length);

trawnosz_verdict twin_judge_packet(const uint8_t *packet, size_t packet_length);
trawnosz_verdict twin_read_packet(const uint8_t *packet, size_t packet_length, trawnosz_header *header, uint8_t *shown,
                                  size_t *length);
trawnosz_found twin_find_unit(const uint8_t *packet, size_t packet_length);
trawnosz_verdict twin_write_packet(uint8_t *out, size_t out_length, const trawnosz_header *header, size_t length);
trawnosz_verdict twin_write_packet_object(uint8_t *out, size_t out_length, size_t length, size_t number,
                                          const trawnosz_fields *fields, const uint8_t *description,
                                          size_t description_length);
trawnosz_verdict twin_write_packet_text(uint8_t *out, size_t out_length, const uint8_t *text, size_t text_length);
trawnosz_answer twin_answer_to(const uint8_t *packet, size_t packet_length, const trawnosz_label *label, uint8_t *out,
                               size_t out_length);

/* 1 where six bytes are neither a time nor six zeros, which mean that there is no time. */
int twin_label_bad(const uint8_t *label);

/* What a label is that was judged good: a time or no time. */
uint8_t twin_label_shown(const uint8_t *label);

/* An object's bytes without its description, and its fields; `kind` and the size are judged before. */
void twin_get_fields(trawnosz_fields *fields, const uint8_t *object);
void twin_put_fields(uint8_t *object, const trawnosz_fields *fields);

trawnosz_verdict twin_judge_unit(const uint8_t *unit, size_t unit_length);
trawnosz_verdict twin_judge_unit_under(const uint8_t *unit, size_t unit_length, uint8_t command);
size_t twin_unit_length(uint8_t type, size_t n);
trawnosz_found twin_find_object(const uint8_t *unit, size_t unit_length, size_t number);
trawnosz_verdict twin_read_object(const uint8_t *unit, size_t unit_length, size_t number, trawnosz_fields *fields,
                                  uint8_t *shown);
trawnosz_found twin_find_description(const uint8_t *unit, size_t unit_length, size_t number);
trawnosz_verdict twin_write_object(uint8_t *unit, size_t unit_length, size_t number, const trawnosz_fields *fields,
                                   const uint8_t *description, size_t description_length);
trawnosz_verdict twin_write_text(uint8_t *out, size_t out_length, const uint8_t *text, size_t text_length);

/* What a begin or a reply tells beside the table. */
typedef struct twin_begun {
    trawnosz_verdict verdict;
    size_t place;
    size_t length;
    uint16_t serial;
} twin_begun;

typedef struct twin_replied {
    trawnosz_verdict verdict;
    size_t place;
    uint8_t outcome;
} twin_replied;

trawnosz_verdict twin_exchanges_fresh(trawnosz_exchanges *table, uint8_t timeout, uint8_t resends, const uint8_t first[6],
                                      const uint8_t second[6]);
twin_begun twin_begin_and_write(trawnosz_exchanges *table, uint8_t centre, uint8_t *out, size_t out_length,
                                const trawnosz_draft *draft, size_t length);
twin_replied twin_reply_confirm(trawnosz_exchanges *table, const uint8_t source[6], uint16_t serial);
twin_replied twin_reply_answer(trawnosz_exchanges *table, const uint8_t source[6], uint16_t serial);
twin_replied twin_reply_deny(trawnosz_exchanges *table, const uint8_t source[6], uint16_t serial);
twin_replied twin_reply_bad_answer(trawnosz_exchanges *table, const uint8_t source[6], uint16_t serial);
twin_replied twin_take_packet(trawnosz_exchanges *table, const uint8_t *packet, size_t packet_length);
trawnosz_verdict twin_tick(trawnosz_exchanges *table, trawnosz_report reports[TRAWNOSZ_EXCHANGES]);

trawnosz_table twin_judge_table(const uint8_t *table, size_t table_length);
trawnosz_found twin_find_part(const uint8_t *table, size_t table_length, const uint8_t key[7]);

trawnosz_found twin_name(uint8_t number, uint8_t *out, size_t out_length);
trawnosz_found twin_release(uint8_t *out, size_t out_length);

#endif
