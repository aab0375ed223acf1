/*
 * What each call has to answer and leave, predicted in plain C from the scope: its causes in their order, and its walk,
 * in which altered words are composed as found. It shares no code with the archive. Each function has the arguments of
 * the call of the same name and works on the area or output handed to it.
 */
#ifndef WALK_H
#define WALK_H
#include "nookmallow.h"

nookmallow_handed walk_open(uint32_t n, uint32_t measure, uint32_t limit, const uint32_t *footprint, size_t footprint_len,
                            uint32_t *area, size_t area_len);
nookmallow_handed walk_pick(nookmallow_place p, uint32_t *area, size_t area_len, const uint32_t *words, size_t words_len);
nookmallow_measured walk_length(nookmallow_place p);
nookmallow_answer walk_whole(uint32_t n, uint32_t measure, const uint32_t *words, size_t words_len, uint32_t *area,
                             size_t area_len);
nookmallow_decision walk_decide(uint32_t n, uint32_t measure, const uint32_t *words, size_t words_len, uint32_t k,
                                uint32_t *area, size_t area_len);
uint32_t walk_table(uint32_t n, const uint32_t *words, size_t words_len, uint32_t *out, size_t out_len);
nookmallow_reading walk_read(const uint8_t *bytes, size_t bytes_len, uint32_t limit, uint32_t *out, size_t out_len);
nookmallow_saved walk_save(uint32_t n, const uint32_t *words, size_t words_len, uint8_t *out, size_t out_len);

/* Whether cause 16 holds of a place. */
int walk_is_bad(nookmallow_place p);
#endif
