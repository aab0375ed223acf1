/* Shared by the files of the C test: the generator, the calls compared with their predictions, and the groups. */
#ifndef TEST_H
#define TEST_H
#include "bare.h"
#include "nookmallow.h"
#include "walk.h"

/* A fixed sequence of draws: every run makes the same calls. */
uint32_t draw(void);
uint32_t below(uint32_t k);

/* Counts a difference and says what it was about. Only the first few are printed: whether this one was is answered. */
int differ(const char *what);
#define CHECK(x)                         \
    do {                                 \
        if (!(x)) differ(__FILE__ ": " #x); \
    } while (0)

/*
 * The calls. Each lends the archive copies of exactly the length said, words at any alignment of 4 bytes and bytes at
 * any at all, and compares every word or byte of the answer, of the area or output, and of what is only read, with the
 * prediction. Area and output come back.
 */
nookmallow_handed call_open(uint32_t n, uint32_t measure, uint32_t limit, const uint32_t *footprint, size_t footprint_len,
                            uint32_t *area, size_t area_len);
nookmallow_handed call_pick(nookmallow_place p, uint32_t *area, size_t area_len, const uint32_t *words, size_t words_len);
nookmallow_measured call_length(nookmallow_place p);
nookmallow_answer call_whole(uint32_t n, uint32_t measure, const uint32_t *words, size_t words_len, uint32_t *area,
                             size_t area_len);
nookmallow_decision call_decide(uint32_t n, uint32_t measure, const uint32_t *words, size_t words_len, uint32_t k,
                                uint32_t *area, size_t area_len);
uint32_t call_table(uint32_t n, const uint32_t *words, size_t words_len, uint32_t *out, size_t out_len);
nookmallow_reading call_read(const uint8_t *bytes, size_t bytes_len, uint32_t limit, uint32_t *out, size_t out_len);
nookmallow_saved call_save(uint32_t n, const uint32_t *words, size_t words_len, uint8_t *out, size_t out_len);

/* Words and bytes for a test's own use. They hold draws, so that nothing rests on zeros. */
uint32_t *words_of(size_t count);
uint8_t *bytes_of(size_t count);

/* Picks that make lengths of many sizes: `kind` is how their links come and go. */
enum { KINDS = 5 };
void next_pick(uint32_t kind, uint32_t n, uint32_t p, uint32_t *words);

/* The groups; `share` is the part of the rounds to run, 1 for all. */
void test_hand(uint32_t share);
void test_orders(void);
void test_true(uint32_t share);
void test_long(uint32_t share);
void test_altered(uint32_t share);
void test_files(uint32_t share);
void test_stack(void);

/* A table of sizes, offsets and answers that the Rust test prints as well. */
void trace(void);
#endif
