/*
 * The four lengths by their definitions alone: each window of the picks so far is judged by itself, journeys are found
 * by breadth, and a length is looked for among all lengths. No windows are composed and nothing is carried over.
 */
#ifndef BARE_H
#define BARE_H
#include <stddef.h>
#include <stdint.h>

enum { BARE_PICKS = 64 };

typedef struct {
    uint32_t n, measure, m;
    uint32_t list[32]; /* measure 2 */
    uint32_t words[BARE_PICKS * 32];
    unsigned char pass[BARE_PICKS][BARE_PICKS]; /* of the window from one pick to another, numbered from 0 */
} bare;

/* The boards that links in one pick lead to from a set of boards, the set itself included. Only boards below n count. */
uint32_t bare_spread(uint32_t set, const uint32_t *words, uint32_t n);

/* The boards that a message of u gets to in m picks, u itself included. */
uint32_t bare_reached(uint32_t u, const uint32_t *words, uint32_t n, size_t m);

void bare_open(bare *b, uint32_t n, uint32_t measure, const uint32_t *list);
void bare_pick(bare *b, const uint32_t *words);

/* Whether every window of k of the picks so far passes. */
int bare_decides(const bare *b, uint32_t k);

/* The length of the picks so far, 0 where there is none. */
uint32_t bare_length(const bare *b);

/* Whether k is the length of m picks, however many; k is 0 for none. Each other length is looked at only as far as needed. */
int bare_is_length(uint32_t n, uint32_t measure, const uint32_t *list, const uint32_t *words, uint32_t m, uint32_t k);
#endif
