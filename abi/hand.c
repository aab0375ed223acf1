/* Answers known by hand: the scope's ten cases, its edges, and every cause of every call, alone and with all others. */
#include "test.h"
#include <stdlib.h>
#include <string.h>

/* Recordings A, B, C, D and F of the scope. */
static const uint32_t A[] = {2, 0, 0, 1, 2, 0, 0, 1}, B[] = {2, 1, 2, 1, 2, 1}, C[] = {6, 5, 3, 2, 4, 1, 4, 1, 2},
                      D[] = {2, 1, 0, 0}, F[] = {0, 0};

/* A length, or refusal 9 where it is 0, with the two counts of a whole run. */
static void ten_cases(void) {
    static const struct {
        const uint32_t *words;
        size_t count;
        uint32_t n, measure, length, compositions, tests;
    } cases[] = {{A, 8, 2, 1, 0, 0, 1}, {A, 8, 2, 2, 2, 6, 4}, {A, 8, 2, 3, 2, 3, 4}, {A, 8, 2, 4, 3, 4, 4},
                 {B, 6, 2, 1, 3, 2, 3}, {B, 6, 2, 3, 1, 0, 3}, {C, 9, 3, 1, 1, 3, 5}, {D, 4, 2, 1, 0, 1, 3},
                 {D, 4, 2, 3, 2, 0, 2}, {F, 2, 2, 2, 1, 0, 1}};
    for (size_t i = 0; i < sizeof cases / sizeof *cases; i++) {
        uint32_t n = cases[i].n, measure = cases[i].measure, m = (uint32_t)cases[i].count / n, list[32] = {0};
        size_t need = NOOKMALLOW_AREA_WORDS(n, measure, m);
        uint32_t *area = words_of(need), spent = measure == 2 ? m - 1 : 0;
        nookmallow_answer r = call_whole(n, measure, cases[i].words, cases[i].count, area, need);
        CHECK(r.refusal == (cases[i].length ? 0 : 9) && r.length == cases[i].length);
        CHECK(r.compositions == cases[i].compositions && r.tests == cases[i].tests);

        /* Pick by pick the list of measure 2 is handed over, and costs nothing. */
        for (size_t k = 0; k < cases[i].count; k++) list[k % n] |= cases[i].words[k];
        nookmallow_handed h = call_open(n, measure, m, list, n, area, need);
        for (uint32_t k = 0; k < m; k++) h = call_pick(h.place, area, need, cases[i].words + k * n, n);
        nookmallow_measured q = call_length(h.place);
        CHECK(h.refusal == 0 && q.refusal == r.refusal && q.length == r.length);
        CHECK(q.compositions == r.compositions - spent && q.tests == r.tests);
        free(area);
    }
    uint32_t out[3] = {7, 7, 7};
    CHECK(call_table(2, A, 8, out, 3) == 0 && out[0] == 2 && out[1] == 1 && out[2] == 7);
}

/* Yes or no of a window length, with the two counts. */
static void decisions(void) {
    static const struct {
        const uint32_t *words;
        size_t count;
        uint32_t n, measure, k, yes, compositions, tests;
    } cases[] = {{A, 8, 2, 3, 1, 0, 0, 1}, {A, 8, 2, 3, 2, 1, 3, 3}, {A, 8, 2, 3, 3, 1, 4, 2}, {A, 8, 2, 3, 4, 1, 3, 1},
                 {A, 8, 2, 2, 1, 0, 3, 1}, {A, 8, 2, 2, 2, 1, 6, 3}, {A, 8, 2, 4, 2, 0, 1, 1}, {A, 8, 2, 4, 3, 1, 4, 2},
                 {A, 8, 2, 1, 1, 0, 0, 1}, {B, 6, 2, 1, 1, 1, 0, 3}, {B, 6, 2, 1, 3, 1, 2, 1}, {C, 9, 3, 1, 1, 1, 0, 3},
                 {C, 9, 3, 1, 2, 0, 2, 2}, {D, 4, 2, 3, 1, 0, 0, 2}, {D, 4, 2, 3, 2, 1, 1, 1}, {F, 2, 2, 2, 1, 1, 0, 1},
                 {F, 2, 2, 3, 1, 0, 0, 1}};
    for (size_t i = 0; i < sizeof cases / sizeof *cases; i++) {
        uint32_t n = cases[i].n, measure = cases[i].measure;
        size_t need = NOOKMALLOW_AREA_WORDS(n, measure, cases[i].count / n);
        uint32_t *area = words_of(need);
        nookmallow_decision d = call_decide(n, measure, cases[i].words, cases[i].count, cases[i].k, area, need);
        CHECK(d.refusal == 0 && d.yes == cases[i].yes);
        CHECK(d.compositions == cases[i].compositions && d.tests == cases[i].tests);
        free(area);
    }
}

/* Both ends of k: 1 and m are answered, 0 and m + 1 are 17, and so is the largest number. */
static void ends_of_k(const uint32_t *words, uint32_t measure, uint32_t m, uint32_t *area) {
    size_t need = NOOKMALLOW_AREA_WORDS(2, measure, m);
    const uint32_t bad[] = {0, m + 1, ~0u}, good[] = {1, m};
    for (int i = 0; i < 3; i++) {
        CHECK(call_decide(2, measure, words, 2 * m, bad[i], area, need).refusal == 17);
        CHECK(call_decide(2, measure, words, 2 * m, bad[i], area, need - 1).refusal == 4);
    }
    for (int i = 0; i < 2; i++) {
        nookmallow_decision d = call_decide(2, measure, words, 2 * m, good[i], area, need + 1);
        CHECK(d.refusal == 0 && d.yes == 1 && d.tests == m - good[i] + 1);
        CHECK(call_decide(2, measure, words, 2 * m, good[i], area, need - 1).refusal == 4);
    }
}

/* Both ends of each range, and an area exact to the word. */
static void edges(void) {
    for (uint32_t measure = 1; measure <= 4; measure++) {
        for (uint32_t n = 1; n <= 33; n += n == 2 ? 30 : 1) {
            for (uint32_t limit = 0; limit <= 4097; limit += limit == 1 ? 4095 : 1) {
                uint32_t list[33] = {0}, want = n < 2 || n > 32 ? 1 : limit < 1 || limit > 4096 ? 3 : 0;
                size_t need = NOOKMALLOW_AREA_WORDS(n, measure, limit);
                uint32_t *area = words_of(need + 3);
                CHECK(call_open(n, measure, limit, list, n, area, need - 1).refusal == (want ? want : 4));
                nookmallow_handed h = call_open(n, measure, limit, list, n, area, need);
                CHECK(h.refusal == want);
                if (want == 0) {
                    CHECK(h.place.boards == n && h.place.limit == limit && h.place.start == 1 && h.place.taken == 0);
                    CHECK(call_length(h.place).refusal == 8);
                    CHECK(call_pick(h.place, area, need - 1, list, n).refusal == 4);
                    CHECK(call_pick(h.place, area, need, list, n).refusal == 0);
                } else {
                    const nookmallow_place zeros = {0, 0, 0, 0, 0, 0, 0, 0, 0, 0};
                    CHECK(memcmp(&h.place, &zeros, sizeof zeros) == 0);
                    CHECK(call_pick(h.place, area, need, list, n).refusal == 16 && call_length(h.place).refusal == 16);
                }
                free(area);
            }
        }
    }
    /* As many picks as there can be, and one more. */
    uint32_t *words = words_of(2 * 4097), *area = words_of(NOOKMALLOW_AREA_WORDS(2, 4, 4097)), out[2] = {0, 0};
    for (size_t i = 0; i < 2 * 4097; i++) words[i] = i % 2 ? 1 : 2;
    for (uint32_t measure = 1; measure <= 4; measure++) {
        size_t need = NOOKMALLOW_AREA_WORDS(2, measure, 4096);
        CHECK(call_whole(2, measure, words, 2 * 4096, area, need).length == (measure == 1 ? 4096 : 1));
        CHECK(call_whole(2, measure, words, 2 * 4096, area, need - 1).refusal == 4);
        CHECK(call_whole(2, measure, words, 2 * 4097, area, NOOKMALLOW_AREA_WORDS(2, measure, 4097)).refusal == 3);
        CHECK(call_decide(2, measure, words, 2 * 4097, 1, area, NOOKMALLOW_AREA_WORDS(2, measure, 4097)).refusal == 3);
        for (uint32_t m = 1; m <= 4096; m = m < 3 ? m + 1 : m == 3 ? 4096 : 4097) ends_of_k(words, measure, m, area);
    }
    CHECK(call_table(2, words, 2 * 4096, out, 2) == 0 && call_table(2, words, 2 * 4097, out, 2) == 3);
    free(words);
    free(area);
}

/* Each word of the place moved just out of its range is 16, and just inside it is not. */
static void sixteen(void) {
    uint32_t area[NOOKMALLOW_AREA_WORDS(3, 3, 6)], full[3] = {6, 5, 3}, none[3] = {0, 0, 0};
    const size_t need = sizeof area / 4;
    nookmallow_handed h = call_open(3, 3, 6, NULL, 0, area, need);
    nookmallow_place fresh = h.place, p;
    static const struct {
        int word;
        uint32_t value;
    } bad[] = {{0, 1}, {0, 33}, {0, ~0u}, {1, 0}, {1, 5}, {2, 0}, {2, 4097}, {2, 3}, {3, 7}, {3, ~0u}, {4, 0}, {4, ~0u},
               {5, 5}, {5, ~0u}, {6, 2}, {6, ~0u}, {7, 2}, {7, 256}, {7, 0x80000001u}, {8, 17}, {8, ~0u}, {9, 9},
               {9, ~0u}},
      fresh_bad[] = {{4, 2}, {6, 1}, {7, 1}, {8, 1}, {9, 1}, {5, 1}, {4, 0}},
      good[] = {{4, 1}, {6, 0}, {6, 1}, {7, 0}, {7, 1}, {8, 16}, {8, 0}, {9, 8}, {9, 0}};
    for (int k = 0; k < 4; k++) h = call_pick(h.place, area, need, k % 2 ? full : none, 3);
    for (size_t i = 0; i < sizeof bad / sizeof *bad; i++) {
        p = h.place;
        ((uint32_t *)&p)[bad[i].word] = bad[i].value;
        CHECK(call_pick(p, area, need, full, 3).refusal == 16);
        CHECK(call_length(p).refusal == 16);
    }
    for (size_t i = 0; i < sizeof fresh_bad / sizeof *fresh_bad; i++) {
        p = fresh;
        ((uint32_t *)&p)[fresh_bad[i].word] = fresh_bad[i].value;
        CHECK(call_pick(p, area, need, full, 3).refusal == 16);
        CHECK(call_length(p).refusal == 16);
    }
    for (size_t i = 0; i < sizeof good / sizeof *good; i++) {
        uint32_t other[sizeof area / 4];
        memcpy(other, area, sizeof area);
        p = h.place;
        ((uint32_t *)&p)[good[i].word] = good[i].value;
        CHECK(call_pick(p, other, need, full, 3).refusal == 0);
    }
    /* s above m when m is 1 or more, and s above b + 1, each by itself. */
    p = h.place;
    p.boundary = p.taken;
    p.start = p.taken + 1;
    CHECK(call_length(p).refusal == 16);
    p = h.place;
    p.boundary = 1;
    p.start = 3;
    CHECK(call_length(p).refusal == 16);
}

/*
 * Saving at both ends of n and of the number of picks, none among them. All links open, all shut, and so on by turns,
 * so the file has the most bytes that there can be; the output is longer, exact to the byte, and one byte short.
 */
static void longest_files(void) {
    for (uint32_t n = 1; n <= 33; n += n == 2 ? 30 : 1) {
        for (uint32_t m = 0; m <= 4097; m += m == 2 ? 4094 : 1) {
            uint32_t want = n < 2 || n > 32 ? 1 : m > 4096 ? 3 : 0, all = n < 32 ? (1u << n) - 1 : ~0u;
            size_t count = (size_t)m * n, most = want ? 64 : NOOKMALLOW_FILE_BYTES(n, m);
            uint32_t *words = words_of(count), length = want ? 0 : (uint32_t)most;
            uint8_t *out = bytes_of(most + 3);
            for (size_t i = 0; i < count; i++) words[i] = i / n % 2 ? 0 : all & ~(1u << (i % n & 31));
            for (size_t spare = 0; spare <= 3; spare += 3) {
                nookmallow_saved s = call_save(n, words, count, out, most + spare);
                CHECK(s.refusal == want && s.length == length);
            }
            nookmallow_saved s = call_save(n, words, count, out, most - 1);
            CHECK(s.refusal == (want ? want : 18) && s.length == 0);
            if (count) CHECK(call_save(n, words, count - 1, out, most).refusal == (want == 1 ? 1 : 10));
            /* A forbidden bit in the last word. */
            if (count) words[count - 1] |= n < 32 ? 1u << n : 1u << 31;
            if (count) CHECK(call_save(n, words, count, out, most).refusal == (want ? want : 5));
            free(words);
            free(out);
        }
    }
    CHECK(NOOKMALLOW_FILE_BYTES(2, 0) == 3 && NOOKMALLOW_FILE_BYTES(3, 2) == 41);
    CHECK(NOOKMALLOW_FILE_BYTES(32, 4096) == 12193795);
}

/* Each single bit of each word: forbidden or not, in a pick, a list, and a recording lent whole. */
static void every_bit(uint32_t n) {
    uint32_t area[NOOKMALLOW_AREA_WORDS(32, 1, 1)], words[32] = {0}, out[32] = {0};
    uint8_t file[7] = {0};
    const size_t need = NOOKMALLOW_AREA_WORDS(n, 1, 1);
    for (uint32_t u = 0; u < n; u++) {
        for (uint32_t b = 0; b < 32; b++) {
            uint32_t want = b == u || b >= n ? 5 : 0;
            words[u] = 1u << b;
            memset(area, 0, sizeof area);
            CHECK(call_open(n, 2, 1, words, n, area, need).refusal == want);
            nookmallow_handed h = call_open(n, 1, 1, NULL, 0, area, need);
            CHECK(call_pick(h.place, area, need, words, n).refusal == want);
            CHECK(call_whole(n, 2, words, n, area, need).refusal == want);
            CHECK(call_decide(n, 2, words, n, 1, area, need).refusal == want);
            CHECK(call_table(n, words, n, out, n) == want);
            CHECK(call_save(n, words, n, file, 7).refusal == want);
        }
        words[u] = 0;
    }
}

void test_hand(uint32_t share) {
    ten_cases();
    decisions();
    edges();
    sixteen();
    longest_files();
    for (uint32_t n = 2; n <= 32; n++)
        if (share == 1 || n == 2 || n == 32) every_bit(n);
}
