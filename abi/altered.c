/*
 * Altered places and altered areas: nobody says what their lengths mean, but every answer, every word of the place and
 * every word of the area after each call has to be that of the walk on the words as found.
 */
#include "test.h"
#include <stdio.h>
#include <stdlib.h>
#include <string.h>

enum { AREA = 40000 };
static uint32_t area[AREA];

/* A word near a range's end, near what it was, or anything. */
static uint32_t other_word(uint32_t was) {
    static const uint32_t ends[] = {0, 1, 2, 3, 4, 5, 31, 32, 33, 4095, 4096, 4097, 0x7FFFFFFFu, 0x80000000u, ~0u};
    switch (below(6)) {
    case 0: return ends[below(sizeof ends / sizeof *ends)];
    case 1: return was + 1;
    case 2: return was - 1;
    case 3: return was ^ 1u << below(32);
    case 4: return below(20);
    default: return draw();
    }
}

/* Any place that cause 16 lets through, for an area of this n, measure and limit. */
static nookmallow_place sound_place(uint32_t n, uint32_t measure, uint32_t limit) {
    nookmallow_place p = {n, measure, limit, below(limit + 1), 1, 0, 0, 0, 0, 0};
    if (p.taken == 0) return p;
    p.boundary = below(p.taken + 1);
    p.start = 1 + below(p.boundary < p.taken ? p.boundary + 1 : p.taken);
    p.failed = below(2);
    p.passed = below(4) != 0;
    p.compositions = below(4 * p.taken + 1);
    p.tests = below(2 * p.taken + 1);
    return p;
}

static nookmallow_place alter_place(nookmallow_place p) {
    uint32_t *w = (uint32_t *)&p;
    switch (below(8)) {
    case 0: w[below(10)] = draw(); break;
    case 1: case 2: {
        uint32_t i = below(10);
        w[i] = other_word(w[i]);
        break;
    }
    case 3:
        for (uint32_t k = 2 + below(3); k > 0; k--) {
            uint32_t i = below(10);
            w[i] = other_word(w[i]);
        }
        break;
    case 4: w[6 + below(2)] = 2 + draw() % 0xFFFFFFFEu; break;
    case 5: for (uint32_t i = 0; i < 10; i++) w[i] = draw(); break;
    default: p = sound_place(p.boards, p.measure, p.limit);
    }
    return p;
}

/* Words of every make: small times, single bits, runs of ones, anything. */
static uint32_t odd_word(uint32_t make) {
    switch (make) {
    case 0: return draw();
    case 1: return below(12);
    case 2: return 1u << below(32);
    case 3: return below(2) ? ~0u : 0;
    case 4: return draw() | draw() | draw() | draw();
    default: return draw() & draw() & draw();
    }
}

static void alter_area(size_t count) {
    uint32_t make = below(6);
    switch (below(5)) {
    case 0: break;
    case 1: area[below((uint32_t)count)] ^= 1u << below(32); break;
    case 2: for (uint32_t k = 1 + below(6); k > 0; k--) area[below((uint32_t)count)] = odd_word(make); break;
    default: for (size_t i = 0; i < count; i++) area[i] = odd_word(make);
    }
}

/* A pick that is mostly to be taken: within the list that is found in the area, where there is one. */
static size_t any_pick(const nookmallow_place *p, uint32_t *words) {
    uint32_t n = p->boards >= 2 && p->boards <= 32 ? p->boards : 2;
    next_pick(below(4) == 0 ? 4 : below(4), n, 1 + below(6), words);
    if (p->measure == 2 && p->limit <= 4096 && NOOKMALLOW_AREA_WORDS(n, 2, p->limit) <= AREA && below(8))
        for (uint32_t u = 0; u < n; u++) words[u] &= area[(p->limit + 2) * n + u];
    if (below(24) == 0) words[below(n)] = draw();
    return below(32) ? n : below(34);
}

static unsigned long taken, refused;

static void run(uint32_t n, uint32_t measure, uint32_t limit, uint32_t steps) {
    uint32_t words[34], list[32] = {0}, kind = below(KINDS);
    size_t need = NOOKMALLOW_AREA_WORDS(n, measure, limit), count = need + below(4);
    for (uint32_t u = 0; u < 34; u++) words[u] = 0;
    for (uint32_t u = 0; u < n; u++) list[u] = (n == 32 ? ~0u : (1u << n) - 1) & ~(1u << u);
    for (size_t i = 0; i < count; i++) area[i] = draw();
    nookmallow_handed h = call_open(n, measure, limit, list, n, area, count);
    for (uint32_t p = 1, m = below(limit + 1); p <= m; p++) {
        next_pick(kind, n, p, words);
        h = call_pick(h.place, area, count, words, n);
    }
    nookmallow_place opened = h.place;
    nookmallow_place p = below(6) ? alter_place(h.place) : h.place;
    if (below(6)) alter_area(count);
    /* Another n, measure or limit than it was opened with needs another area: exact, short by a word, or as it is. */
    if (p.boards <= 32 && p.limit <= 4096 && below(4)) {
        size_t other = NOOKMALLOW_AREA_WORDS(p.boards, p.measure, p.limit);
        if (other < AREA - 4) {
            for (size_t i = count; i < other + 4; i++) area[i] = odd_word(below(6));
            count = below(12) == 0 && other > 0 ? other - 1 : other + below(4);
        }
    }
    for (uint32_t k = 0; k < steps; k++) {
        call_length(p);
        size_t words_len = any_pick(&p, words);
        h = call_pick(p, area, count, words, words_len);
        if (h.refusal) refused++;
        else taken++;
        p = h.place;
        /* Refused for good: go on with a place that is not. */
        if (h.refusal == 16 || h.refusal == 7) p = sound_place(opened.boards, opened.measure, opened.limit);
    }
    call_length(p);
}

void test_altered(uint32_t share) {
    for (uint32_t i = 0; i < 60000 / share; i++) run(2 + below(5), 1 + i % 4, 1 + below(12), 1 + below(4));
    for (uint32_t i = 0; i < 4000 / share; i++) run(7 + below(26), 1 + i % 4, 1 + below(6), 1 + below(3));
    for (uint32_t i = 0; i < 4000 / share; i++) run(2 + below(2), 1 + i % 4, 20 + below(60), 12);
    /* Whatever an area held, a whole run answers the same, and so does a decision. */
    for (uint32_t i = 0; i < 4000 / share; i++) {
        uint32_t n = 2 + below(5), measure = 1 + i % 4, m = 1 + below(12), words[12 * 6] = {0};
        size_t need = NOOKMALLOW_AREA_WORDS(n, measure, m);
        for (uint32_t p = 1; p <= m; p++) next_pick(i % KINDS, n, p, words + (p - 1) * n);
        for (size_t k = 0; k < need; k++) area[k] = draw();
        nookmallow_answer r = call_whole(n, measure, words, (size_t)m * n, area, need);
        nookmallow_answer again = call_whole(n, measure, words, (size_t)m * n, area, need);
        CHECK(memcmp(&r, &again, sizeof r) == 0);
        for (size_t j = 0; j < need; j++) area[j] = draw();
        nookmallow_decision d = call_decide(n, measure, words, (size_t)m * n, 1 + i % m, area, need);
        nookmallow_decision later = call_decide(n, measure, words, (size_t)m * n, 1 + i % m, area, need);
        CHECK(d.refusal == 0 && memcmp(&d, &later, sizeof d) == 0);
    }
    /* Any words at all as arguments of the calls that check them. */
    for (uint32_t i = 0; i < 20000 / share; i++) {
        uint32_t words[80], out[80], n = other_word(below(12)), measure = other_word(below(5));
        uint32_t limit = other_word(below(12));
        uint8_t bytes[80];
        size_t count = below(80), room = below(80);
        for (uint32_t k = 0; k < 80; k++) words[k] = below(8) ? below(4) : draw(), out[k] = draw();
        memset(bytes, (int)below(256), sizeof bytes);
        call_open(n, measure, limit, words, count, out, room);
        call_whole(n, measure, words, count, out, room);
        call_decide(n, measure, words, count, other_word(below(12)), out, room);
        call_table(n, words, count, out, room);
        call_save(n, words, count, bytes, room);
    }
    printf("altered: %lu picks taken, %lu refused\n", taken, refused);
    if (share == 1) CHECK(taken > 60000 && refused > 20000);
}
