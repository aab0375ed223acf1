/*
 * Places and areas as the calls left them: every length after every pick against the bare definitions, with stops and
 * starts, refused picks in between, and at the end the whole run, the decision for every window length and the table of
 * reach.
 */
#include "test.h"
#include <stdio.h>
#include <stdlib.h>
#include <string.h>

static unsigned long answers[5], nines[5], decided[5][2];
static uint32_t longest[5];

/* A pick that is refused for its words: of the wrong number, with a forbidden bit, or outside the list. */
static void try_bad_pick(nookmallow_place p, uint32_t *area, size_t area_len, const uint32_t *list) {
    uint32_t n = p.boards, words[34] = {0}, u = below(n), v = (u + 1) % n, why = 5;
    size_t count = n;
    switch (below(4)) {
    case 0: count = below(2) ? n + 1 : below(n), why = 10; break;
    case 1: words[u] = 1u << u; break;
    case 2: words[u] = n < 32 ? 1u << (n + below(32 - n)) : ~0u; break;
    default:
        if (p.measure != 2 || list[u] >> v & 1) return;
        words[u] = 1u << v;
        why = 6;
    }
    CHECK(call_pick(p, area, area_len, words, count).refusal == why);
}

/* The figures after a pick: the length by the definition, and counts within their bounds. */
static void check_figures(const bare *b, uint32_t refusal, uint32_t length, uint32_t compositions, uint32_t tests,
                          int is_whole) {
    uint32_t want = bare_length(b), m = b->m;
    if ((length != want || refusal != (want ? 0 : 9)) && differ("a length is not that of the definition")) {
        printf("  n %lu measure %lu picks %lu: got %lu, want %lu\n", (unsigned long)b->n, (unsigned long)b->measure,
               (unsigned long)m, (unsigned long)length, (unsigned long)want);
    }
    CHECK(compositions <= 4 * (m - 1) && tests <= 2 * m);
    if (b->measure >= 2) CHECK(tests == m);
    if (b->measure >= 3 || (b->measure == 2 && !is_whole)) CHECK(compositions <= 3 * (m - 1));
    if (refusal) nines[b->measure]++;
    else answers[b->measure]++;
    if (length > longest[b->measure]) longest[b->measure] = length;
}

/*
 * Every window length of a recording: yes where all windows of it pass, by the definition and by the length; counts
 * within their bounds; an area of any words, and one of words that were never set.
 */
static void decisions_too(const bare *b, const uint32_t *words, size_t room) {
    uint32_t m = b->m, length = bare_length(b), list = b->measure == 2 ? m - 1 : 0;
    size_t count = (size_t)m * b->n, need = NOOKMALLOW_AREA_WORDS(b->n, b->measure, m);
    uint32_t *area = words_of(need + room), *unset = malloc(need * sizeof *unset);
    if (!unset) abort();
    for (uint32_t k = 1; k <= m; k++) {
        uint32_t yes = (uint32_t)bare_decides(b, k);
        nookmallow_decision d = call_decide(b->n, b->measure, words, count, k, area, need + room);
        if ((d.refusal || d.yes != yes) && differ("a decision is not that of the definition"))
            printf("  n %lu measure %lu picks %lu k %lu\n", (unsigned long)b->n, (unsigned long)b->measure, (unsigned long)m,
                   (unsigned long)k);
        CHECK(d.yes == (b->measure == 1 ? k <= length : length != 0 && length <= k));
        CHECK(d.compositions <= 3 * (m - 1) + list && d.tests >= 1 && d.tests <= m - k + 1);
        CHECK(d.tests == m - k + 1 || !d.yes);
        for (size_t i = 0; i < need; i++) area[i] = draw();
        decided[b->measure][d.yes == 1]++;
    }
    CHECK(call_decide(b->n, b->measure, words, count, 1, area, need - 1).refusal == 4);
    CHECK(call_decide(b->n, b->measure, words, count, below(2) ? 0 : m + 1, area, need + room).refusal == 17);
    nookmallow_decision once = call_decide(b->n, b->measure, words, count, m, area, need);
    nookmallow_decision again = nookmallow_decide(b->n, b->measure, words, count, m, unset, need);
    CHECK(memcmp(&once, &again, sizeof once) == 0);
    for (size_t i = 0; i < need; i++) CHECK(unset[i] == 0);
    free(area);
    free(unset);
}

static void whole_too(const bare *b, const uint32_t *words) {
    static bare joined;
    uint32_t list[32] = {0}, out[34] = {0}, room = below(3);
    for (size_t i = 0; i < (size_t)b->m * b->n; i++) list[i % b->n] |= words[i];
    bare_open(&joined, b->n, b->measure, list);
    for (uint32_t k = 0; k < b->m; k++) bare_pick(&joined, words + k * b->n);
    size_t need = NOOKMALLOW_AREA_WORDS(b->n, b->measure, b->m);
    uint32_t *area = words_of(need + room);
    nookmallow_answer r = call_whole(b->n, b->measure, words, (size_t)b->m * b->n, area, need + room);
    check_figures(&joined, r.refusal, r.length, r.compositions, r.tests, 1);
    free(area);
    /* Words that were never set: a checker of memory would see them looked at, or left. */
    area = malloc(need * sizeof *area);
    if (!area) abort();
    nookmallow_answer again = nookmallow_whole(b->n, b->measure, words, (size_t)b->m * b->n, area, need);
    CHECK(memcmp(&r, &again, sizeof r) == 0);
    for (size_t i = 0; i < need; i++) CHECK(area[i] == 0);
    free(area);
    decisions_too(&joined, words, room);
    CHECK(call_table(b->n, words, (size_t)b->m * b->n, out, b->n + room) == 0);
}

/* One recording, pick by pick. */
static void run(uint32_t n, uint32_t measure, uint32_t most) {
    static bare b;
    uint32_t kind = below(KINDS), limit = 1 + below(most), spare = below(5), list[32] = {0};
    size_t need = NOOKMALLOW_AREA_WORDS(n, measure, limit);
    uint32_t *words = words_of((size_t)limit * n), *area = words_of(need + spare), *stored = words_of(need + spare);
    for (uint32_t p = 1; p <= limit; p++) {
        if (p > 1) memcpy(words + (p - 1) * n, words + (p - 2) * n, n * sizeof *words);
        next_pick(kind, n, p, words + (p - 1) * n);
    }
    /* The list is what comes in the first picks or in all: a later link is then outside of it at times. */
    uint32_t listed = below(4) ? limit : 1 + below(limit);
    for (size_t i = 0; i < (size_t)listed * n; i++) list[i % n] |= words[i];
    nookmallow_handed h = call_open(n, measure, limit, list, n, area, need + spare);
    CHECK(h.refusal == 0);
    nookmallow_place kept = h.place;
    memcpy(stored, area, (need + spare) * sizeof *area);
    bare_open(&b, n, measure, list);
    uint32_t stop = below(limit);
    for (uint32_t p = 0; p < limit; p++) {
        if (below(4) == 0) try_bad_pick(h.place, area, need + spare, list);
        if (p == stop) {
            /* The loom stops: place and area are stored, the words are used for something else, and brought back. */
            kept = h.place;
            memcpy(stored, area, (need + spare) * sizeof *area);
            for (size_t i = 0; i < need + spare; i++) area[i] = draw();
            memset(&h, 0xEE, sizeof h);
            memcpy(area, stored, (need + spare) * sizeof *area);
            h.place = kept;
        }
        h = call_pick(h.place, area, need + spare, words + p * n, n);
        if (h.refusal) {
            CHECK(h.refusal == 6 && measure == 2 && listed < limit);
            if (b.m == 0) break;
        } else {
            bare_pick(&b, words + p * n);
        }
        nookmallow_measured r = call_length(h.place);
        CHECK(h.place.taken == b.m && memcmp(&r.place, &h.place, sizeof r.place) == 0);
        check_figures(&b, r.refusal, r.length, r.compositions, r.tests, 0);
    }
    if (b.m == limit) CHECK(call_pick(h.place, area, need + spare, words, n).refusal == 7);
    if (b.m == limit) whole_too(&b, words);
    free(words);
    free(area);
    free(stored);
}

void test_true(uint32_t share) {
    for (uint32_t i = 0; i < 12000 / share; i++) run(2 + below(4), 1 + i % 4, 24);
    for (uint32_t i = 0; i < 1200 / share; i++) run(6 + below(7), 1 + i % 4, 16);
    for (uint32_t i = 0; i < 160 / share; i++) run(i % 5 ? 13 + below(20) : 32, 1 + i % 4, 10);
    for (uint32_t i = 0; i < 60 / share; i++) run(2 + below(3), 1 + i % 4, BARE_PICKS);
    for (uint32_t m = 1; m <= 4; m++) {
        printf("measure %lu: %lu lengths, longest %lu; %lu without a length; %lu yes, %lu no\n", (unsigned long)m,
               answers[m], (unsigned long)longest[m], nines[m], decided[m][1], decided[m][0]);
        if (share == 1) CHECK(answers[m] > 1000 && nines[m] > 1000 && longest[m] > 8);
        if (share == 1) CHECK(decided[m][0] > 1000 && decided[m][1] > 1000);
    }
}

/* Picks at which a long run's length is held against the definition: a start far from pick 1, and both ends. */
static int is_looked_at(uint32_t p, uint32_t last) {
    return p == 1 || p == 2 || p == 50 || p == 1000 || p == 3000 || p == 3001 || p == last;
}

/*
 * A pick of a long run. Measure 1: all links, but at times only a ring, one way round or the other; a window with both
 * fails. The others: all links now and then, so that there is a length.
 */
static void next_long(uint32_t kind, uint32_t n, uint32_t measure, uint32_t p, uint32_t *words) {
    uint32_t all = (1u << n) - 1, way = p % 400 < 200 ? 1 : n - 1;
    next_pick(kind, n, p, words);
    for (uint32_t u = 0; u < n; u++) {
        if (measure == 1) words[u] = p % 23 ? all & ~(1u << u) : 1u << (u + way) % n;
        else if (p % 29 == 0 || p % 31 == 0) words[u] = all & ~(1u << u);
    }
}

/* Up to 4096 picks: at some picks against the definition, at all against the walk as predicted; then whole runs. */
void test_long(uint32_t share) {
    static const struct {
        uint32_t n, measure, kind;
    } runs[] = {{3, 1, 3}, {4, 1, 3}, {2, 2, 1}, {3, 2, 0}, {2, 3, 2}, {3, 3, 1}, {2, 4, 1}, {3, 4, 0}};
    printf("long runs:");
    for (size_t i = 0; i < sizeof runs / sizeof *runs; i++) {
        uint32_t n = runs[i].n, measure = runs[i].measure, limit = 4096 / share, list[4];
        size_t need = NOOKMALLOW_AREA_WORDS(n, measure, limit);
        uint32_t *area = words_of(need), *words = words_of((size_t)limit * n), length = 0;
        for (uint32_t u = 0; u < n; u++) list[u] = ((1u << n) - 1) & ~(1u << u);
        nookmallow_handed h = call_open(n, measure, limit, list, n, area, need);
        for (uint32_t p = 1; p <= limit; p++) {
            uint32_t *w = words + (p - 1) * n;
            if (p > 1) memcpy(w, w - n, n * sizeof *w);
            next_long(runs[i].kind, n, measure, p, w);
            h = call_pick(h.place, area, need, w, n);
            CHECK(h.refusal == 0 && h.place.taken == p);
            length = call_length(h.place).length;
            if (is_looked_at(p, limit)) CHECK(bare_is_length(n, measure, list, words, p, length));
        }
        CHECK(call_pick(h.place, area, need, words, n).refusal == 7);
        /* The length will do; one pick less, or more under measure 1, will not. */
        uint32_t near = measure == 1 ? length + 1 : length - 1;
        CHECK(call_decide(n, measure, words, (size_t)limit * n, length, area, need).yes == 1);
        if (near >= 1 && near <= limit) {
            nookmallow_decision d = call_decide(n, measure, words, (size_t)limit * n, near, area, need);
            CHECK(d.refusal == 0 && d.yes == 0);
        }
        printf(" %lu", (unsigned long)length);
        free(area);
        free(words);
    }
    printf("\n");
    for (uint32_t measure = 1; measure <= 4; measure++) {
        uint32_t n = measure == 4 ? 6 : 32, m = 4096 / share;
        size_t need = NOOKMALLOW_AREA_WORDS(n, measure, m);
        uint32_t *area = words_of(need), *words = words_of((size_t)m * n), out[32] = {0};
        for (uint32_t kind = 0; kind < KINDS; kind++) {
            for (uint32_t p = 1; p <= m; p++) {
                if (p > 1) memcpy(words + (p - 1) * n, words + (p - 2) * n, n * sizeof *words);
                next_pick(kind, n, p, words + (p - 1) * n);
            }
            call_whole(n, measure, words, (size_t)m * n, area, need);
            call_decide(n, measure, words, (size_t)m * n, 1 + below(m), area, need);
            call_table(n, words, (size_t)m * n, out, 32);
        }
        free(area);
        free(words);
    }
}
