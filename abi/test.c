/*
 * The C side of check-abi. `test` runs all rounds, `test N` a part of N of them, `test trace` prints the table that the
 * Rust side prints too. It ends with 0 only where every call did what was predicted.
 */
#include "test.h"
#include <stdio.h>
#include <stdlib.h>
#include <string.h>

static unsigned long differences, calls_made;

/* ---- draws */

static uint64_t state = 0x9E3779B97F4A7C15u;

uint32_t draw(void) {
    state ^= state << 13;
    state ^= state >> 7;
    state ^= state << 17;
    return (uint32_t)(state >> 32);
}

uint32_t below(uint32_t k) { return draw() % k; }

uint32_t *words_of(size_t count) {
    uint32_t *w = malloc((count + 1) * sizeof *w);
    if (!w) abort();
    for (size_t i = 0; i < count; i++) w[i] = draw();
    return w;
}

uint8_t *bytes_of(size_t count) {
    uint8_t *b = malloc(count + 1);
    if (!b) abort();
    for (size_t i = 0; i < count; i++) b[i] = (uint8_t)draw();
    return b;
}

void next_pick(uint32_t kind, uint32_t n, uint32_t p, uint32_t *words) {
    static const uint32_t density[] = {8, 40, 100, 170, 235, 252};
    static uint32_t d;
    uint32_t all = n == 32 ? ~0u : (1u << n) - 1;
    if (p == 1) d = density[below(6)];
    for (uint32_t u = 0; u < n; u++) {
        uint32_t w = 0, bits = all & ~(1u << u);
        for (uint32_t v = 0; v < n; v++) w |= (uint32_t)(below(256) < d) << v;
        if (kind == 0 || (kind == 1 && p == 1)) words[u] = w & bits;        /* each by chance */
        else if (kind == 1) words[u] ^= (below(8) ? 0 : w) & bits;          /* a few change */
        else if (kind == 2) words[u] = (u + p) % n == 0 ? 0 : 1u << (u + 1) % n; /* a ring with a gap that moves */
        else if (kind == 3) words[u] = below(24) ? bits : bits & w;         /* all, with one missing at times */
        else words[u] = (p + u) % (1 + n / 2) ? 0 : bits;                   /* boards that send in turn */
    }
}

/* ---- differences */

enum { PRINTED = 12 };

int differ(const char *what) {
    if (differences++ >= PRINTED) return 0;
    printf("DIFFERENCE after %lu calls: %s\n", calls_made, what);
    return 1;
}

static void print_words(const char *name, const uint32_t *w, size_t count) {
    printf("  %s (%zu):", name, count);
    for (size_t i = 0; i < count && i < 40; i++) printf(" %lx", (unsigned long)w[i]);
    printf(count > 40 ? " ..\n" : "\n");
}

/* Where two runs of words differ first. */
static int same_words(const char *name, const uint32_t *got, const uint32_t *want, size_t count) {
    if (count == 0 || memcmp(got, want, count * sizeof *got) == 0) return 1;
    size_t i = 0;
    while (got[i] == want[i]) i++;
    if (differences < PRINTED)
        printf("  %s word %zu: got %lx, want %lx\n", name, i, (unsigned long)got[i], (unsigned long)want[i]);
    return 0;
}

/* ---- lent copies */

typedef struct {
    uint32_t *block, *words;
    size_t front, count;
} lent;

/* A copy that ends where its block ends, behind 0 to 3 words that nobody may touch; no words may be a null pointer. */
static lent lend(const uint32_t *from, size_t count) {
    lent l;
    l.front = draw() & 3;
    l.count = count;
    l.block = malloc((l.front + count) * sizeof *l.block + (l.front + count == 0));
    if (!l.block) abort();
    for (size_t i = 0; i < l.front; i++) l.block[i] = 0xA5A5A5A5u;
    l.words = l.block + l.front;
    if (count) memcpy(l.words, from, count * sizeof *from);
    else if (draw() & 1) l.words = NULL;
    return l;
}

static int front_kept(const lent *l) {
    for (size_t i = 0; i < l->front; i++)
        if (l->block[i] != 0xA5A5A5A5u) return 0;
    return 1;
}

/* Compares what was lent with what it should hold, hands back what it holds, and ends the loan. */
static int settle(const char *name, lent *l, const uint32_t *want, uint32_t *back) {
    int good = front_kept(l) & same_words(name, l->words, want, l->count);
    if (back && l->count) memcpy(back, l->words, l->count * sizeof *back);
    free(l->block);
    return good;
}

static uint32_t *copy_of(const uint32_t *from, size_t count) {
    uint32_t *w = malloc(count * sizeof *w + 1);
    if (!w) abort();
    if (count) memcpy(w, from, count * sizeof *w);
    return w;
}

/* Bytes lent in the same way, behind 0 to 7 that nobody may touch. */
typedef struct {
    uint8_t *block, *bytes;
    size_t front, count;
} lent_bytes;

static lent_bytes lend_bytes(const uint8_t *from, size_t count) {
    lent_bytes l;
    l.front = draw() & 7;
    l.count = count;
    l.block = malloc(l.front + count + (l.front + count == 0));
    if (!l.block) abort();
    memset(l.block, 0xA5, l.front);
    l.bytes = l.block + l.front;
    if (count) memcpy(l.bytes, from, count);
    else if (draw() & 1) l.bytes = NULL;
    return l;
}

static int settle_bytes(const char *name, lent_bytes *l, const uint8_t *want, uint8_t *back) {
    int good = 1;
    for (size_t i = 0; i < l->front; i++) good &= l->block[i] == 0xA5;
    if (l->count && memcmp(l->bytes, want, l->count) != 0) {
        size_t i = 0;
        while (l->bytes[i] == want[i]) i++;
        if (differences < PRINTED) printf("  %s byte %zu: got %02x, want %02x\n", name, i, l->bytes[i], want[i]);
        good = 0;
    }
    if (back && l->count) memcpy(back, l->bytes, l->count);
    free(l->block);
    return good;
}

/* ---- what each call may answer, and has answered */

enum { OPEN, PICK, LENGTH, WHOLE, DECIDE, TABLE, READ, SAVE, CALLS, LAST_REFUSAL = 18 };
static const char *const names[CALLS] = {"open", "pick", "length", "whole", "decide", "table", "read", "save"};
static const unsigned char may[CALLS][12] = {
    {0, 1, 2, 3, 10, 5, 4, 99}, {0, 16, 7, 10, 5, 4, 6, 99}, {0, 16, 8, 9, 99}, {0, 1, 2, 10, 8, 3, 4, 5, 9, 99},
    {0, 1, 2, 10, 8, 3, 4, 5, 17, 99}, {0, 1, 10, 8, 3, 4, 5, 99}, {0, 3, 11, 12, 1, 4, 13, 14, 7, 15, 99},
    {0, 1, 10, 3, 5, 18, 99}};
static unsigned long seen[CALLS][LAST_REFUSAL + 1];

static void saw(int call, uint32_t refusal) {
    calls_made++;
    if (refusal > LAST_REFUSAL) differ("a refusal above the last");
    else seen[call][refusal]++;
}

/* Each number that a call may answer was answered, and no other. */
static void check_seen(void) {
    for (int c = 0; c < CALLS; c++) {
        printf("%-6s", names[c]);
        for (unsigned r = 0; r <= LAST_REFUSAL; r++) {
            int listed = 0;
            for (int i = 0; may[c][i] != 99; i++) listed |= may[c][i] == r;
            if (listed) printf(" %u:%lu", r, seen[c][r]);
            if (listed != (seen[c][r] != 0)) differ(names[c]);
        }
        printf("\n");
    }
}

/* ---- the calls */

nookmallow_handed call_open(uint32_t n, uint32_t measure, uint32_t limit, const uint32_t *footprint, size_t footprint_len,
                            uint32_t *area, size_t area_len) {
    uint32_t *want = copy_of(area, area_len);
    lent a = lend(area, area_len), f = lend(footprint, footprint_len);
    nookmallow_handed e = walk_open(n, measure, limit, footprint, footprint_len, want, area_len);
    nookmallow_handed h = nookmallow_open(n, measure, limit, f.words, f.count, a.words, a.count);
    int good = settle("area", &a, want, area) & settle("list", &f, footprint, NULL);
    good &= same_words("answer", (uint32_t *)&h, (uint32_t *)&e, sizeof h / 4);
    saw(OPEN, h.refusal);
    if (!good && differ("open")) {
        printf("  n %lu measure %lu limit %lu area %zu\n", (unsigned long)n, (unsigned long)measure, (unsigned long)limit,
               area_len);
        print_words("list", footprint, footprint_len);
    }
    free(want);
    return h;
}

nookmallow_handed call_pick(nookmallow_place p, uint32_t *area, size_t area_len, const uint32_t *words, size_t words_len) {
    uint32_t *want = copy_of(area, area_len), *before = copy_of(area, area_len);
    lent a = lend(area, area_len), w = lend(words, words_len);
    nookmallow_handed e = walk_pick(p, want, area_len, words, words_len);
    nookmallow_handed h = nookmallow_pick(p, a.words, a.count, w.words, w.count);
    int good = settle("area", &a, want, area) & settle("pick", &w, words, NULL);
    good &= same_words("answer", (uint32_t *)&h, (uint32_t *)&e, sizeof h / 4);
    saw(PICK, h.refusal);
    if (h.refusal && (memcmp(&h.place, &p, sizeof p) || (area_len && memcmp(area, before, area_len * 4)))) {
        differ("a refused pick changed something");
        good = 0;
    }
    if (!good && differ("pick")) {
        print_words("place", (uint32_t *)&p, sizeof p / 4);
        print_words("pick", words, words_len);
        print_words("area", before, area_len);
    }
    free(want);
    free(before);
    return h;
}

nookmallow_measured call_length(nookmallow_place p) {
    nookmallow_measured e = walk_length(p), r = nookmallow_length(p);
    saw(LENGTH, r.refusal);
    if (!same_words("answer", (uint32_t *)&r, (uint32_t *)&e, sizeof r / 4) && differ("length"))
        print_words("place", (uint32_t *)&p, sizeof p / 4);
    return r;
}

nookmallow_answer call_whole(uint32_t n, uint32_t measure, const uint32_t *words, size_t words_len, uint32_t *area,
                             size_t area_len) {
    uint32_t *want = copy_of(area, area_len);
    lent a = lend(area, area_len), w = lend(words, words_len);
    nookmallow_answer e = walk_whole(n, measure, words, words_len, want, area_len);
    nookmallow_answer r = nookmallow_whole(n, measure, w.words, w.count, a.words, a.count);
    int good = settle("area", &a, want, area) & settle("words", &w, words, NULL);
    good &= same_words("answer", (uint32_t *)&r, (uint32_t *)&e, sizeof r / 4);
    saw(WHOLE, r.refusal);
    if (!good && differ("whole")) {
        printf("  n %lu measure %lu area %zu\n", (unsigned long)n, (unsigned long)measure, area_len);
        print_words("words", words, words_len);
    }
    free(want);
    return r;
}

nookmallow_decision call_decide(uint32_t n, uint32_t measure, const uint32_t *words, size_t words_len, uint32_t k,
                                uint32_t *area, size_t area_len) {
    uint32_t *want = copy_of(area, area_len);
    lent a = lend(area, area_len), w = lend(words, words_len);
    nookmallow_decision e = walk_decide(n, measure, words, words_len, k, want, area_len);
    nookmallow_decision d = nookmallow_decide(n, measure, w.words, w.count, k, a.words, a.count);
    int good = settle("area", &a, want, area) & settle("words", &w, words, NULL);
    good &= same_words("answer", (uint32_t *)&d, (uint32_t *)&e, sizeof d / 4);
    saw(DECIDE, d.refusal);
    if (!good && differ("decide")) {
        printf("  n %lu measure %lu k %lu area %zu\n", (unsigned long)n, (unsigned long)measure, (unsigned long)k, area_len);
        print_words("words", words, words_len);
    }
    free(want);
    return d;
}

uint32_t call_table(uint32_t n, const uint32_t *words, size_t words_len, uint32_t *out, size_t out_len) {
    uint32_t *want = copy_of(out, out_len);
    lent o = lend(out, out_len), w = lend(words, words_len);
    uint32_t e = walk_table(n, words, words_len, want, out_len);
    uint32_t r = nookmallow_table(n, w.words, w.count, o.words, o.count);
    int good = settle("out", &o, want, out) & settle("words", &w, words, NULL);
    saw(TABLE, r);
    if ((!good || r != e) && differ("table")) {
        printf("  n %lu out %zu: got %lu, want %lu\n", (unsigned long)n, out_len, (unsigned long)r, (unsigned long)e);
        print_words("words", words, words_len);
    }
    free(want);
    return r;
}

nookmallow_reading call_read(const uint8_t *bytes, size_t bytes_len, uint32_t limit, uint32_t *out, size_t out_len) {
    uint32_t *want = copy_of(out, out_len);
    lent o = lend(out, out_len);
    lent_bytes f = lend_bytes(bytes, bytes_len);
    nookmallow_reading e = walk_read(bytes, bytes_len, limit, want, out_len);
    nookmallow_reading r = nookmallow_read(f.bytes, f.count, limit, o.words, o.count);
    int good = settle("out", &o, want, out) & settle_bytes("file", &f, bytes, NULL);
    good &= same_words("answer", (uint32_t *)&r, (uint32_t *)&e, sizeof r / 4);
    saw(READ, r.refusal);
    if (!good && differ("read")) {
        printf("  limit %lu out %zu file", (unsigned long)limit, out_len);
        for (size_t i = 0; i < bytes_len && i < 200; i++) printf(" %02x", bytes[i]);
        printf("\n");
    }
    free(want);
    return r;
}

nookmallow_saved call_save(uint32_t n, const uint32_t *words, size_t words_len, uint8_t *out, size_t out_len) {
    uint8_t *want = malloc(out_len + 1);
    if (!want) abort();
    if (out_len) memcpy(want, out, out_len);
    lent w = lend(words, words_len);
    lent_bytes o = lend_bytes(out, out_len);
    nookmallow_saved e = walk_save(n, words, words_len, want, out_len);
    nookmallow_saved s = nookmallow_save(n, w.words, w.count, o.bytes, o.count);
    int good = settle_bytes("out", &o, want, out) & settle("words", &w, words, NULL);
    good &= same_words("answer", (uint32_t *)&s, (uint32_t *)&e, sizeof s / 4);
    saw(SAVE, s.refusal);
    if (!good && differ("save")) {
        printf("  n %lu out %zu\n", (unsigned long)n, out_len);
        print_words("words", words, words_len);
    }
    free(want);
    return s;
}

int main(int argc, char **argv) {
    uint32_t share = 1;
    if (argc > 1 && strcmp(argv[1], "trace") == 0) {
        trace();
        return 0;
    }
    if (argc > 1) share = (uint32_t)strtoul(argv[1], NULL, 10);
    if (share == 0) share = 1;
    CHECK(nookmallow_version() == NOOKMALLOW_VERSION);
    test_hand(share);
    test_orders();
    test_true(share);
    test_long(share);
    test_altered(share);
    test_files(share);
    if (share == 1) test_stack();
    check_seen();
    printf("%lu calls, %lu differences\n", calls_made, differences);
    return differences != 0;
}
