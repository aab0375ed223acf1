/* Lengths by the definitions alone. See bare.h. */
#include "bare.h"
#include <string.h>

uint32_t bare_spread(uint32_t set, const uint32_t *words, uint32_t n) {
    uint32_t queue[32], count = 0, all = n == 32 ? ~0u : (1u << n) - 1;
    set &= all;
    for (uint32_t u = 0; u < n; u++)
        if (set >> u & 1) queue[count++] = u;
    for (uint32_t i = 0; i < count; i++) {
        uint32_t fresh = words[queue[i]] & all & ~set;
        for (uint32_t v = 0; v < n; v++)
            if (fresh >> v & 1) queue[count++] = v;
        set |= fresh;
    }
    return set;
}

uint32_t bare_reached(uint32_t u, const uint32_t *words, uint32_t n, size_t m) {
    uint32_t set = 1u << u;
    for (size_t k = 0; k < m; k++) set = bare_spread(set, words + k * n, n);
    return set;
}

/* ---- windows of k picks, numbered from 0, that begin at `words` */

/* The first pick by whose end a message of u, sent from pick s on, is at v; k where it never is. */
static uint32_t arrival(const uint32_t *words, uint32_t n, uint32_t k, uint32_t u, uint32_t v, uint32_t s) {
    uint32_t set = 1u << u;
    for (uint32_t i = s; i < k; i++) {
        set = bare_spread(set, words + i * n, n);
        if (set >> v & 1) return i;
    }
    return k;
}

/* The earliest message of u is at v at or before the last pick at which one of v can leave that still gets to u. */
static int round_trip(const uint32_t *words, uint32_t n, uint32_t k, uint32_t u, uint32_t v) {
    uint32_t there = arrival(words, n, k, u, v, 0);
    for (uint32_t s = k; s > 0; s--)
        if (arrival(words, n, k, v, u, s - 1) < k) return there <= s - 1;
    return 0;
}

static int window_passes(uint32_t n, uint32_t measure, const uint32_t *list, const uint32_t *words, uint32_t k) {
    uint32_t both[32], either[32];
    memcpy(both, words, n * sizeof *both);
    memcpy(either, words, n * sizeof *either);
    for (uint32_t i = n; i < k * n; i++) {
        both[i % n] &= words[i];
        either[i % n] |= words[i];
    }
    if (measure == 2) return memcmp(either, list, n * sizeof *either) == 0;
    for (uint32_t u = 0; u < n; u++) {
        for (uint32_t v = 0; v < n; v++) {
            if (u == v) continue;
            if (measure == 1 && !(bare_spread(1u << u, both, n) >> v & 1)) return 0;
            if (measure == 3 && arrival(words, n, k, u, v, 0) == k) return 0;
            if (measure == 4 && !round_trip(words, n, k, u, v)) return 0;
        }
    }
    return 1;
}

/* ---- few picks: every window once */

void bare_open(bare *b, uint32_t n, uint32_t measure, const uint32_t *list) {
    memset(b, 0, sizeof *b);
    b->n = n;
    b->measure = measure;
    if (measure == 2) memcpy(b->list, list, n * sizeof *list);
}

void bare_pick(bare *b, const uint32_t *words) {
    uint32_t e = b->m++;
    memcpy(b->words + e * b->n, words, b->n * sizeof *words);
    for (uint32_t s = 0; s <= e; s++)
        b->pass[s][e] = (unsigned char)window_passes(b->n, b->measure, b->list, b->words + s * b->n, e - s + 1);
}

int bare_decides(const bare *b, uint32_t k) {
    for (uint32_t s = 0; s + k <= b->m; s++)
        if (!b->pass[s][s + k - 1]) return 0;
    return 1;
}

uint32_t bare_length(const bare *b) {
    for (uint32_t i = 1; i <= b->m; i++) {
        uint32_t k = b->measure == 1 ? b->m + 1 - i : i;
        if (bare_decides(b, k)) return k;
    }
    return 0;
}

/* ---- many picks: one length */

/* Whether all windows of k pass. */
static int will_do(uint32_t n, uint32_t measure, const uint32_t *list, const uint32_t *words, uint32_t m, uint32_t k) {
    for (uint32_t s = 0; s + k <= m; s++)
        if (!window_passes(n, measure, list, words + s * n, k)) return 0;
    return 1;
}

int bare_is_length(uint32_t n, uint32_t measure, const uint32_t *list, const uint32_t *words, uint32_t m, uint32_t k) {
    if (k > m || (k && !will_do(n, measure, list, words, m, k))) return 0;
    if (measure == 1) {
        for (uint32_t more = k + 1; more <= m; more++)
            if (will_do(n, measure, list, words, m, more)) return 0;
    } else {
        for (uint32_t less = 1; less < (k ? k : m + 1); less++)
            if (will_do(n, measure, list, words, m, less)) return 0;
    }
    return 1;
}
