/* The calls and the walk, predicted. See walk.h. */
#include "walk.h"
#include "bare.h"
#include <string.h>

enum { MOST = 2 * 32 * 32 };

/* ---- tables of one window */

static size_t width(uint32_t n, uint32_t measure) { return measure == 4 ? (size_t)n * n * 2 : n; }

static int bit(uint32_t word, uint32_t b) { return (word >> b) & 1; }

/* Pick i's own table: its links, or the pairs joined within it, or its number at each of those pairs. */
static void own(uint32_t *t, uint32_t n, uint32_t measure, uint32_t i, const uint32_t *words) {
    if (measure <= 2) {
        memcpy(t, words, n * sizeof *t);
        return;
    }
    for (uint32_t u = 0; u < n; u++) {
        uint32_t to = bare_spread(1u << u, words, n) & ~(1u << u);
        if (measure == 3) {
            t[u] = to;
            continue;
        }
        for (uint32_t v = 0; v < n; v++) t[u * n + v] = t[n * n + u * n + v] = bit(to, v) ? i : 0;
    }
}

/* The least of two times, 0 being none. */
static uint32_t least(uint32_t x, uint32_t y) { return x == 0 || (y != 0 && y < x) ? y : x; }

static uint32_t greatest(uint32_t x, uint32_t y) { return x < y ? y : x; }

/* Measure 4: the halves apart, own entries 0. */
static void compose_times(uint32_t *t, uint32_t n, const uint32_t *a, const uint32_t *b) {
    const uint32_t *da = a + n * n, *db = b + n * n;
    for (uint32_t u = 0; u < n; u++) {
        for (uint32_t v = 0; v < n; v++) {
            uint32_t at = u * n + v, arrival = 0, departure = 0;
            if (u != v) {
                arrival = least(a[at], b[at]);
                departure = greatest(da[at], db[at]);
                for (uint32_t w = 0; w < n; w++) {
                    if (a[u * n + w] != 0) arrival = least(arrival, b[w * n + v]);
                    if (db[w * n + v] != 0) departure = greatest(departure, da[u * n + w]);
                }
            }
            t[at] = arrival;
            t[n * n + at] = departure;
        }
    }
}

/* Part d becomes the composition of part l, the earlier, and part r, the later. */
static void compose(const nookmallow_place *p, uint32_t *area, uint32_t d, uint32_t l, uint32_t r) {
    uint32_t n = p->boards, t[MOST];
    size_t e = width(n, p->measure);
    const uint32_t *a = area + (l - 1) * e, *b = area + (r - 1) * e;
    if (p->measure == 4) {
        compose_times(t, n, a, b);
    } else {
        for (uint32_t u = 0; u < n; u++) {
            t[u] = p->measure == 1 ? a[u] & b[u] : a[u] | b[u];
            if (p->measure != 3) continue;
            for (uint32_t w = 0; w < n; w++)
                if (bit(a[u], w)) t[u] |= b[w];
            t[u] &= ~(1u << u);
        }
    }
    memcpy(area + (d - 1) * e, t, e * sizeof *t);
}

static void copy(const nookmallow_place *p, uint32_t *area, uint32_t d, uint32_t l) {
    size_t e = width(p->boards, p->measure);
    memmove(area + (d - 1) * e, area + (l - 1) * e, e * sizeof *area);
}

static void clear(const nookmallow_place *p, uint32_t *area, uint32_t d) {
    size_t e = width(p->boards, p->measure);
    memset(area + (d - 1) * e, 0, e * sizeof *area);
}

/* Whether the table t passes. Measure 2 compares whole words, the others look at pairs of different boards below n. */
static int passes(uint32_t n, uint32_t measure, const uint32_t *list, const uint32_t *t) {
    if (measure == 2) return memcmp(list, t, n * sizeof *t) == 0;
    for (uint32_t u = 0; u < n; u++) {
        uint32_t to = measure == 1 ? bare_spread(1u << u, t, n) : t[measure == 3 ? u : 0];
        for (uint32_t v = 0; v < n; v++) {
            if (u == v) continue;
            if (measure != 4 && !bit(to, v)) return 0;
            if (measure == 4 && (t[u * n + v] == 0 || t[v * n + u] == 0 || t[u * n + v] > t[n * n + v * n + u])) return 0;
        }
    }
    return 1;
}

/* ---- the walk */

/* Where s exceeds b + 1, b becomes m and the left chain is built over s to m; the right chain is then empty. */
static int turn(nookmallow_place *p, uint32_t *area) {
    if (p->start <= p->boundary + 1) return 0;
    p->boundary = p->taken;
    for (uint32_t i = p->taken; i > p->start; i--) compose(p, area, i - 1, i - 1, i);
    p->compositions += p->taken - p->start;
    clear(p, area, p->limit + 1);
    return 1;
}

static void test(nookmallow_place *p, uint32_t *area) {
    size_t e = width(p->boards, p->measure);
    uint32_t last = p->limit + 2, right = p->limit + 1;
    if (p->start > p->boundary) {
        copy(p, area, last, right);
    } else if (p->boundary == p->taken) {
        copy(p, area, last, p->start);
    } else {
        compose(p, area, last, p->start, right);
        p->compositions++;
    }
    p->passed = passes(p->boards, p->measure, area + (p->limit + 2) * e, area + (p->limit + 1) * e);
    p->tests++;
    if (!p->passed) p->failed = 1;
}

/* A new pick, from which on the window begins at `start`: the chains take it in. */
static void enter(nookmallow_place *p, uint32_t *area, const uint32_t *words, uint32_t start) {
    uint32_t right = p->limit + 1;
    p->taken++;
    own(area + (p->taken - 1) * width(p->boards, p->measure), p->boards, p->measure, p->taken, words);
    p->start = start;
    if (turn(p, area)) return;
    if (p->boundary + 1 == p->taken) {
        copy(p, area, right, p->taken);
    } else {
        compose(p, area, right, right, p->taken);
        p->compositions++;
    }
}

static void take(nookmallow_place *p, uint32_t *area, const uint32_t *words) {
    if (p->measure == 1 && p->taken >= 1 && !p->passed) {
        p->taken++;
        return;
    }
    enter(p, area, words, p->start + (p->measure == 1 ? p->failed : p->passed));
    test(p, area);
    while (p->measure == 1 && !p->passed && p->start < p->taken) {
        p->start++;
        turn(p, area);
        test(p, area);
    }
    clear(p, area, p->limit + 4);
}

/* The same with the window held at k: no test before pick k, then one a pick. */
static void hold(nookmallow_place *p, uint32_t *area, const uint32_t *words, uint32_t k) {
    enter(p, area, words, p->taken + 1 > k ? p->taken + 2 - k : 1);
    if (p->taken >= k) test(p, area);
}

static nookmallow_answer report(const nookmallow_place *p) {
    nookmallow_answer r = {0, 0, p->compositions, p->tests};
    if (p->passed) r.length = p->taken - p->start + 1;
    else if (p->measure != 1 && p->start > 1) r.length = p->taken - p->start + 2;
    else r.refusal = 9;
    return r;
}

/* ---- causes */

static int is_forbidden(uint32_t n, const uint32_t *words, size_t count) {
    for (size_t i = 0; i < count; i++) {
        uint32_t u = (uint32_t)(i % n);
        for (uint32_t b = 0; b < 32; b++)
            if (bit(words[i], b) && (b >= n || b == u)) return 1;
    }
    return 0;
}

static int is_short(uint32_t n, uint32_t measure, size_t limit, size_t area_len) {
    return area_len < (limit + 4) * width(n, measure);
}

int walk_is_bad(nookmallow_place p) {
    uint64_t m = p.taken, b = p.boundary, s = p.start;
    if (p.failed > 1 || p.passed > 1) return 1;
    if (p.boards < 2 || p.boards > 32 || p.measure < 1 || p.measure > 4 || p.limit < 1 || p.limit > 4096) return 1;
    if (m > p.limit || b > m || s < 1 || s > b + 1) return 1;
    if (m >= 1 && s > m) return 1;
    if (m == 0 && (p.failed || p.passed)) return 1;
    return p.compositions > 4 * m || p.tests > 2 * m;
}

/* ---- the calls */

static void set_up(uint32_t n, uint32_t measure, uint32_t limit, const uint32_t *list, uint32_t *area) {
    size_t e = width(n, measure);
    memset(area, 0, (limit + 4) * e * sizeof *area);
    if (measure == 2) memcpy(area + (limit + 2) * e, list, e * sizeof *area);
}

nookmallow_handed walk_open(uint32_t n, uint32_t measure, uint32_t limit, const uint32_t *footprint, size_t footprint_len,
                            uint32_t *area, size_t area_len) {
    nookmallow_handed h = {0, {0, 0, 0, 0, 0, 0, 0, 0, 0, 0}};
    if (n < 2 || n > 32) h.refusal = 1;
    else if (measure < 1 || measure > 4) h.refusal = 2;
    else if (limit < 1 || limit > 4096) h.refusal = 3;
    else if (measure == 2 && footprint_len != n) h.refusal = 10;
    else if (measure == 2 && is_forbidden(n, footprint, n)) h.refusal = 5;
    else if (is_short(n, measure, limit, area_len)) h.refusal = 4;
    if (h.refusal) return h;
    set_up(n, measure, limit, footprint, area);
    h.place.boards = n;
    h.place.measure = measure;
    h.place.limit = limit;
    h.place.start = 1;
    return h;
}

static int is_unlisted(const nookmallow_place *p, const uint32_t *area, const uint32_t *words) {
    for (uint32_t u = 0; u < p->boards; u++)
        if (words[u] & ~area[(p->limit + 2) * p->boards + u]) return 1;
    return 0;
}

nookmallow_handed walk_pick(nookmallow_place p, uint32_t *area, size_t area_len, const uint32_t *words, size_t words_len) {
    nookmallow_handed h = {0, p};
    if (walk_is_bad(p)) h.refusal = 16;
    else if (p.taken == p.limit) h.refusal = 7;
    else if (words_len != p.boards) h.refusal = 10;
    else if (is_forbidden(p.boards, words, words_len)) h.refusal = 5;
    else if (is_short(p.boards, p.measure, p.limit, area_len)) h.refusal = 4;
    else if (p.measure == 2 && is_unlisted(&p, area, words)) h.refusal = 6;
    if (h.refusal == 0) take(&h.place, area, words);
    return h;
}

nookmallow_measured walk_length(nookmallow_place p) {
    nookmallow_measured r = {16, 0, 0, 0, p};
    if (walk_is_bad(p)) return r;
    r.refusal = 8;
    if (p.taken == 0) return r;
    nookmallow_answer a = report(&p);
    r.refusal = a.refusal;
    r.length = a.length;
    r.compositions = a.compositions;
    r.tests = a.tests;
    return r;
}

/* The causes of a recording lent whole, all but the last; 0 for none. */
static uint32_t whole_cause(uint32_t n, uint32_t measure, const uint32_t *words, size_t words_len, size_t area_len) {
    if (n < 2 || n > 32) return 1;
    if (measure < 1 || measure > 4) return 2;
    if (words_len % n) return 10;
    if (words_len == 0) return 8;
    if (words_len / n > 4096) return 3;
    if (is_short(n, measure, words_len / n, area_len)) return 4;
    return is_forbidden(n, words, words_len) ? 5 : 0;
}

/* Before pick 1 of m: the list is made, at the cost of m - 1 under measure 2. */
static nookmallow_place begin(uint32_t n, uint32_t measure, uint32_t m, const uint32_t *words, uint32_t *area) {
    nookmallow_place p = {n, measure, m, 0, 1, 0, 0, 0, measure == 2 ? m - 1 : 0, 0};
    uint32_t list[32] = {0};
    for (size_t i = 0; i < (size_t)m * n; i++) list[i % n] |= words[i];
    set_up(n, measure, m, list, area);
    return p;
}

static void end(const nookmallow_place *p, uint32_t *area) {
    memset(area, 0, (p->limit + 4) * width(p->boards, p->measure) * sizeof *area);
}

nookmallow_answer walk_whole(uint32_t n, uint32_t measure, const uint32_t *words, size_t words_len, uint32_t *area,
                             size_t area_len) {
    nookmallow_answer r = {whole_cause(n, measure, words, words_len, area_len), 0, 0, 0};
    if (r.refusal) return r;
    nookmallow_place p = begin(n, measure, (uint32_t)(words_len / n), words, area);
    while (p.taken < p.limit) take(&p, area, words + p.taken * n);
    end(&p, area);
    return report(&p);
}

nookmallow_decision walk_decide(uint32_t n, uint32_t measure, const uint32_t *words, size_t words_len, uint32_t k,
                                uint32_t *area, size_t area_len) {
    nookmallow_decision d = {whole_cause(n, measure, words, words_len, area_len), 0, 0, 0};
    if (d.refusal == 0 && (k == 0 || k > words_len / n)) d.refusal = 17;
    if (d.refusal) return d;
    nookmallow_place p = begin(n, measure, (uint32_t)(words_len / n), words, area);
    while (p.taken < p.limit && !p.failed) hold(&p, area, words + p.taken * n, k);
    end(&p, area);
    d.yes = !p.failed;
    d.compositions = p.compositions;
    d.tests = p.tests;
    return d;
}

uint32_t walk_table(uint32_t n, const uint32_t *words, size_t words_len, uint32_t *out, size_t out_len) {
    if (n < 2 || n > 32) return 1;
    if (words_len % n) return 10;
    if (words_len == 0) return 8;
    if (words_len / n > 4096) return 3;
    if (out_len < n) return 4;
    if (is_forbidden(n, words, words_len)) return 5;
    for (uint32_t u = 0; u < n; u++) out[u] = bare_reached(u, words, n, words_len / n) & ~(1u << u);
    return 0;
}

/* ---- recording files */

nookmallow_reading walk_read(const uint8_t *bytes, size_t bytes_len, uint32_t limit, uint32_t *out, size_t out_len) {
    static uint32_t staged[4096 * 32];
    const nookmallow_reading none = {0, 0, 0};
    nookmallow_reading r = none;
    uint32_t open[32] = {0}, n = 0, picks = 0, why = 0;
    size_t at = 0;
    int ended = 0;
    if (limit < 1 || limit > 4096) why = 3;
    while (!why && !ended) {
        uint8_t c = at < bytes_len ? bytes[at] : 0;
        int operands = c == 0x42 ? 1 : c == 0x4F || c == 0x53 ? 2 : 0;
        if (at >= bytes_len) why = 12;
        else if ((at == 0) != (c == 0x42)) why = 11;
        else if (c != 0x42 && c != 0x4F && c != 0x53 && c != 0x50 && c != 0x45) why = 11;
        else if (bytes_len - at - 1 < (size_t)operands) why = 12;
        else if (c == 0x42) {
            n = bytes[at + 1];
            if (n < 2 || n > 32) why = 1;
            else if (out_len < (size_t)limit * n) why = 4;
        } else if (operands == 2) {
            uint32_t from = bytes[at + 1], to = bytes[at + 2];
            if (from == to || from >= n || to >= n) why = 13;
            else if (bit(open[from], to) == (c == 0x4F)) why = 14;
            else open[from] ^= 1u << to;
        } else if (c == 0x50) {
            if (picks == limit) why = 7;
            else memcpy(staged + (size_t)picks++ * n, open, n * sizeof *open);
        } else {
            ended = 1;
            if (at + 1 < bytes_len) why = 15;
        }
        at += 1 + (size_t)operands;
    }
    r.refusal = why;
    if (why) return r;
    if (picks) memcpy(out, staged, (size_t)picks * n * sizeof *out);
    r.boards = n;
    r.picks = picks;
    return r;
}

/* A byte of a file: counted, and written where there is an output. The place behind it is answered. */
static size_t put(uint8_t *out, size_t at, uint32_t byte) {
    if (out) out[at] = (uint8_t)byte;
    return at + 1;
}

/* The file of m picks, written where there is an output: how many bytes it has. Each pair is looked at twice a pick. */
static size_t put_file(uint8_t *out, uint32_t n, const uint32_t *words, size_t m) {
    size_t at = put(out, put(out, 0, 0x42), n);
    for (size_t p = 0; p < m; p++) {
        for (int opens = 0; opens <= 1; opens++) {
            for (uint32_t from = 0; from < n; from++) {
                for (uint32_t to = 0; to < n; to++) {
                    int was = p > 0 && bit(words[(p - 1) * n + from], to), is = bit(words[p * n + from], to);
                    if (was == opens || is != opens) continue;
                    at = put(out, at, opens ? 0x4F : 0x53);
                    at = put(out, at, from);
                    at = put(out, at, to);
                }
            }
        }
        at = put(out, at, 0x50);
    }
    return put(out, at, 0x45);
}

nookmallow_saved walk_save(uint32_t n, const uint32_t *words, size_t words_len, uint8_t *out, size_t out_len) {
    nookmallow_saved s = {0, 0};
    if (n < 2 || n > 32) s.refusal = 1;
    else if (words_len % n) s.refusal = 10;
    else if (words_len / n > 4096) s.refusal = 3;
    else if (is_forbidden(n, words, words_len)) s.refusal = 5;
    else if (out_len < put_file(NULL, n, words, words_len / n)) s.refusal = 18;
    if (s.refusal == 0) s.length = (uint32_t)put_file(out, n, words, words_len / n);
    return s;
}
