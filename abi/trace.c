/*
 * A table of sizes and offsets, then of calls and their answers, a line each. The Rust test makes the same table from
 * its own declarations; the two have to be equal byte for byte.
 */
#include "test.h"
#include <stdio.h>

#define ALIGN(type) offsetof(struct { char c; type t; }, t)
#define AT(type, field) printf(" %zu", offsetof(type, field))

static void layout(void) {
    printf("place %zu %zu", sizeof(nookmallow_place), ALIGN(nookmallow_place));
    AT(nookmallow_place, boards);
    AT(nookmallow_place, measure);
    AT(nookmallow_place, limit);
    AT(nookmallow_place, taken);
    AT(nookmallow_place, start);
    AT(nookmallow_place, boundary);
    AT(nookmallow_place, failed);
    AT(nookmallow_place, passed);
    AT(nookmallow_place, compositions);
    AT(nookmallow_place, tests);
    printf("\nhanded %zu %zu", sizeof(nookmallow_handed), ALIGN(nookmallow_handed));
    AT(nookmallow_handed, refusal);
    AT(nookmallow_handed, place);
    printf("\nanswer %zu %zu", sizeof(nookmallow_answer), ALIGN(nookmallow_answer));
    AT(nookmallow_answer, refusal);
    AT(nookmallow_answer, length);
    AT(nookmallow_answer, compositions);
    AT(nookmallow_answer, tests);
    printf("\nmeasured %zu %zu", sizeof(nookmallow_measured), ALIGN(nookmallow_measured));
    AT(nookmallow_measured, refusal);
    AT(nookmallow_measured, length);
    AT(nookmallow_measured, compositions);
    AT(nookmallow_measured, tests);
    AT(nookmallow_measured, place);
    printf("\ndecision %zu %zu", sizeof(nookmallow_decision), ALIGN(nookmallow_decision));
    AT(nookmallow_decision, refusal);
    AT(nookmallow_decision, yes);
    AT(nookmallow_decision, compositions);
    AT(nookmallow_decision, tests);
    printf("\nreading %zu %zu", sizeof(nookmallow_reading), ALIGN(nookmallow_reading));
    AT(nookmallow_reading, refusal);
    AT(nookmallow_reading, boards);
    AT(nookmallow_reading, picks);
    printf("\nsaved %zu %zu", sizeof(nookmallow_saved), ALIGN(nookmallow_saved));
    AT(nookmallow_saved, refusal);
    AT(nookmallow_saved, length);
    printf("\nversion %lu\n", (unsigned long)nookmallow_version());
}

static unsigned long sum_of(const uint32_t *words, size_t count) {
    uint32_t sum = 2166136261u;
    for (size_t i = 0; i < count; i++) sum = (sum ^ words[i]) * 16777619u;
    return sum;
}

static unsigned long sum_of_bytes(const uint8_t *bytes, size_t count) {
    uint32_t sum = 2166136261u;
    for (size_t i = 0; i < count; i++) sum = (sum ^ bytes[i]) * 16777619u;
    return sum;
}

static void print_place(nookmallow_place p) {
    printf(" %lu %lu %lu %lu %lu", (unsigned long)p.boards, (unsigned long)p.measure, (unsigned long)p.limit,
           (unsigned long)p.taken, (unsigned long)p.start);
    printf(" %lu %lu %lu %lu %lu", (unsigned long)p.boundary, (unsigned long)p.failed, (unsigned long)p.passed,
           (unsigned long)p.compositions, (unsigned long)p.tests);
}

static void print_handed(const char *call, nookmallow_handed h, const uint32_t *area, size_t count) {
    printf("%s %lu", call, (unsigned long)h.refusal);
    print_place(h.place);
    printf(" area %lu\n", sum_of(area, count));
}

/* One word of the place altered at times, so that each word is seen to come and go where it should. */
static void alter(nookmallow_place *p) {
    if (below(6)) return;
    uint32_t i = below(10), x = below(3) ? below(8) : draw();
    uint32_t *const fields[10] = {&p->boards, &p->measure, &p->limit, &p->taken, &p->start,
                                  &p->boundary, &p->failed, &p->passed, &p->compositions, &p->tests};
    *fields[i] = x;
}

static void one_round(void) {
    static const uint8_t likely[8] = {0x4F, 0x53, 0x50, 0x45, 0, 1, 2, 0x50};
    uint32_t n = 2 + below(4), measure = 1 + below(4), limit = 1 + below(6), all = (1u << n) - 1;
    uint32_t list[5], words[30], out[40], area[NOOKMALLOW_AREA_WORDS(5, 4, 6) + 2];
    uint8_t bytes[24], file[NOOKMALLOW_FILE_BYTES(5, 6)];
    size_t area_len = NOOKMALLOW_AREA_WORDS(n, measure, limit) + below(3);
    for (uint32_t u = 0; u < n; u++) list[u] = all & ~(1u << u);
    for (uint32_t i = 0; i < 6 * n; i++) words[i] = draw() & list[i % n];
    for (size_t i = 0; i < area_len; i++) area[i] = draw();
    nookmallow_handed h = nookmallow_open(n, measure, limit, list, n, area, area_len);
    print_handed("open", h, area, area_len);
    for (uint32_t k = 0, picks = below(7); k < picks; k++) {
        nookmallow_place p = h.place;
        alter(&p);
        h = nookmallow_pick(p, area, area_len, words + k * n, n);
        print_handed("pick", h, area, area_len);
        p = h.place;
        alter(&p);
        nookmallow_measured r = nookmallow_length(p);
        printf("length %lu %lu %lu %lu", (unsigned long)r.refusal, (unsigned long)r.length, (unsigned long)r.compositions,
               (unsigned long)r.tests);
        print_place(r.place);
        printf("\n");
    }
    uint32_t count = below(8) ? n * below(7) : below(6 * n + 1);
    nookmallow_answer a = nookmallow_whole(n, measure, words, count, area, area_len);
    printf("whole %lu %lu %lu %lu area %lu\n", (unsigned long)a.refusal, (unsigned long)a.length,
           (unsigned long)a.compositions, (unsigned long)a.tests, sum_of(area, area_len));
    for (size_t i = 0; i < area_len; i++) area[i] = draw();
    uint32_t window = below(8);
    nookmallow_decision y = nookmallow_decide(n, measure, words, count, window, area, area_len);
    printf("decide %lu %lu %lu %lu area %lu\n", (unsigned long)y.refusal, (unsigned long)y.yes,
           (unsigned long)y.compositions, (unsigned long)y.tests, sum_of(area, area_len));
    for (uint32_t i = 0; i < 40; i++) out[i] = draw();
    uint32_t room = below(8);
    uint32_t refusal = nookmallow_table(n, words, (size_t)n * (count / n), out, room);
    printf("table %lu out %lu\n", (unsigned long)refusal, sum_of(out, 40));
    uint32_t bytes_len = below(25);
    for (uint32_t i = 0; i < 24; i++) bytes[i] = likely[below(8)];
    bytes[0] = 0x42;
    bytes[1] = (uint8_t)n;
    bytes[2] = 0x50;
    if (bytes_len > 2) bytes[bytes_len - 1] = 0x45;
    nookmallow_reading d = nookmallow_read(bytes, bytes_len, limit, out, 40);
    printf("read %lu %lu %lu out %lu\n", (unsigned long)d.refusal, (unsigned long)d.boards, (unsigned long)d.picks,
           sum_of(out, 40));
    size_t file_len = NOOKMALLOW_FILE_BYTES(n, count / n);
    uint32_t boards = below(8) ? n : below(7), shorter = below(2) ? 0 : below(20);
    for (size_t i = 0; i < sizeof file; i++) file[i] = (uint8_t)draw();
    file_len -= shorter < file_len ? shorter : file_len;
    nookmallow_saved s = nookmallow_save(boards, words, count, file, file_len);
    printf("save %lu %lu file %lu\n", (unsigned long)s.refusal, (unsigned long)s.length,
           sum_of_bytes(file, sizeof file));
}

void trace(void) {
    layout();
    for (int i = 0; i < 1500; i++) one_round();
}
