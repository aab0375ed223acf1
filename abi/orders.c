/*
 * The order of causes: for each call, every set of its causes at once. The number answered has to be the first of the
 * set in the scope's order, so every pair is among them.
 */
#include "test.h"
#include <string.h>

/* The first cause of a set, by the order of the call; 0 where the set is empty. */
static uint32_t first_of(const uint32_t *order, int count, unsigned set) {
    for (int i = 0; i < count; i++)
        if (set >> i & 1) return order[i];
    return 0;
}

static void opening(void) {
    static const uint32_t order[] = {1, 2, 3, 10, 5, 4};
    for (unsigned set = 0; set < 64; set++) {
        for (int other = 0; other < 4; other++) {
            uint32_t n = 3, measure = 2, limit = 5, list[4] = {6, 1, 2, 0}, area[NOOKMALLOW_AREA_WORDS(3, 2, 5)] = {0};
            size_t list_len = 3, area_len = sizeof area / 4;
            if (set & 1) n = other & 1 ? 33 : 1;
            if (set & 2) measure = other & 1 ? 5 : 0;
            if (set & 4) limit = other & 1 ? 4097 : 0;
            if (set & 8) list_len = other & 1 ? 4 : 2;
            if (set & 16) list[0] |= other & 1 ? 8 : 1;
            if (set & 32) area_len = other & 2 ? 0 : area_len - 1;
            CHECK(call_open(n, measure, limit, list, list_len, area, area_len).refusal == first_of(order, 6, set));
        }
    }
    /* No list is read under the other measures: neither 10 nor 5. */
    for (uint32_t measure = 1; measure <= 4; measure++) {
        uint32_t bad[4] = {~0u, ~0u, ~0u, ~0u}, area[NOOKMALLOW_AREA_WORDS(3, 4, 5)] = {0};
        CHECK(call_open(3, measure, 5, bad, 4, area, sizeof area / 4).refusal == (measure == 2 ? 10 : 0));
        CHECK(call_open(3, measure, 5, bad, 3, area, sizeof area / 4).refusal == (measure == 2 ? 5 : 0));
        CHECK(call_open(3, measure, 5, NULL, 0, area, sizeof area / 4).refusal == (measure == 2 ? 10 : 0));
    }
}

static void picking(void) {
    static const uint32_t order[] = {16, 7, 10, 5, 4, 6};
    const uint32_t list[3] = {6, 1, 2}, good[3] = {2, 1, 0};
    uint32_t area[NOOKMALLOW_AREA_WORDS(3, 2, 5)] = {0};
    nookmallow_place at[6];
    at[0] = call_open(3, 2, 5, list, 3, area, sizeof area / 4).place;
    for (int k = 0; k < 5; k++) at[k + 1] = call_pick(at[k], area, sizeof area / 4, good, 3).place;
    for (unsigned set = 0; set < 64; set++) {
        for (int other = 0; other < 4; other++) {
            nookmallow_place p = at[set & 2 ? 5 : other];
            uint32_t words[4] = {2, 1, 0, 0};
            size_t words_len = 3, area_len = sizeof area / 4;
            if (set & 1 && other == 0) p.failed = 2;
            if (set & 1 && other == 1) p.passed = 3;
            if (set & 1 && other == 2) p.tests = 2 * p.taken + 1;
            if (set & 1 && other == 3) p.measure = 0;
            if (set & 4) words_len = other == 0 ? 0 : other == 1 ? 2 : 4;
            if (set & 8) words[0] |= other & 1 ? 1 : 0x80000000u;
            if (set & 16) area_len = other & 1 ? 0 : area_len - 1;
            if (set & 32) words[0] |= 4, words[1] |= 4;
            nookmallow_handed h = call_pick(p, area, area_len, words, words_len);
            CHECK(h.refusal == first_of(order, 6, set));
        }
    }
    /* Under the other measures a link outside of any list is taken. */
    for (uint32_t measure = 1; measure <= 4; measure++) {
        uint32_t room[NOOKMALLOW_AREA_WORDS(3, 4, 5)] = {0}, all[3] = {6, 5, 3};
        nookmallow_place p = call_open(3, measure, 5, list, 3, room, sizeof room / 4).place;
        CHECK(call_pick(p, room, sizeof room / 4, all, 3).refusal == (measure == 2 ? 6 : 0));
    }
}

static void measuring(void) {
    static const uint32_t order[] = {16, 8, 9};
    for (unsigned set = 0; set < 8; set++) {
        uint32_t area[NOOKMALLOW_AREA_WORDS(2, 3, 4)] = {0}, both[2] = {2, 1}, none[2] = {0, 0};
        nookmallow_place p = call_open(2, 3, 4, NULL, 0, area, sizeof area / 4).place;
        if (!(set & 2)) p = call_pick(p, area, sizeof area / 4, set & 4 ? none : both, 2).place;
        if (set & 1) p.tests = 2 * p.taken + 1;
        nookmallow_measured r = call_length(p);
        CHECK(r.refusal == first_of(order, 3, set));
        CHECK(r.length == (set ? 0u : 1u) && r.tests == (set == 0 || set == 4 ? 1u : 0u) && r.compositions == 0);
        CHECK(memcmp(&r.place, &p, sizeof p) == 0);
    }
}

/* Words lent whole under a set of causes: 10, 8 and 3 are about their number, 5 and 9 about their bits. */
static size_t whole_words(uint32_t *words, int ten, int eight, int three, int five, int nine) {
    size_t count = eight ? 0 : three ? 2 * 4097 : 8;
    for (size_t i = 0; i < 2 * 4097 + 1; i++) words[i] = nine ? 0 : i % 2 ? 1 : 2;
    if (five) words[0] |= 1, words[7] |= 4;
    return count + (ten ? 1 : 0);
}

static void whole(void) {
    static const uint32_t order[] = {1, 2, 10, 8, 3, 4, 5, 9};
    static uint32_t words[2 * 4097 + 1], area[NOOKMALLOW_AREA_WORDS(2, 4, 4097)];
    for (unsigned set = 0; set < 256; set++) {
        for (int other = 0; other < 2; other++) {
            size_t count = whole_words(words, set & 4, set & 8, set & 16, set & 64, set & 128);
            uint32_t n = set & 1 ? (other ? 33 : 1) : 2, measure = set & 2 ? (other ? 5 : 0) : other ? 4 : 3;
            size_t need = NOOKMALLOW_AREA_WORDS(2, measure, count / 2);
            nookmallow_answer r = call_whole(n, measure, words, count, area, set & 32 ? need - 1 : need);
            CHECK(r.refusal == first_of(order, 8, set));
            CHECK(r.length == (set ? 0u : 1u) && r.tests == (set == 0 || set == 128 ? 4u : 0u));
        }
    }
    /* No picks are 8 and 3 at once: 8. */
    CHECK(call_whole(2, 3, NULL, 0, NULL, 0).refusal == 8);
}

static void decision(void) {
    static const uint32_t order[] = {1, 2, 10, 8, 3, 4, 5, 17};
    static uint32_t words[2 * 4097 + 1], area[NOOKMALLOW_AREA_WORDS(2, 4, 4097)];
    for (unsigned set = 0; set < 256; set++) {
        for (int other = 0; other < 4; other++) {
            size_t count = whole_words(words, set & 4, set & 8, set & 16, set & 64, 0);
            uint32_t n = set & 1 ? (other & 1 ? 33 : 1) : 2, measure = set & 2 ? (other & 1 ? 5 : 0) : 1 + (uint32_t)other;
            uint32_t m = (uint32_t)count / 2, inside[4] = {1, m, 2, m - 1}, outside[4] = {0, m + 1, 0x80000001u, ~0u};
            uint32_t k = set & 128 ? outside[other] : inside[other];
            size_t need = NOOKMALLOW_AREA_WORDS(2, measure, count / 2);
            nookmallow_decision d = call_decide(n, measure, words, count, k, area, set & 32 ? need - 1 : need);
            CHECK(d.refusal == first_of(order, 8, set));
            CHECK(d.yes == (set ? 0u : 1u) && d.tests == (set ? 0u : m - k + 1));
        }
    }
}

static void table(void) {
    static const uint32_t order[] = {1, 10, 8, 3, 4, 5};
    static uint32_t words[2 * 4097 + 1];
    for (unsigned set = 0; set < 64; set++) {
        for (int other = 0; other < 2; other++) {
            uint32_t out[3] = {9, 9, 9};
            size_t count = whole_words(words, set & 2, set & 4, set & 8, set & 32, 0);
            uint32_t n = set & 1 ? (other ? 33 : 0) : 2;
            CHECK(call_table(n, words, count, out, set & 16 ? (size_t)other : 3) == first_of(order, 6, set));
            CHECK(out[0] == (set ? 9u : 2u) && out[1] == (set ? 9u : 1u) && out[2] == 9);
        }
    }
}

static void saving(void) {
    static const uint32_t order[] = {1, 10, 3, 5, 18}, boards[4] = {1, 33, 0, ~0u};
    static uint32_t words[2 * 4097 + 1];
    static uint8_t out[NOOKMALLOW_FILE_BYTES(2, 4097)];
    const size_t file = 13, shorter[4] = {12, 0, 2, 1}; /* 42 2, both links open, four picks, 45 */
    for (unsigned set = 0; set < 32; set++) {
        for (int other = 0; other < 4; other++) {
            size_t count = whole_words(words, set & 2, 0, set & 4, set & 8, 0), room = sizeof out;
            if (set == 0 && other > 0) room = file;
            if (set & 16) room = shorter[other];
            memset(out, 9, sizeof out);
            nookmallow_saved s = call_save(set & 1 ? boards[other] : 2, words, count, out, room);
            CHECK(s.refusal == first_of(order, 5, set) && s.length == (set ? 0 : file));
            CHECK(out[0] == (set ? 9 : 0x42) && out[12] == (set ? 9 : 0x45) && out[13] == 9);
        }
    }
    /* No picks are neither 8 nor 3. */
    CHECK(call_save(2, NULL, 0, out, 3).refusal == 0 && call_save(2, NULL, 0, out, 2).refusal == 18);
    CHECK(call_save(2, NULL, 0, NULL, 0).refusal == 18 && call_save(33, NULL, 0, NULL, 0).refusal == 1);
}

void test_orders(void) {
    opening();
    picking();
    measuring();
    whole();
    decision();
    table();
    saving();
}
