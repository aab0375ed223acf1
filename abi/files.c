/*
 * Recording files. Read: one by hand for each cause and for pairs of causes, and files made, then damaged, by draws.
 * Saved: the scope's recordings, and recordings by draws, which are read back.
 */
#include "test.h"
#include <stdio.h>
#include <stdlib.h>
#include <string.h>

/* A file in hex, the limit and the output it is read with, and the number answered. */
static const struct {
    const char *hex;
    uint32_t limit, room, refusal;
} files[] = {
    {"42024F0001505300014F01005053010 04F00015053 00014F01005045", 4, 8, 0},
    {"420245", 1, 2, 0},                /* a file without picks */
    {"42 20 4F 1F 00 50 45", 1, 32, 0}, /* 32 boards */
    {"420245", 0, 2, 3},
    {"420245", 4097, 9000, 3},
    {"", 0, 0, 3},           /* 3 before 12 */
    {"99", 0, 0, 3},         /* 3 before 11 */
    {"420150", 4097, 0, 3},  /* 3 before 1 */
    {"", 1, 9, 12},
    {"42", 1, 9, 12},
    {"4202", 1, 9, 12},
    {"42024F", 1, 9, 12},
    {"42024F00", 1, 9, 12},
    {"42025300", 1, 9, 12},
    {"4202504F00", 1, 9, 12},
    {"42024F09", 1, 9, 12},  /* 12 before 13 */
    {"420250", 1, 9, 12},
    {"45", 1, 9, 11},
    {"50", 1, 9, 11},
    {"4F", 1, 9, 11},        /* 11 before 12 */
    {"420242", 1, 9, 11},    /* 11 before 12 */
    {"42024202", 1, 9, 11},
    {"42024200", 1, 9, 11},  /* 11 before 1 */
    {"420299", 1, 9, 11},
    {"420200", 1, 9, 11},
    {"42014F", 1, 9, 1},
    {"4200", 1, 0, 1},       /* 1 before 4 */
    {"4221", 4096, 0, 1},
    {"42FF45", 1, 9, 1},
    {"420245", 5, 9, 4},     /* one word short, though there are no picks */
    {"42024545", 5, 9, 4},   /* 4 before 15 */
    {"420299", 5, 9, 4},     /* 4, met first, before 11 */
    {"42024F000045", 1, 9, 13},
    {"42024F000245", 1, 9, 13},
    {"42024F020045", 1, 9, 13},
    {"420253000045", 1, 9, 13}, /* 13 before 14 */
    {"42025300FF", 1, 9, 13},
    {"420253000145", 1, 9, 14},
    {"42024F00014F000145", 1, 9, 14},
    {"42024F00015300015300 01 45", 1, 9, 14},
    {"42024F0001504F000145", 1, 9, 14}, /* a pick leaves the links as they are */
    {"42025050", 1, 9, 7},   /* 7 before 12 */
    {"4202505045", 1, 9, 7},
    {"420250509945", 1, 9, 7},
    {"42024545", 1, 9, 15},
    {"42024599", 1, 9, 15},  /* 15, not 11 */
    {"42024500", 1, 9, 15},
    {"4202504542024F000145", 1, 9, 15},
};

static size_t from_hex(const char *hex, uint8_t *bytes) {
    size_t count = 0;
    int high = -1;
    for (; *hex; hex++) {
        if (*hex == ' ') continue;
        int d = *hex <= '9' ? *hex - '0' : *hex - 'A' + 10;
        if (high < 0) {
            high = d;
        } else {
            bytes[count++] = (uint8_t)(high * 16 + d);
            high = -1;
        }
    }
    return count;
}

static void by_hand(void) {
    for (size_t i = 0; i < sizeof files / sizeof *files; i++) {
        uint8_t bytes[64];
        size_t count = from_hex(files[i].hex, bytes);
        uint32_t *out = words_of(files[i].room);
        nookmallow_reading r = call_read(bytes, count, files[i].limit, out, files[i].room);
        if (r.refusal != files[i].refusal && differ("a file by hand"))
            printf("  %s: got %lu, want %lu\n", files[i].hex, (unsigned long)r.refusal, (unsigned long)files[i].refusal);
        if (i == 0) {
            static const uint32_t A[8] = {2, 0, 0, 1, 2, 0, 0, 1};
            CHECK(r.boards == 2 && r.picks == 4 && memcmp(out, A, sizeof A) == 0);
        }
        free(out);
    }
}

/* Recordings A, B, C, D and F of the scope, one without picks, and links of boards far apart; their files in hex. */
static const struct {
    uint32_t n, picks, words[10];
    const char *hex;
} saved[] = {
    {2, 4, {2, 0, 0, 1, 2, 0, 0, 1}, "42024F0001505300014F0100505301004F0001505300014F01005045"},
    {2, 3, {2, 1, 2, 1, 2, 1}, "4202 4F0001 4F0100 50 50 50 45"},
    {3, 3, {6, 5, 3, 2, 4, 1, 4, 1, 2}, "4203 4F0001 4F0002 4F0100 4F0102 4F0200 4F0201 50 530002 530100 530201 50"
                                        "530001 530102 530200 4F0002 4F0100 4F0201 50 45"},
    {2, 2, {2, 1, 0, 0}, "4202 4F0001 4F0100 50 530001 530100 50 45"},
    {2, 1, {0, 0}, "4202 50 45"},
    {2, 0, {0}, "4202 45"},
    {32, 0, {0}, "4220 45"},
    {5, 2, {24, 1, 0, 0, 0, 16, 0, 0, 0, 8}, "4205 4F0003 4F0004 4F0100 50 530003 530100 4F0403 50 45"},
};

static void saved_by_hand(void) {
    for (size_t i = 0; i < sizeof saved / sizeof *saved; i++) {
        uint8_t want[64], *out = bytes_of(70);
        size_t length = from_hex(saved[i].hex, want), count = (size_t)saved[i].n * saved[i].picks;
        nookmallow_saved s = call_save(saved[i].n, saved[i].words, count, out, 70);
        if ((s.refusal || s.length != length || memcmp(out, want, length)) && differ("a file saved, by hand"))
            printf("  want %s\n", saved[i].hex);
        CHECK(call_save(saved[i].n, saved[i].words, count, out, length).length == length);
        for (size_t room = 0; room < length; room++)
            CHECK(call_save(saved[i].n, saved[i].words, count, out, room).refusal == 18);
        free(out);
    }
}

static unsigned long files_saved, longest_saved;

/*
 * A recording and its file. Read back it is the same n, picks and words; saved again, the same bytes. The output is
 * exact, and short by a byte or by many; the words lack some of a pick.
 */
static void read_back(uint32_t n, const uint32_t *words, uint32_t m, const uint8_t *file, uint32_t length) {
    uint32_t limit = m < 4095 ? m + below(3) : 4096;
    if (limit == 0) limit = 1;
    size_t count = (size_t)m * n, room = (size_t)limit * n + below(3);
    uint8_t *again = bytes_of(length);
    uint32_t *back = words_of(room);
    nookmallow_reading r = call_read(file, length, limit, back, room);
    CHECK(r.refusal == 0 && r.boards == n && r.picks == m);
    if (m > 0) CHECK(memcmp(back, words, count * sizeof *words) == 0);
    nookmallow_saved s = call_save(n, back, count, again, length);
    CHECK(s.refusal == 0 && s.length == length && memcmp(again, file, length) == 0);
    CHECK(call_save(n, words, count, again, length - 1).refusal == 18);
    CHECK(call_save(n, words, count, again, below(length)).refusal == 18);
    if (m > 0) CHECK(call_save(n, words, count - 1 - below(n - 1), again, length).refusal == 10);
    CHECK(memcmp(again, file, length) == 0);
    CHECK(call_read(file, length - 1, limit, back, room).refusal == 12);
    if (m > 1) CHECK(call_read(file, length, m - 1, back, room).refusal == 7);
    free(again);
    free(back);
}

/* Saves a recording and reads it back; how long its file is. */
static size_t save_and_read(uint32_t n, const uint32_t *words, uint32_t m) {
    size_t most = NOOKMALLOW_FILE_BYTES(n, m), room = most + below(9);
    uint8_t *file = bytes_of(room);
    nookmallow_saved s = call_save(n, words, (size_t)m * n, file, room);
    int good = s.refusal == 0 && s.length >= 3 && s.length <= most;
    CHECK(good);
    if (good) read_back(n, words, m, file, s.length);
    files_saved++;
    if (s.length > longest_saved) longest_saved = s.length;
    free(file);
    return s.length;
}

static void save_some(uint32_t n, uint32_t kind, uint32_t m) {
    uint32_t *words = words_of((size_t)m * n);
    for (uint32_t p = 1; p <= m; p++) {
        if (p > 1) memcpy(words + (p - 1) * n, words + (p - 2) * n, n * sizeof *words);
        next_pick(kind, n, p, words + (p - 1) * n);
    }
    save_and_read(n, words, m);
    /* A forbidden bit anywhere. */
    if (m > 0) {
        uint32_t at = below(m * n), high = n < 32 ? n + below(32 - n) : at % n;
        uint8_t *out = bytes_of(8);
        words[at] |= 1u << (below(2) ? at % n : high);
        CHECK(call_save(n, words, (size_t)m * n, out, below(9)).refusal == 5);
        free(out);
    }
    free(words);
}

/* A file that is good, of some commands; the picks it has. */
static size_t make_file(uint8_t *bytes, uint32_t n, uint32_t commands, uint32_t *picks) {
    uint32_t open[32] = {0};
    size_t at = 0;
    bytes[at++] = 0x42;
    bytes[at++] = (uint8_t)n;
    *picks = 0;
    while (commands-- > 0) {
        uint32_t from = below(n), to = (from + 1 + below(n - 1)) % n;
        if (below(3) == 0) {
            bytes[at++] = 0x50;
            ++*picks;
            continue;
        }
        bytes[at++] = open[from] >> to & 1 ? 0x53 : 0x4F;
        bytes[at++] = (uint8_t)from;
        bytes[at++] = (uint8_t)to;
        open[from] ^= 1u << to;
    }
    bytes[at++] = 0x45;
    return at;
}

static void damage(uint8_t *bytes, size_t *count) {
    static const uint8_t likely[] = {0x42, 0x4F, 0x53, 0x50, 0x45, 0, 1, 2, 31, 32, 33};
    uint32_t i = below((uint32_t)*count);
    switch (below(5)) {
    case 0: bytes[i] = (uint8_t)draw(); break;
    case 1: bytes[i] = likely[below(sizeof likely)]; break;
    case 2: *count = i; break;
    case 3:
        memmove(bytes + i + 1, bytes + i, *count - i);
        bytes[i] = likely[below(sizeof likely)];
        ++*count;
        break;
    default:
        memmove(bytes + i, bytes + i + 1, *count - i - 1);
        --*count;
    }
}

void test_files(uint32_t share) {
    by_hand();
    saved_by_hand();
    for (uint32_t i = 0; i < 40000 / share; i++) {
        uint8_t bytes[400];
        uint32_t picks, n = below(8) ? 2 + below(6) : 2 + below(31);
        size_t count = make_file(bytes, n, below(40), &picks);
        uint32_t limit = picks + below(3), room = limit * n + below(3);
        if (below(16) == 0 && room > 0) room--;
        if (below(16) == 0 && limit > 0) limit--;
        if (limit == 0 && below(4)) limit = 1, room += n;
        uint32_t *out = words_of(room);
        /* What was read is saved in no more bytes than it was read from. */
        if (call_read(bytes, count, limit, out, room).refusal == 0) CHECK(save_and_read(n, out, picks) <= count);
        for (uint32_t k = below(4); k > 0 && count > 0; k--) {
            damage(bytes, &count);
            call_read(bytes, count, limit, out, room);
        }
        free(out);
    }
    for (uint32_t i = 0; i < 8000 / share; i++) save_some(2 + below(5), i % KINDS, below(24));
    for (uint32_t i = 0; i < 1000 / share; i++) save_some(i % 5 ? 7 + below(26) : 32, i % KINDS, below(12));
    for (uint32_t kind = 0; kind < KINDS; kind++) save_some(32, kind, 4096 / share);
    printf("saved and read back: %lu files, the longest of %lu bytes\n", files_saved, longest_saved);
    /* The longest recording there can be, and one pick more. */
    uint8_t *bytes = malloc(2 + 3 + 4097 + 1);
    uint32_t *out = words_of(32 * 4096);
    if (!bytes) abort();
    memcpy(bytes, "\x42\x20\x4F\x1F\x00", 5);
    memset(bytes + 5, 0x50, 4097);
    bytes[5 + 4097] = 0x45;
    CHECK(call_read(bytes, 5 + 4097 + 1, 4096, out, 32 * 4096).refusal == 7);
    bytes[5 + 4096] = 0x45;
    CHECK(call_read(bytes, 5 + 4096 + 1, 4096, out, 32 * 4096).picks == 4096);
    CHECK(call_read(bytes, 5 + 4096 + 1, 4096, out, 32 * 4096 - 1).refusal == 4);
    free(bytes);
    free(out);
}
