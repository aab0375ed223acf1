/*
 * Nookmallow: lengths of a light-linked harness, for controllers in C or C++.
 *
 * Up to 32 boards talk by one-way light links, and each pick of the loom has its own set of open links. From the links,
 * recorded pick by pick, this part works out four lengths from which a controller sets its waits; it also reads and
 * writes recording files. It answers every input: with the figures asked for, or with one of the 18 refusals below. It
 * keeps nothing between calls, allocates nothing, never stops the program, and needs nothing but memcpy, memmove and
 * memset of your C library.
 *
 * Link with libnookmallow.a (x86-64 Linux calling convention). Keep to the declarations below: nothing checks at run
 * time that a pointer is valid and a count true.
 *
 * ---- An example: the reach length after each of four picks over two boards
 *
 *     #include "nookmallow.h"
 *     #include <stdio.h>
 *
 *     int main(void) {
 *         static const uint32_t picks[4][2] = {{2, 0}, {0, 1}, {2, 0}, {0, 1}};
 *         static uint32_t area[NOOKMALLOW_AREA_WORDS(2, NOOKMALLOW_REACH, 4)];
 *         size_t size = sizeof area / sizeof area[0], i;
 *         nookmallow_handed h = nookmallow_open(2, NOOKMALLOW_REACH, 4, NULL, 0, area, size);
 *         for (i = 0; h.refusal == NOOKMALLOW_OK && i < 4; i++) {
 *             h = nookmallow_pick(h.place, area, size, picks[i], 2);
 *             if (h.refusal == NOOKMALLOW_OK) {
 *                 nookmallow_measured r = nookmallow_length(h.place);
 *                 printf("pick %u: length %u, refusal %u\n", (unsigned)(i + 1), (unsigned)r.length, (unsigned)r.refusal);
 *             }
 *         }
 *         return (int)h.refusal;
 *     }
 *
 * It prints length 0 with refusal 9 after pick 1 (set no wait), and length 2 with refusal 0 after each of the others
 * (wait 2 picks or more).
 *
 * ---- The words of a pick
 *
 * Boards are numbered 0 to n - 1, n from 2 to 32. Picks are numbered from 1, at most 4096. A pick is n words of 32
 * bits: bit v of word u, which is (words[u] >> v) & 1, is 1 when light passes from board u to board v. Links are
 * one-way: a link both ways is two bits. Bit u of word u, and bits n and above, must be 0. A whole recording is its
 * picks one after the other: pick p begins at word (p - 1) * n.
 *
 * ---- The four lengths
 *
 * A window of k is k picks in a row, wherever it begins. A length is from 1 to the number of picks m, and is taken over
 * all windows of the picks so far:
 *
 *   1 common      the LARGEST k such that in every window of k the links open at all of its picks lead from every board
 *                 to every other (interval connectivity).
 *   2 footprint   the SMALLEST k such that in every window of k each link of the list is open at some pick, and no
 *                 other link is (footprint realization). The list is handed over at the opening; of a whole run it is
 *                 all links that are open at any of its picks.
 *   3 reach       the SMALLEST k such that in every window of k each board gets a message to each other board, over
 *                 open links in the order of the picks, many links in one pick if need be (temporal diameter).
 *   4 round trip  the SMALLEST k such that in every window of k, for every board u and every other board v, the
 *                 earliest message from u is at v at or before the latest pick at which v can still send one that gets
 *                 to u (round-trip temporal diameter). So v answers in the very pick in which it hears; where a board
 *                 needs longer to answer, this length can be too short.
 *
 * Setting a wait. The pick at which you start counts as the first of the k. Whatever pick p you start at, once pick
 * p + k - 1 is done: every link of the list has been open (2), what any board sent at p is at every other (3), and its
 * answer has come back (4). So under measures 2 to 4 wait k picks OR MORE; k - 1 is too short somewhere in what was
 * recorded. Under measure 1 count on a lasting set of links for k picks OR FEWER. A length speaks of the picks taken,
 * and of no others, so ask again after each pick: under measures 2 to 4 a later pick can make it longer, never shorter;
 * under measure 1 it can become longer, by one pick, only while it equals m, and once it is below m it never does.
 * Where the wait is built in, nookmallow_decide says whether it will do for what was recorded.
 *
 * ---- A design that is repeated
 *
 * A window from the end of a design into its next round is a window only if you hand over those picks too, and handing
 * the design over twice can still give a wait that is too short. Hand over m picks of the repetition of a design of d
 * picks, round after round from its first pick on, m at least d:
 *   - under measures 2 to 4 a length k that is AT MOST m - d + 1 is the length of every greater number of picks of the
 *     repetition, so a wait set from it holds however often the design is repeated. Where k is greater, or there is
 *     none (9), hand over more rounds before you set a wait: two will do for a k of up to d + 1, three for a k of up to
 *     2 * d + 1. Under measure 2 the list has the links of the design.
 *   - under measure 1 count on the smaller of k and m - d + 1 picks: every window of so many passes, however often the
 *     design is repeated.
 * Both are proved.
 *
 * ---- After a refusal
 *
 * A refused pick is not among the picks taken. If the loom goes on all the same, the length is not that of what was
 * woven: set no wait from it before you have done what follows.
 *   1, 2, 3    the setup is wrong.
 *   4, 5, 10   nothing has changed: put the cause right and hand the pick over again.
 *   6          the list lacks a link. Open anew with a list that has it, and hand over all picks again from pick 1. So
 *              keep the picks where the list is not certain; without them no length of all picks can be had.
 *   7          the limit is reached. See the next paragraph.
 *   8, 9       no length, and `length` is 0: set no wait from it. Under measures 2 to 4 it may end with a later pick;
 *              under measure 1 a 9 stays, whatever comes.
 *   11 to 15   the file is wrong where the number says; nothing was read.
 *   16         the place was altered or never opened. Open anew and hand over all picks again; or, where you know the
 *              length after some pick, hand over the last R picks up to that one and every pick since, as below.
 *   17         no window of k picks lies in the recording, and nothing has changed: ask with a k from 1 to m, or lend
 *              more picks.
 *   18         the file of the recording is longer than the output, and nothing has changed: for m picks lend
 *              NOOKMALLOW_FILE_BYTES(n, m) bytes, and save again.
 *
 * ---- Going on past the limit
 *
 * Below 4096 you may open anew with a greater limit and hand over all picks again. Or, at any limit: open anew with the
 * same n, measure and list, hand over the last R picks of those taken once more (R below the limit), then the refused
 * pick, and go on. When this opening is full too, do so again, with the same R. Keep the last R picks, and the last
 * length of each full opening; in a new opening ask for the length once the refused pick is in.
 *   - under measures 2 to 4 let k be the greatest of those lengths and of the length now. Where k is AT MOST R + 1, it
 *     is the length of all picks together. Once it is greater, the length of all picks together is not known and may be
 *     greater than k, and no later opening mends that: set no wait from k. So choose an R well above your longest wait.
 *     While the length now is a 9, and after a full opening that ended with a 9, it is not known either.
 *   - under measure 1 count on the smallest of those lengths, of the length now and of R + 1: every window of so many
 *     of all picks passes. With a 9 among them count on nothing.
 * Both are proved. Handing over R + 1 picks in the time of one costs up to 4 * R compositions and 2 * R + 2 tests, and
 * opening writes all words that the area needs. Where that is too much for one pick, open the next walk, in an area of
 * its own, R picks before the limit, and hand each pick to both.
 *
 * ---- What a pick costs
 *
 * The work is counted in compositions (of two windows) and tests (of one). The totals for m picks are at most
 * 4 * (m - 1) and 2 * m, but they are not spread evenly, so a controller that budgets by pick must allow more: pick m
 * alone can make up to m - 1 compositions, where it builds the windows of its area anew, and under measure 1 up to m
 * tests; under measures 2 to 4 it makes one test. (This is proved.) A composition takes at most some n steps under
 * measures 1 and 2, n * n under 3 and n * n * n under 4; a test n under 2 and 3, n * n under 1 and 4. What a pick costs
 * besides does not grow with m. The smaller the limit, the smaller the greatest pick: where 4095 compositions in one
 * pick are too many, open with a smaller limit and go on past it as above.
 *
 * ---- Place and area: stopping and starting at any pick
 *
 * All that is kept between calls is a place (ten words, handed in and handed back by value) and an area (your words,
 * changed by the calls). You keep both; keep them together and unaltered. To stop a loom and start it at any later
 * time, store nookmallow_version(), the place and the first NOOKMALLOW_AREA_WORDS(n, measure, limit) words of the area
 * once a call has returned; to start, bring back both and go on with the next pick. The area may lie elsewhere then,
 * also in another machine of the same byte order. Never hand in a place or an area that another version stored:
 * compare the stored number with nookmallow_version() and, where they differ, open anew and take the picks from pick 1.
 * A place with the area of another pick, of another opening or with altered words is answered too, but its lengths mean
 * nothing. nookmallow_length, which changes nothing, tells some damaged places (16): those with a number out of range or
 * with numbers that contradict each other. Many altered places pass, and it never looks at the area, so keep a checksum
 * over place and area. Past the limit store R, the last R picks and the lengths of the full openings too. Neither place
 * nor area brings back the picks: where these may be needed again, keep their words, or their file (nookmallow_save).
 *
 * ---- Pointers
 *
 * Each pointer comes with the number of words (for a file: bytes) that may be used from there on. Pointers to words are
 * aligned to 4 bytes; bytes may lie anywhere. A pointer may be NULL where its count is 0. What is written may not
 * overlap what is read in the same call: `area` not `words` or `footprint`, `out` not `words` or `bytes`, under every
 * measure. Nor may two calls that run at the same time share a buffer that one of them writes; with buffers of their
 * own, calls may run in several threads at once.
 */
#ifndef NOOKMALLOW_H
#define NOOKMALLOW_H

#include <stddef.h>
#include <stdint.h>

#ifdef __cplusplus
extern "C" {
#endif

/* The version of the format of place and area that this header goes with. Compare it once with nookmallow_version(),
 * the archive's: where they differ, header and archive do not belong together. */
#define NOOKMALLOW_VERSION 1u

#define NOOKMALLOW_MIN_BOARDS 2u
#define NOOKMALLOW_MAX_BOARDS 32u
#define NOOKMALLOW_MIN_PICKS 1u
#define NOOKMALLOW_MAX_PICKS 4096u

#define NOOKMALLOW_COMMON 1u
#define NOOKMALLOW_FOOTPRINT 2u
#define NOOKMALLOW_REACH 3u
#define NOOKMALLOW_ROUND_TRIP 4u

/* The words that an area needs: for an opening of `limit` picks, or for a whole run or a decision over `limit` picks. */
#define NOOKMALLOW_PART_WORDS(n, measure) ((measure) == 4 ? 2 * (size_t)(n) * (size_t)(n) : (size_t)(n))
#define NOOKMALLOW_AREA_WORDS(n, measure, limit) (((size_t)(limit) + 4) * NOOKMALLOW_PART_WORDS(n, measure))

/* The words of a recording: what nookmallow_read needs as output, with its limit for `picks`. */
#define NOOKMALLOW_RECORDING_WORDS(n, picks) ((size_t)(n) * (size_t)(picks))

/* The most bytes that nookmallow_save needs for a recording of `picks`; that is proved. Where all links open, all shut,
 * and so on by turns, it needs them all, else less. */
#define NOOKMALLOW_FILE_BYTES(n, picks) (3 + (size_t)(picks) * (3 * (size_t)(n) * ((size_t)(n) - 1) + 1))

/*
 * A thread that calls needs this much stack to spare. Measured, not proved: pick, whole and decide take the most, some
 * 8 KiB under every measure; save takes far less; and where calls are bound lazily the linker takes some 3 KiB more
 * once.
 */
#define NOOKMALLOW_STACK_BYTES 24576u

/*
 * The refusals. Every answer has one in its first word. A call that is refused changes none of your words or bytes, but
 * for 9 of nookmallow_whole, which leaves its area zero.
 */
enum nookmallow_refusal {
    NOOKMALLOW_OK = 0,         /* none: the answer is good */
    NOOKMALLOW_BOARDS = 1,     /* n is not 2 to 32 */
    NOOKMALLOW_MEASURE = 2,    /* the measure is not 1 to 4 */
    NOOKMALLOW_PICKS = 3,      /* the limit, or the picks lent whole, are not 1 to 4096; no pick: 8, but may be saved */
    NOOKMALLOW_ROOM = 4,       /* the area or the output is shorter than needed; in save that is 18 */
    NOOKMALLOW_FORBIDDEN = 5,  /* a pick or the list has a link from a board to itself, or a bit n or above */
    NOOKMALLOW_UNLISTED = 6,   /* measure 2, pick by pick: the pick has a link that the list of the opening has not */
    NOOKMALLOW_FULL = 7,       /* one pick more than the limit; how to go on stands above */
    NOOKMALLOW_NO_PICK = 8,    /* no pick yet, so no length */
    NOOKMALLOW_NO_LENGTH = 9,  /* no length exists: all picks together fail (2 to 4), or some single pick does (1) */
    NOOKMALLOW_SHAPE = 10,     /* the number of words is not n (a pick, the list), or not a multiple of n (lent whole) */
    NOOKMALLOW_COMMAND = 11,   /* file: an unknown command, the first is not 42, or 42 again */
    NOOKMALLOW_STOPPED = 12,   /* file: it stops before 45 or inside operands; an empty file too */
    NOOKMALLOW_OPERANDS = 13,  /* file: the two boards of a link are equal, or one is n or above */
    NOOKMALLOW_UNCHANGED = 14, /* file: opens a link that is open, or shuts one that is shut */
    NOOKMALLOW_TRAILING = 15,  /* file: bytes after 45 */
    NOOKMALLOW_PLACE = 16,     /* no walk comes to this place: it was altered, never opened, or not stored whole */
    NOOKMALLOW_WINDOW = 17,    /* decide: k is 0, or above the number of picks lent */
    NOOKMALLOW_FILE_ROOM = 18  /* save: the output is shorter than the file */
};

/*
 * Where a walk stands. Keep it, hand it in, and keep what is handed back; never make one up. A window start and a
 * boundary are pick numbers; a flag is 0 for no and 1 for yes.
 */
typedef struct nookmallow_place {
    uint32_t boards;       /* n, as opened */
    uint32_t measure;      /* 1 to 4, as opened */
    uint32_t limit;        /* the most picks, as opened */
    uint32_t taken;        /* picks taken, m */
    uint32_t start;        /* the window tested last begins at this pick; first 1 */
    uint32_t boundary;     /* the area holds windows up to this pick, and one from the next pick on; first 0 */
    uint32_t failed;       /* whether any test has failed */
    uint32_t passed;       /* whether the last test passed */
    uint32_t compositions; /* compositions of two windows made so far */
    uint32_t tests;        /* tests made so far */
} nookmallow_place;

typedef struct nookmallow_handed {
    uint32_t refusal;
    nookmallow_place place;
} nookmallow_handed;

/* The counts are the work done so far: for m picks at most 4 * (m - 1) compositions and 2 * m tests in all. */
typedef struct nookmallow_answer {
    uint32_t refusal;
    uint32_t length; /* 0 where refused */
    uint32_t compositions;
    uint32_t tests;
} nookmallow_answer;

typedef struct nookmallow_measured {
    uint32_t refusal;
    uint32_t length; /* 0 where refused */
    uint32_t compositions;
    uint32_t tests;
    nookmallow_place place;
} nookmallow_measured;

typedef struct nookmallow_decision {
    uint32_t refusal;
    uint32_t yes; /* 1 where every window of k picks passes; 0 where one fails, and where refused */
    uint32_t compositions;
    uint32_t tests;
} nookmallow_decision;

typedef struct nookmallow_reading {
    uint32_t refusal;
    uint32_t boards; /* 0 where refused */
    uint32_t picks;  /* 0 where refused; a file without picks has none either, with refusal 0 */
} nookmallow_reading;

typedef struct nookmallow_saved {
    uint32_t refusal;
    uint32_t length; /* of the file, in bytes; 0 where refused */
} nookmallow_saved;

/* The archive's version of the format of place and area. */
uint32_t nookmallow_version(void);

/*
 * Opens a walk over n boards for up to `limit` picks. Under measure 2 `footprint` is the list, n words in the form of a
 * pick: the links that are expected to come; it may hold no link. Under the other measures it is not read, and NULL
 * with 0 will do. The area needs NOOKMALLOW_AREA_WORDS(n, measure, limit) words; whatever they held, they are set up,
 * and words beyond stay as they are.
 * Refused, looked for in this order: 1, 2, 3, 10 and 5 (measure 2 only), 4. The area then stays as it was, and the
 * place handed back is ten zeros, which every later call refuses with 16.
 */
nookmallow_handed nookmallow_open(uint32_t n, uint32_t measure, uint32_t limit, const uint32_t *footprint,
                                  size_t footprint_len, uint32_t *area, size_t area_len);

/*
 * Takes one pick of p.boards words. Always go on with the place that is handed back.
 * Refused, looked for in this order: 16, 7, 10, 5, 4, 6. The pick is then not taken, the place is handed back word for
 * word and the area stays as it was, so the call may be repeated with the cause put right.
 */
nookmallow_handed nookmallow_pick(nookmallow_place p, uint32_t *area, size_t area_len, const uint32_t *words,
                                  size_t words_len);

/*
 * The length of the picks taken, with the counts so far. It may be called after any pick, or not at all; the place is
 * handed back word for word.
 * Refused, looked for in this order: 16, 8, 9. Length is then 0, and so are the counts, but under 9, which has them.
 */
nookmallow_measured nookmallow_length(nookmallow_place p);

/*
 * The length of a whole recording of m = words_len / n picks, in one call. Under measure 2 its list is all links that
 * are open at any pick. The area needs NOOKMALLOW_AREA_WORDS(n, measure, m) words; they may hold anything, and are zero
 * afterwards, under 9 too. Words beyond stay as they are.
 * Refused, looked for in this order: 1, 2, 10, 8, 3, 4, 5, 9. Length is then 0, and so are the counts, but under 9.
 */
nookmallow_answer nookmallow_whole(uint32_t n, uint32_t measure, const uint32_t *words, size_t words_len,
                                   uint32_t *area, size_t area_len);

/*
 * Whether a window length will do: does every window of k picks pass, in a whole recording of m = words_len / n picks?
 * For a controller that has k built in. `yes` is 1 where all m - k + 1 windows pass, and 0 where one fails. That is,
 * with the length that nookmallow_whole answers: under measures 2 to 4 yes exactly where the length is AT MOST k, so a
 * wait of k picks is long enough; under measure 1 yes exactly where k is AT MOST the length, so a lasting set of links
 * can be counted on for k picks. Where there is no length (9), it is no for every k. Under measure 2 the list is all
 * links that are open at any pick. Yes speaks of the picks lent, and of no others; of a design of d picks that is
 * repeated lend at least k + d - 1 picks, round after round: then yes holds for every further round too; that is
 * proved.
 * The area needs NOOKMALLOW_AREA_WORDS(n, measure, m) words, whatever k is; they may hold anything, and are zero
 * afterwards, after yes and after no. Words beyond stay as they are. The windows are tested from the first on, and it
 * stops at the first that fails. The counts are the work done: at most 3 * (m - 1) compositions and m tests; measure 2
 * first makes m - 1 compositions more, for its list.
 * Refused, looked for in this order: 1, 2, 10, 8, 3, 4, 5, 17. `yes` and the counts are then 0 and the area stays as it
 * was, so look at `refusal` before `yes`.
 */
nookmallow_decision nookmallow_decide(uint32_t n, uint32_t measure, const uint32_t *words, size_t words_len, uint32_t k,
                                      uint32_t *area, size_t area_len);

/*
 * The table of reach of a whole recording, into the first n words of `out`: bit v of word u is set when a message gets
 * from u to v somewhere in the recording, over open links in the order of the picks. Own bits are clear.
 * Refused, looked for in this order: 1, 10, 8, 3, 4 (out_len below n), 5. The number of the refusal is returned.
 */
uint32_t nookmallow_table(uint32_t n, const uint32_t *words, size_t words_len, uint32_t *out, size_t out_len);

/*
 * Reads a recording file of up to `limit` picks. Its commands, bytes in hex, each board one byte: 42 n (boards; first,
 * and once), 4F from to (the link opens), 53 from to (the link shuts), 50 (a pick: the links now open), 45 (end). All
 * links start shut and stay as set. The words of pick p go to `out` from word (p - 1) * n on; other words stay as they
 * are. The output must hold limit * n words, however many picks the file has: 32 * limit words are always enough.
 * Refused: 3 for the limit; then the first cause met going byte by byte, and within a command in this order: 11, 12, at
 * a 42 then 1, 4, at a 4F or 53 then 13, 14, at a 50 then 7 (beyond the limit); at last 15. An empty file is 12. No word
 * is written then. A file of nookmallow_save, which writes them, can be refused for limit and output only: 3, 7 and 4.
 */
nookmallow_reading nookmallow_read(const uint8_t *bytes, size_t bytes_len, uint32_t limit, uint32_t *out,
                                   size_t out_len);

/*
 * Saves a whole recording of m = words_len / n picks as a file that nookmallow_read takes, into the first bytes of
 * `out`: 42 n; then for each pick the links that shut since the pick before (53 from to), ascending by from and then by
 * to, then those that open (4F from to) in the same order, then 50; at last 45. Before pick 1 all links are shut. Links
 * that stay as they were have no command, so a pick takes 3 bytes for each link that changes, and 1. The same words
 * always give the same bytes. A recording without picks is saved too: 42 n 45.
 * `length` is how many bytes of `out` are the file: store so many. Bytes beyond stay as they are. It depends on the
 * links; NOOKMALLOW_FILE_BYTES(n, m) bytes of output are always enough.
 * Reading gives back what was saved: nookmallow_read, handed these `length` bytes, a limit of at least m (and 1) and an
 * output of limit * n words, answers n and m, and writes the same words. And what was read from any file can be saved:
 * the new file reads the same, and read and saved once more it has the same bytes. (All of this is proved.) The old
 * file may have had others: commands in another order, a link changed to and fro between two picks, or commands behind
 * its last pick.
 * A file is not in the format of place and area: it has no version and no byte order. More than 4096 picks are saved as
 * several files; each begins with all links shut and is read by itself.
 * What it costs grows in proportion to the words lent and the bytes written.
 * Refused, looked for in this order: 1, 10, 3 (above 4096 picks only), 5, 18 (out_len below the bytes of the file).
 * `length` is then 0 and nothing is written: the size is worked out before the first byte.
 */
nookmallow_saved nookmallow_save(uint32_t n, const uint32_t *words, size_t words_len, uint8_t *out, size_t out_len);

#ifdef __cplusplus
}
#endif

#endif
