/*
 * A small controller: it asks whether its built-in wait will do for a recorded design; then it sets its wait from the
 * reach length, after every pick, and is stopped and started at a pick; at the end it saves what it took as a file.
 * A real one would read its boards instead of `woven`, and write `struct stored` and the file to a disk or a
 * battery-backed store.
 */
#include "nookmallow.h"
#include <stdio.h>
#include <string.h>

#define BOARDS 3u
#define LIMIT 16u
#define BUILT_IN 3u /* the wait that this controller has built in */
#define AREA NOOKMALLOW_AREA_WORDS(BOARDS, NOOKMALLOW_REACH, LIMIT)
#define RECORDING NOOKMALLOW_RECORDING_WORDS(BOARDS, LIMIT)

struct controller {
    nookmallow_place place;
    uint32_t area[AREA];
    uint32_t recording[RECORDING]; /* the picks taken */
    uint32_t wait;                 /* picks to wait; 0 while none is known, and the loom then sends nothing */
};

/* What has to come through a stop. The version says whether a later archive may go on from it. */
struct stored {
    uint32_t version;
    nookmallow_place place;
    uint32_t area[AREA];
    uint32_t recording[RECORDING];
};

/* What the controller does about each refusal, by its number. */
static const char *const remedies[19] = {
    "none",
    "boards not 2 to 32: correct the setup",
    "no such measure: correct the setup",
    "limit not 1 to 4096: correct the setup",
    "area too short: lend as many words as the macro says",
    "a forbidden bit: read the boards again",
    "a link outside the list: open again with a wider list, and all picks from pick 1",
    "limit reached: open again, hand over the last picks again, and keep the greatest length",
    "no pick yet: go on, without a wait",
    "no length so far: go on, without a wait",
    "not a word for each board: read the boards again",
    "file: unknown or misplaced command",
    "file: stops too early",
    "file: a link between boards that are not there",
    "file: a link that was so already",
    "file: something after its end",
    "place damaged: open again, and all picks from pick 1",
    "no window of so many picks: ask with another number, or record more",
    "output shorter than the file: lend more bytes, and save again",
};

static void say(uint32_t refusal, uint32_t wait) {
    if (refusal == NOOKMALLOW_OK) printf(": wait %lu picks\n", (unsigned long)wait);
    else printf(", refusal %lu: %s\n", (unsigned long)refusal, remedies[refusal]);
}

/* Whether the built-in wait is long enough wherever it begins in `design`. The area serves, as it is not yet in use. */
static void ask(struct controller *c) {
    static const uint32_t design[] = {2, 4, 0, 0, 0, 1, 2, 4, 0, 0, 0, 1};
    nookmallow_decision d = nookmallow_decide(BOARDS, NOOKMALLOW_REACH, design, sizeof design / sizeof design[0], BUILT_IN,
                                              c->area, AREA);
    printf("built-in wait of %lu picks", (unsigned long)BUILT_IN);
    if (d.refusal == NOOKMALLOW_OK) printf(d.yes ? ": will do\n" : ": too short\n");
    else say(d.refusal, 0);
}

static uint32_t open_loom(struct controller *c) {
    nookmallow_handed h = nookmallow_open(BOARDS, NOOKMALLOW_REACH, LIMIT, NULL, 0, c->area, AREA);
    c->place = h.place;
    c->wait = 0;
    return h.refusal;
}

/* Takes a pick and sets the wait anew. Without a length there is no wait. */
static uint32_t weave(struct controller *c, const uint32_t *words) {
    nookmallow_handed h = nookmallow_pick(c->place, c->area, AREA, words, BOARDS);
    c->place = h.place;
    c->wait = 0;
    if (h.refusal != NOOKMALLOW_OK) return h.refusal;
    memcpy(c->recording + (c->place.taken - 1) * BOARDS, words, BOARDS * sizeof *words);
    nookmallow_measured r = nookmallow_length(c->place);
    c->wait = r.length; /* 0 under a refusal */
    return r.refusal;
}

static void stop(const struct controller *c, struct stored *s) {
    s->version = nookmallow_version();
    s->place = c->place;
    memcpy(s->area, c->area, sizeof s->area);
    memcpy(s->recording, c->recording, sizeof s->recording);
}

/* Goes on from what was stored, unless another version stored it; then the picks have to be taken again from pick 1. */
static int start(struct controller *c, const struct stored *s) {
    if (s->version != nookmallow_version()) return 0;
    c->place = s->place;
    memcpy(c->area, s->area, sizeof c->area);
    memcpy(c->recording, s->recording, sizeof c->recording);
    c->wait = nookmallow_length(c->place).length;
    return 1;
}

/* Saves the picks taken as a recording file, and reads it back to see that it tells the same. */
static void save(const struct controller *c) {
    static uint8_t file[NOOKMALLOW_FILE_BYTES(BOARDS, LIMIT)];
    static uint32_t back[RECORDING];
    size_t words = NOOKMALLOW_RECORDING_WORDS(BOARDS, c->place.taken);
    nookmallow_saved s = nookmallow_save(BOARDS, c->recording, words, file, sizeof file);
    printf("saving %lu picks", (unsigned long)c->place.taken);
    if (s.refusal != NOOKMALLOW_OK) {
        say(s.refusal, 0);
        return;
    }
    nookmallow_reading r = nookmallow_read(file, s.length, LIMIT, back, RECORDING);
    int same = r.picks == c->place.taken && memcmp(back, c->recording, words * sizeof back[0]) == 0;
    printf(": %lu bytes, read back %s\n", (unsigned long)s.length, same ? "the same" : "otherwise");
}

/* Bit v of a board's word is set when light passes from it to board v. The fourth is a misreading: board 0 to itself. */
static const uint32_t woven[][BOARDS] = {
    {2, 4, 0}, {0, 0, 1}, {2, 4, 1}, {1, 4, 1}, {2, 4, 1}, {0, 4, 0}, {2, 0, 0}, {0, 0, 0}, {0, 4, 1}};

int main(void) {
    static struct controller loom, later;
    static struct stored store;
    struct controller *c = &loom;
    uint32_t refusal;
    size_t i;
    if (nookmallow_version() != NOOKMALLOW_VERSION) {
        printf("header and archive do not belong together\n");
        return 1;
    }
    ask(c);
    refusal = open_loom(c);
    if (refusal != NOOKMALLOW_OK) {
        printf("opening");
        say(refusal, 0);
        return 1;
    }
    for (i = 0; i < sizeof woven / sizeof woven[0]; i++) {
        refusal = weave(c, woven[i]);
        printf("row %lu, pick %lu", (unsigned long)(i + 1), (unsigned long)c->place.taken);
        say(refusal, c->wait);
        if (refusal == NOOKMALLOW_FORBIDDEN) {
            /* The pick was not taken and nothing has changed: read the boards again and hand over what they say now. */
            static const uint32_t again[BOARDS] = {2, 4, 1};
            refusal = weave(c, again);
            printf("read again, pick %lu", (unsigned long)c->place.taken);
            say(refusal, c->wait);
        }
        if (c->place.taken == 5) {
            stop(c, &store);
            memset(&loom, 0xFF, sizeof loom);
            c = &later;
            if (!start(c, &store)) return 1;
            printf("stopped and started after pick %lu", (unsigned long)c->place.taken);
            say(NOOKMALLOW_OK, c->wait);
        }
    }
    save(c);
    /* A damaged place is refused, never trusted. */
    c->place.start = 99;
    refusal = weave(c, woven[0]);
    printf("damaged");
    say(refusal, c->wait);
    return 0;
}
