/*
 * How much stack the calls take, against what the header says: each is run on a stack of its own, which was painted
 * before, over 32 boards under each measure.
 */
#define _POSIX_C_SOURCE 200809L
#include "test.h"
#include <pthread.h>
#include <stdio.h>
#include <stdlib.h>
#include <string.h>

enum { STACK = 1 << 20, PAINT = 0xA5, PICKS = 8, KINDS_OF_CALL = 8 };
static const char *const names[KINDS_OF_CALL] = {"none", "open", "pick", "whole", "decide", "table", "read", "save"};
static struct {
    int call;
    uint32_t measure, words[32 * PICKS], out[32 * PICKS], *area;
    uint8_t bytes[NOOKMALLOW_FILE_BYTES(32, PICKS)];
    nookmallow_place place;
} job;

static void *work(void *unused) {
    static const uint8_t file[] = {0x42, 32, 0x4F, 31, 0, 0x50, 0x45};
    const size_t need = NOOKMALLOW_AREA_WORDS(32, job.measure, PICKS);
    switch (job.call) {
    case 1: job.place = nookmallow_open(32, job.measure, PICKS, job.words, 32, job.area, need).place; break;
    case 2:
        for (uint32_t k = 0; k < PICKS; k++)
            job.place = nookmallow_pick(job.place, job.area, need, job.words + 32 * k, 32).place;
        nookmallow_length(job.place);
        break;
    case 3: nookmallow_whole(32, job.measure, job.words, 32 * PICKS, job.area, need); break;
    case 4: nookmallow_decide(32, job.measure, job.words, 32 * PICKS, 2, job.area, need); break;
    case 5: nookmallow_table(32, job.words, 32 * PICKS, job.out, 32); break;
    case 6: nookmallow_read(file, sizeof file, PICKS, job.out, 32 * PICKS); break;
    case 7: nookmallow_save(32, job.words, 32 * PICKS, job.bytes, sizeof job.bytes); break;
    }
    return unused;
}

/* The bytes of the stack that a thread of the job has written to, the thread's own included. */
static size_t used(unsigned char *stack) {
    pthread_attr_t attr;
    pthread_t thread;
    size_t clean = 0;
    memset(stack, PAINT, STACK);
    if (pthread_attr_init(&attr) || pthread_attr_setstack(&attr, stack, STACK)) abort();
    if (pthread_create(&thread, &attr, work, NULL)) abort();
    pthread_join(thread, NULL);
    pthread_attr_destroy(&attr);
    while (clean < STACK && stack[clean] == PAINT) clean++;
    return STACK - clean;
}

void test_stack(void) {
    size_t most[2][KINDS_OF_CALL] = {{0}};
    void *stack;
    if (posix_memalign(&stack, 4096, STACK)) abort();
    job.area = words_of(NOOKMALLOW_AREA_WORDS(32, 4, PICKS));
    for (uint32_t k = 0; k < PICKS; k++)
        for (uint32_t u = 0; u < 32; u++) job.words[32 * k + u] = k == 0 ? ~(1u << u) : k % 2 ? 0 : 1u << (u + 1) % 32;
    for (job.measure = 1; job.measure <= 4; job.measure++) {
        for (job.call = 0; job.call < KINDS_OF_CALL; job.call++) {
            size_t bytes = used(stack), *seen = &most[job.measure == 4][job.call];
            if (bytes > *seen) *seen = bytes;
        }
    }
    for (int times = 0; times < 2; times++) {
        printf(times ? "stack, measure 4:" : "stack, measures 1 to 3:");
        for (int c = 1; c < KINDS_OF_CALL; c++) {
            printf(" %s %zu", names[c], most[times][c] - most[times][0]);
            CHECK(most[times][c] - most[times][0] <= NOOKMALLOW_STACK_BYTES);
        }
        printf("\n");
    }
    CHECK(job.place.taken == PICKS && job.bytes[0] == 0x42);
    free(stack);
    free(job.area);
}
