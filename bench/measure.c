/*
 * What bench/run measures, through include/ordizgum.h: linked with each side in turn, over either image (linked.h).
 *
 *     measure NAME COUNT [PERIOD TICKS]
 *
 * does NAME so many times over and prints how many nanoseconds that took. Each time the image is copied from one that was prepared, so that
 * every call finds the same table; "copy" is that copying alone, for bench/run to take off. With "timer" one repeating timer of PERIOD runs,
 * and the call is an advance by TICKS.
 */
#define _POSIX_C_SOURCE 200809L
#include <stdio.h>
#include <stdlib.h>
#include <string.h>
#include <time.h>

#include "ordizgum.h"

static uint8_t image[ORDIZGUM_IMAGE_LENGTH];
static uint32_t period = 1000, ticks;

static void stop(const char *what, uint32_t answer) {
    fprintf(stderr, "measure: %s answers %u\n", what, (unsigned)answer);
    exit(1);
}

/* ---- tables */

/* A call while a table is prepared: another answer than expected is a fault of the scenario. */
static void make(uint32_t answer, uint32_t call, uint32_t id, uint32_t a, uint32_t b, uint32_t c) {
    uint32_t report[ORDIZGUM_REPORT_LENGTH];
    uint32_t given = ordizgum_call(image, sizeof image, call, id, a, b, c, 0, report);
    if (given != answer) stop("a call that prepares", given);
}

static void start_thread(uint32_t id, uint32_t priority, uint32_t quantum) {
    make(ORDIZGUM_DONE, ORDIZGUM_CREATE_THREAD, id, priority, quantum, 0);
    make(ORDIZGUM_DONE, ORDIZGUM_START, id, 0, 0, 0);
}

static void idle(void) {}

/*
 * A busy logger: all threads, objects and timers are there. Of the sixteen threads 14 and 15 sleep, 12 owns a mutex and waits for a
 * semaphore with 13, four wait for flags, and eight are ready, two of each priority.
 */
static void busy(void) {
    uint32_t i;
    for (i = 0; i < 16; i++) start_thread(i, i / 2, 100);
    for (i = 0; i < 8; i++) make(ORDIZGUM_DONE, ORDIZGUM_CREATE_SEMAPHORE, i, 0, 65535, 0);
    for (i = 0; i < 4; i++) make(ORDIZGUM_DONE, ORDIZGUM_CREATE_MUTEX, i, 0, 0, 0);
    for (i = 0; i < 4; i++) make(ORDIZGUM_DONE, ORDIZGUM_CREATE_FLAGS, i, 0, 0, 0);
    for (i = 0; i < 8; i++) make(ORDIZGUM_DONE, ORDIZGUM_START_TIMER, i, 1000 + i, 1, i % 2 ? ORDIZGUM_ACTION(ORDIZGUM_POSTS, 7) : 0);
    for (i = 0; i < 2; i++) make(ORDIZGUM_WAITS, ORDIZGUM_SLEEP, 0, 50000 + i, 0, 0);
    make(ORDIZGUM_DONE, ORDIZGUM_CLAIM, 0, 0, 0, 0);
    for (i = 0; i < 2; i++) make(ORDIZGUM_WAITS, ORDIZGUM_PEND, 1, 70000 * i, 0, 0);
    for (i = 0; i < 4; i++) make(ORDIZGUM_WAITS, ORDIZGUM_WAIT, 1, 7, ORDIZGUM_ALL_SET, 80000);
}

/* And thread 7 owns mutex 1, which 6 is about to claim, of a higher priority by now. */
static void busy_and_owned(void) {
    busy();
    make(ORDIZGUM_WAITS, ORDIZGUM_PEND, 2, 0, 0, 0);
    make(ORDIZGUM_DONE, ORDIZGUM_CLAIM, 1, 0, 0, 0);
    make(ORDIZGUM_DONE, ORDIZGUM_POST, 2, 0, 0, 0);
    make(ORDIZGUM_DONE, ORDIZGUM_SET_PRIORITY, 6, 5, 0, 0);
}

enum { FIRST_BYTE_OF_LISTS = 478, TOP_OF_IT = 16 }; /* docs/IMAGE.md: the length of ready list 0, or the next of thread 0 */

/* It is too high: among the lists the first thing that each side looks at. */
static void busy_and_damaged(void) {
    busy();
    image[FIRST_BYTE_OF_LISTS] = TOP_OF_IT + 1;
}

static void round_of_two(void) {
    start_thread(0, 3, 1);
    start_thread(1, 3, 1);
}

/* Eight timers of eight ticks, so that one of them expires in every tick. */
static void eight_timers(void) {
    uint32_t i;
    for (i = 0; i < 8; i++) {
        make(ORDIZGUM_DONE, ORDIZGUM_START_TIMER, i, 8, 1, 0);
        make(ORDIZGUM_DONE, ORDIZGUM_ADVANCE, 0, 1, 0, 0);
    }
}

/* Sixteen threads asleep, one of which wakes every ten ticks. */
static void sixteen_limits(void) {
    uint32_t i;
    for (i = 0; i < 16; i++) {
        start_thread(i, 3, 0);
        make(ORDIZGUM_WAITS, ORDIZGUM_SLEEP, 0, 10 * (i + 1), 0, 0);
    }
}

static void one_timer(void) { make(ORDIZGUM_DONE, ORDIZGUM_START_TIMER, 0, period, 1, 0); }

/* ---- what is done to them */

enum { COPY, CALL, SOUND, FRESH };

static const struct scenario {
    const char *name;
    void (*prepare)(void);
    int kind;
    uint32_t answer, call, id, a;
} scenarios[] = {
    {"copy", busy, COPY, 0, 0, 0, 0},
    {"post", busy, CALL, ORDIZGUM_DONE, ORDIZGUM_POST, 0, 0},
    {"pend", busy, CALL, ORDIZGUM_WAITS, ORDIZGUM_PEND, 0, 10},
    {"claim", busy_and_owned, CALL, ORDIZGUM_WAITS, ORDIZGUM_CLAIM, 1, 10},
    {"set", busy, CALL, ORDIZGUM_DONE, ORDIZGUM_SET, 1, 7},
    {"priority", busy, CALL, ORDIZGUM_DONE, ORDIZGUM_SET_PRIORITY, 2, 6},
    {"sound", busy, SOUND, ORDIZGUM_DONE, 0, 0, 0},
    {"read", busy_and_damaged, SOUND, ORDIZGUM_UNSOUND, 0, 0, 0},
    {"write", busy, FRESH, ORDIZGUM_DONE, 0, 0, 0},
    {"round", round_of_two, CALL, ORDIZGUM_DONE, ORDIZGUM_ADVANCE, 0, 16},
    {"round+1000", round_of_two, CALL, ORDIZGUM_DONE, ORDIZGUM_ADVANCE, 0, 1016},
    {"timers", eight_timers, CALL, ORDIZGUM_DONE, ORDIZGUM_ADVANCE, 0, 16},
    {"timers+1000", eight_timers, CALL, ORDIZGUM_DONE, ORDIZGUM_ADVANCE, 0, 1016},
    {"limits", sixteen_limits, CALL, ORDIZGUM_DONE, ORDIZGUM_ADVANCE, 0, 9},
    {"limits+16", sixteen_limits, CALL, ORDIZGUM_DONE, ORDIZGUM_ADVANCE, 0, 160},
    {"quiet", idle, CALL, ORDIZGUM_DONE, ORDIZGUM_ADVANCE, 0, 1},
    {"quiet+4294967294", idle, CALL, ORDIZGUM_DONE, ORDIZGUM_ADVANCE, 0, 4294967295u},
    {"timer", one_timer, CALL, ORDIZGUM_DONE, ORDIZGUM_ADVANCE, 0, 0},
};

static uint32_t once(const struct scenario *s) {
    uint32_t report[ORDIZGUM_REPORT_LENGTH];
    switch (s->kind) {
    case CALL:
        return ordizgum_call(image, sizeof image, s->call, s->id, ticks ? ticks : s->a, 0, 0, 0, report);
    case SOUND:
        return ordizgum_sound(image, sizeof image);
    case FRESH:
        return ordizgum_fresh(image, sizeof image);
    default:
        return 0;
    }
}

static unsigned long long nanoseconds(void) {
    struct timespec t;
    clock_gettime(CLOCK_MONOTONIC, &t);
    return 1000000000ull * (unsigned long long)t.tv_sec + (unsigned long long)t.tv_nsec;
}

static void measure(const struct scenario *s, unsigned long count) {
    static uint8_t prepared[ORDIZGUM_IMAGE_LENGTH];
    unsigned long long start;
    ordizgum_fresh(image, sizeof image);
    s->prepare();
    memcpy(prepared, image, sizeof image);
    start = nanoseconds();
    while (count--) {
        uint32_t answer;
        memcpy(image, prepared, sizeof image);
        answer = once(s);
        if (answer != s->answer) stop(s->name, answer);
    }
    printf("%llu\n", nanoseconds() - start);
}

int main(int argc, char **argv) {
    size_t k;
    if (argc == 5) {
        period = (uint32_t)strtoul(argv[3], NULL, 10);
        ticks = (uint32_t)strtoul(argv[4], NULL, 10);
    }
    for (k = 0; argc >= 3 && k < sizeof scenarios / sizeof *scenarios; k++) {
        if (strcmp(argv[1], scenarios[k].name)) continue;
        measure(&scenarios[k], strtoul(argv[2], NULL, 10));
        return 0;
    }
    fprintf(stderr, "measure: what, and how often?\n");
    return 2;
}
