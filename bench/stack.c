/*
 * How much stack the library takes: each function runs on a stack of its own that was painted before, and what it touched is counted.
 *
 *     ./ordizgum c bench/stack.c
 *
 * The calls build a busy table and go through every family, with waiters, an owner and a timer that acts. A number here is what was seen,
 * not a bound.
 */
#define _XOPEN_SOURCE 700
#include <stdio.h>
#include <string.h>
#include <ucontext.h>

#include "ordizgum.h"

enum { ROOM = 1 << 20, PAINT = 0x5A, THREADS = 8, OBJECTS = 4, REQUEST = 6 };

static uint8_t stack[ROOM];
static ucontext_t home;
static uint8_t image[ORDIZGUM_IMAGE_LENGTH];
static uint32_t request[REQUEST], report[ORDIZGUM_REPORT_LENGTH], next[1];

static void run_call(void) {
    ordizgum_call(image, sizeof image, request[0], request[1], request[2], request[3], request[4], request[5], report);
}
static void run_fresh(void) { ordizgum_fresh(image, sizeof image); }
static void run_sound(void) { ordizgum_sound(image, sizeof image); }
static void run_next(void) { ordizgum_next_wake_up(image, sizeof image, next); }

static size_t bytes_used(void (*function)(void)) {
    ucontext_t there;
    size_t untouched = 0;
    memset(stack, PAINT, sizeof stack);
    getcontext(&there);
    there.uc_stack.ss_sp = stack;
    there.uc_stack.ss_size = sizeof stack;
    there.uc_link = &home;
    makecontext(&there, function, 0);
    swapcontext(&home, &there);
    while (untouched < sizeof stack && stack[untouched] == PAINT) untouched++;
    return sizeof stack - untouched;
}

static size_t call(uint32_t number, uint32_t id, uint32_t a, uint32_t b, uint32_t c, uint32_t d) {
    uint32_t asked[REQUEST] = {number, id, a, b, c, d};
    memcpy(request, asked, sizeof request);
    return bytes_used(run_call);
}

static size_t most(size_t a, size_t b) { return a > b ? a : b; }

static void tell(const char *what, size_t bytes) {
    printf("%-32s %6zu bytes, answer %u\n", what, bytes, (unsigned)report[ORDIZGUM_REPORT_ANSWER]);
}

int main(void) {
    size_t create, start = 0;
    uint32_t i;
    tell("fresh", bytes_used(run_fresh));
    tell("sound", bytes_used(run_sound));
    create = call(ORDIZGUM_CREATE_THREAD, 0, 0, 3, 0, 0);
    for (i = 1; i < THREADS; i++) create = most(create, call(ORDIZGUM_CREATE_THREAD, i, i, 3, 0, 0));
    for (i = 0; i < THREADS; i++) start = most(start, call(ORDIZGUM_START, i, 0, 0, 0, 0));
    for (i = 0; i < OBJECTS; i++) {
        create = most(create, call(ORDIZGUM_CREATE_SEMAPHORE, i, 0, 5, 0, 0));
        create = most(create, call(ORDIZGUM_CREATE_MUTEX, i, 0, 0, 0, 0));
        create = most(create, call(ORDIZGUM_CREATE_FLAGS, i, 0, 0, 0, 0));
    }
    tell("create", create);
    tell("start", start);
    tell("claim", call(ORDIZGUM_CLAIM, 0, 0, 0, 0, 0));
    tell("set priority of an owner", call(ORDIZGUM_SET_PRIORITY, 7, 1, 0, 0, 0));
    tell("wait for flags", call(ORDIZGUM_WAIT, 1, 7, 1, 10, 0));
    tell("claim that waits", call(ORDIZGUM_CLAIM, 0, 0, 0, 0, 0));
    tell("pend that waits", call(ORDIZGUM_PEND, 0, 10, 0, 0, 0));
    tell("post that wakes", call(ORDIZGUM_POST, 0, 0, 0, 0, 0));
    tell("set that wakes", call(ORDIZGUM_SET, 1, 7, 0, 0, 0));
    tell("release", call(ORDIZGUM_RELEASE, 0, 0, 0, 0, 0));
    tell("start timer that sets flags", call(ORDIZGUM_START_TIMER, 0, 3, 1, ORDIZGUM_ACTION(ORDIZGUM_SETS_FLAGS, 1), 7));
    tell("wait for flags", call(ORDIZGUM_WAIT, 1, 8, 0, 10, 0));
    tell("advance by 1,000", call(ORDIZGUM_ADVANCE, 0, 1000, 0, 0, 0));
    tell("next wake-up", bytes_used(run_next));
    return 0;
}
