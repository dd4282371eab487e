/*
 * A cold-store logger's main loop over the port: a sampler that a repeating timer wakes, a door contact whose interrupt posts a semaphore, a
 * radio that waits for flags of both, and a log that all share under a mutex. The hardware is played by a few lines at the top: a counter
 * of ticks and two openings of the door.
 *
 *     ./ordizgum c examples/logger.c
 */
#include "ordizgum.h"
#include <stdio.h>
#include <stdlib.h>

/* ---- the hardware, played */

enum { NEVER = 0x7FFFFFFF, END_OF_DAY = 400 };

static uint32_t hardware_ticks;
static const uint32_t door_opens_at[] = {100, 250, NEVER};
static size_t doors_seen;

/* Sleeps for so many ticks, 0 for no limit, or until the door opens or the day ends; tells how many have passed. */
static uint32_t hardware_sleep(uint32_t most) {
    uint32_t until = door_opens_at[doors_seen] < END_OF_DAY ? door_opens_at[doors_seen] : END_OF_DAY;
    uint32_t passed = until - hardware_ticks;
    if (most != 0 && most < passed) passed = most;
    hardware_ticks += passed;
    return passed;
}

static int door_interrupt(void) {
    if (hardware_ticks != door_opens_at[doors_seen]) return 0;
    doors_seen++;
    return 1;
}

/* ---- the kernel */

enum { SAMPLER = 0, RADIO = 1, DOORMAN = 2 }; /* threads */
enum { SAMPLE_DUE = 0, DOOR = 1 };            /* semaphores */
enum { LOG = 0 };                             /* mutexes */
enum { EVENTS = 0 };                          /* flag objects */
enum { REPORT_DUE = 1, DOOR_OPEN = 2 };       /* the bits of EVENTS */
enum { SAMPLE_CLOCK = 0, SAMPLE_PERIOD = 60, READINGS_IN_REPORT = 3 };

static uint8_t table[ORDIZGUM_IMAGE_LENGTH];
static uint32_t report[ORDIZGUM_REPORT_LENGTH];

/* A refusal is a mistake in this program; an unsound table is one in the memory that held it. Neither is slept over. */
static uint32_t call(uint32_t number, uint32_t id, uint32_t a, uint32_t b, uint32_t c, uint32_t d) {
    uint32_t answer = ordizgum_call(table, sizeof table, number, id, a, b, c, d, report);
    if (answer != ORDIZGUM_DONE && answer != ORDIZGUM_WAITS) {
        printf("%4u  call %u is refused with %u\n", (unsigned)hardware_ticks, (unsigned)number, (unsigned)answer);
        exit(1);
    }
    return answer;
}

static void set_up(void) {
    if (ordizgum_fresh(table, sizeof table) != 0) exit(1);
    call(ORDIZGUM_CREATE_SEMAPHORE, SAMPLE_DUE, 0, 1, 0, 0);
    call(ORDIZGUM_CREATE_SEMAPHORE, DOOR, 0, 10, 0, 0);
    call(ORDIZGUM_CREATE_MUTEX, LOG, 0, 0, 0, 0);
    call(ORDIZGUM_CREATE_FLAGS, EVENTS, 0, 0, 0, 0);
    call(ORDIZGUM_CREATE_THREAD, SAMPLER, 5, 0, 0, 0);
    call(ORDIZGUM_CREATE_THREAD, RADIO, 3, 0, 0, 0);
    call(ORDIZGUM_CREATE_THREAD, DOORMAN, 6, 0, 0, 0);
    call(ORDIZGUM_START, SAMPLER, 0, 0, 0, 0);
    call(ORDIZGUM_START, RADIO, 0, 0, 0, 0);
    call(ORDIZGUM_START, DOORMAN, 0, 0, 0, 0);
    call(ORDIZGUM_START_TIMER, SAMPLE_CLOCK, SAMPLE_PERIOD, 1, ORDIZGUM_ACTION(ORDIZGUM_POSTS, SAMPLE_DUE), 0);
}

/* ---- the threads: each does one step, whenever it is the chosen one, until a call makes it wait */

static int sampler_has_waited, radio_has_waited, doorman_has_waited;
static unsigned readings, reported, openings;

static void log_line(const char *text, unsigned n) {
    call(ORDIZGUM_CLAIM, LOG, 0, 0, 0, 0);
    printf("%4u  %s %u\n", (unsigned)report[ORDIZGUM_REPORT_CLOCK], text, n);
    call(ORDIZGUM_RELEASE, LOG, 0, 0, 0, 0);
}

static void sampler(void) {
    if (sampler_has_waited) {
        readings++;
        log_line("reading", readings);
        if (readings % READINGS_IN_REPORT == 0) call(ORDIZGUM_SET, EVENTS, REPORT_DUE, 0, 0, 0);
    }
    sampler_has_waited = 1;
    call(ORDIZGUM_PEND, SAMPLE_DUE, 0, 0, 0, 0);
}

static void doorman(void) {
    if (doorman_has_waited) {
        openings++;
        log_line("door opened, time", openings);
        call(ORDIZGUM_SET, EVENTS, DOOR_OPEN, 0, 0, 0);
    }
    doorman_has_waited = 1;
    call(ORDIZGUM_PEND, DOOR, 0, 0, 0, 0);
}

static void radio(void) {
    if (radio_has_waited) {
        log_line("radio: readings sent", readings - reported);
        reported = readings;
        call(ORDIZGUM_CLEAR, EVENTS, REPORT_DUE | DOOR_OPEN, 0, 0, 0);
    }
    radio_has_waited = 1;
    call(ORDIZGUM_WAIT, EVENTS, REPORT_DUE | DOOR_OPEN, ORDIZGUM_ANY_SET, 0, 0);
}

/* ---- the loop */

static void sleep_until_something_is_due(void) {
    uint32_t next[1];
    if (ordizgum_next_wake_up(table, sizeof table, next) != 0) {
        printf("%4u  the table is damaged\n", (unsigned)hardware_ticks);
        exit(1);
    }
    call(ORDIZGUM_ADVANCE, 0, hardware_sleep(next[0]), 0, 0, 0);
    if (door_interrupt()) call(ORDIZGUM_POST, DOOR, 0, 0, 0, 0);
}

int main(void) {
    set_up();
    while (hardware_ticks < END_OF_DAY) {
        switch (report[ORDIZGUM_REPORT_CHOSEN]) {
        case SAMPLER: sampler(); break;
        case RADIO: radio(); break;
        case DOORMAN: doorman(); break;
        default: sleep_until_something_is_due();
        }
    }
    printf("%4u  end: %u readings, %u of them sent\n", (unsigned)hardware_ticks, readings, reported);
    return 0;
}
