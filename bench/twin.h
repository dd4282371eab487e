/*
 * The twin: the kernel table written by hand in C, to measure the proved library against. It follows the same rules and promises nothing
 * beyond them; that it gives the same answers is tested, not proved.
 *
 * The table holds what the image holds and no more: nothing is remembered between two calls, so each call works out for itself where a
 * thread stands and when the next wake-up is.
 */
#ifndef TWIN_H
#define TWIN_H

#include "ordizgum.h"
#include <stdint.h>

enum {
    TWIN_THREADS = 16,
    TWIN_PRIORITIES = 8,
    TWIN_SEMAPHORES = 8,
    TWIN_MUTEXES = 4,
    TWIN_FLAGS = 4,
    TWIN_TIMERS = 8,
    TWIN_NOBODY = 255
};

/* The lists beside the ready lists, by their numbers; the last three are the first of a run, one for each object. */
enum {
    TWIN_SLEEPING,
    TWIN_STOPPED,
    TWIN_OF_SEMAPHORES,
    TWIN_OF_MUTEXES = TWIN_OF_SEMAPHORES + TWIN_SEMAPHORES,
    TWIN_OF_FLAGS = TWIN_OF_MUTEXES + TWIN_MUTEXES,
    TWIN_LISTS = TWIN_OF_FLAGS + TWIN_FLAGS
};

struct twin_thread {
    uint8_t created, base, current;
    uint16_t quantum, left;
    uint32_t limit;
    uint8_t result;
    uint16_t mask;
    uint8_t mode;
    uint16_t delivered;
};

struct twin_semaphore {
    uint8_t created;
    uint16_t count, maximum;
};

struct twin_mutex {
    uint8_t created, owner, depth;
};

struct twin_flags {
    uint8_t created;
    uint16_t word;
};

struct twin_timer {
    uint32_t period, left;
    uint8_t repeat, kind, object;
    uint16_t mask;
    uint32_t count;
};

/* Ids from the head on; every place from the length on is 0. */
struct twin_list {
    uint8_t length, ids[TWIN_THREADS];
};

struct twin_table {
    uint32_t clock;
    uint8_t off, chosen;
    struct twin_thread threads[TWIN_THREADS];
    struct twin_semaphore semaphores[TWIN_SEMAPHORES];
    struct twin_mutex mutexes[TWIN_MUTEXES];
    struct twin_flags flags[TWIN_FLAGS];
    struct twin_timer timers[TWIN_TIMERS];
    uint8_t ready_length[TWIN_PRIORITIES];
    uint8_t ready[TWIN_PRIORITIES][TWIN_THREADS];
    struct twin_list lists[TWIN_LISTS];
};

/* Makes the table a fresh one. */
void twin_fresh(struct twin_table *t);

/* Whether the table is sound; any bytes may be asked about. */
int twin_sound(const struct twin_table *t);

/* One call, done in place. Answers and fills the report: answer, chosen, clock, wake-ups, next wake-up. A refusal changes nothing. */
uint32_t twin_call(struct twin_table *t, uint32_t call, uint32_t id, uint32_t a, uint32_t b, uint32_t c, uint32_t d,
                   uint32_t report[ORDIZGUM_REPORT_LENGTH]);

/* The table from its image and back. Nothing is tested and no value is lost, so an unsound image makes an unsound table. */
void twin_read(struct twin_table *t, const uint8_t *image);
void twin_write(const struct twin_table *t, uint8_t *image);

#endif
