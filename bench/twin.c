/*
 * The kernel table by hand, in place, and the port's functions over it, so that a program may be linked with this file or with the proved
 * library. Written to be fast: sets of threads are 16-bit masks, a list's sixteen places are looked at as two words, and an advance goes
 * from wake-up to wake-up.
 *
 * Where a function here relies on the table being sound, the call has tested that first.
 */
#include "twin.h"
#include "ordizgum.h"
#include <string.h>

#define INLINE static inline __attribute__((always_inline))

enum { TOP_PRIORITY = 7, TOP_RESULT = 2, TOP_MODE = 3, TOP_WORD = 65535, TOP_DEPTH = 255 };
enum { RESULT_NONE = 0, RESULT_DONE = 1, RESULT_TIMED_OUT = 2 };

/* Eight bytes as a word, the first of them its lowest. */
INLINE uint64_t get64(const uint8_t *p) {
    uint64_t word;
    memcpy(&word, p, sizeof word);
    return word;
}

/* ---- what both the soundness test and the calls ask */

/* Whether a wait for flags is over. The modes' high bit asks for clear bits, their low bit for all of the mask. */
INLINE int holds(unsigned word, unsigned mask, unsigned mode) {
    unsigned met = (mode & 2 ? ~word : word) & mask;
    return mode & 1 ? met == mask : met != 0;
}

/* The head of the highest ready list that isn't empty: the eight lengths are one word, and its highest byte in use names the list. */
INLINE unsigned highest(const struct twin_table *t) {
    uint64_t lengths = get64(t->ready_length);
    return lengths == 0 ? TWIN_NOBODY : t->ready[(63 - __builtin_clzll(lengths)) / 8][0];
}

/* ---- soundness */

/* What is gathered on the way: owners of mutexes, threads met on a list, and every bit of what must be 0 as it isn't in use. */
struct survey {
    unsigned owners, met;
    uint64_t stray;
};

/* Everything of a record that must be 0 where it isn't in use. */
INLINE uint64_t bits_of_thread(const struct twin_thread *th) {
    unsigned bytes = th->created | th->base | th->current | th->result | th->mode;
    return bytes | th->quantum | th->left | th->mask | th->delivered | th->limit;
}

INLINE uint64_t bits_of_timer(const struct twin_timer *tm) {
    unsigned bytes = tm->repeat | tm->kind | tm->object;
    return bytes | tm->mask | tm->period | tm->left | tm->count;
}

INLINE uint64_t bits_of_places(const uint8_t *ids) {
    return get64(ids) | get64(ids + 8);
}

/* Read from place 16 - n on, this covers the places of a list of length n that must be 0. */
static const uint8_t beyond[32] = {0,   0,   0,   0,   0,   0,   0,   0,   0,   0,   0,   0,   0,   0,   0,   0,
                                   255, 255, 255, 255, 255, 255, 255, 255, 255, 255, 255, 255, 255, 255, 255, 255};

/* A list's length, and its places past the end. */
INLINE int places_sound(const uint8_t *ids, unsigned length, struct survey *s) {
    if (length > TWIN_THREADS) return 0;
    const uint8_t *cover = beyond + TWIN_THREADS - length;
    s->stray |= (get64(ids) & get64(cover)) | (get64(ids + 8) & get64(cover + 8));
    return 1;
}

/* The thread at a place of a list, if it is met for the first time and keeps what binds a thread on any list; else null. That its current
   priority is in range is left to the caller, who knows more about it. */
INLINE const struct twin_thread *meet(const struct twin_table *t, unsigned id, struct survey *s) {
    if (id >= TWIN_THREADS || (s->met >> id & 1) != 0) return NULL;
    s->met |= 1u << id;
    const struct twin_thread *th = &t->threads[id];
    if (th->created != 1) return NULL;
    if (th->base != th->current && (th->base > th->current || (s->owners >> id & 1) == 0)) return NULL;
    if (th->left > th->quantum || (th->left == 0 && th->quantum != 0)) return NULL;
    return th;
}

/* Of who neither waits nor sleeps only the result may be other than 0, and of who waits for no flags only the limit. */
INLINE int wait_is_result(const struct twin_thread *th) {
    return (th->limit | th->mask | th->mode) == 0 && th->result <= TOP_RESULT;
}

INLINE int wait_is_limit(const struct twin_thread *th) {
    return (th->mask | th->mode | th->result) == 0;
}

static int ready_sound(const struct twin_table *t, struct survey *s) {
    for (unsigned p = 0; p < TWIN_PRIORITIES; p++) {
        const uint8_t *ids = t->ready[p];
        unsigned length = t->ready_length[p];
        if (length == 0) {
            s->stray |= bits_of_places(ids);
            continue;
        }
        if (!places_sound(ids, length, s)) return 0;
        for (unsigned k = 0; k < length; k++) {
            const struct twin_thread *th = meet(t, ids[k], s);
            if (th == NULL || th->current != p || !wait_is_result(th)) return 0;
        }
    }
    return 1;
}

static int stopped_sound(const struct twin_table *t, struct survey *s) {
    const struct twin_list *list = &t->lists[TWIN_STOPPED];
    unsigned length = list->length;
    if (!places_sound(list->ids, length, s)) return 0;
    for (unsigned k = 0; k < length; k++) {
        const struct twin_thread *th = meet(t, list->ids[k], s);
        if (th == NULL || th->current > TOP_PRIORITY || !wait_is_result(th)) return 0;
    }
    return 1;
}

static int sleepers_sound(const struct twin_table *t, struct survey *s) {
    const struct twin_list *list = &t->lists[TWIN_SLEEPING];
    unsigned length = list->length;
    if (!places_sound(list->ids, length, s)) return 0;
    for (unsigned k = 0; k < length; k++) {
        const struct twin_thread *th = meet(t, list->ids[k], s);
        if (th == NULL || th->current > TOP_PRIORITY || !wait_is_limit(th) || th->limit == 0) return 0;
    }
    return 1;
}

/* Those who wait for a semaphore, or for a mutex that `owner` has. */
INLINE int waiters_sound(const struct twin_table *t, const struct twin_list *list, unsigned owner, struct survey *s) {
    unsigned length = list->length, before = TOP_PRIORITY;
    if (!places_sound(list->ids, length, s)) return 0;
    for (unsigned k = 0; k < length; k++) {
        const struct twin_thread *th = meet(t, list->ids[k], s);
        if (th == NULL || th->current > before || !wait_is_limit(th) || list->ids[k] == owner) return 0;
        before = th->current;
    }
    return 1;
}

static int semaphores_sound(const struct twin_table *t, struct survey *s) {
    for (unsigned o = 0; o < TWIN_SEMAPHORES; o++) {
        const struct twin_semaphore *sem = &t->semaphores[o];
        const struct twin_list *list = &t->lists[TWIN_OF_SEMAPHORES + o];
        if (sem->created != (sem->maximum != 0) || sem->count > sem->maximum) return 0;
        if (list->length == 0)
            s->stray |= bits_of_places(list->ids);
        else if (sem->created == 0 || sem->count != 0 || !waiters_sound(t, list, TWIN_NOBODY, s))
            return 0;
    }
    return 1;
}

/* Before any thread is looked at: who owns a mutex may have a raised priority. */
static int owners_sound(const struct twin_table *t, struct survey *s) {
    for (unsigned o = 0; o < TWIN_MUTEXES; o++) {
        const struct twin_mutex *m = &t->mutexes[o];
        if (m->created > 1 || m->owner >= TWIN_THREADS) return 0;
        if (m->depth == 0) {
            if (m->owner != 0) return 0;
        } else {
            if (m->created == 0) return 0;
            s->owners |= 1u << m->owner;
        }
    }
    return 1;
}

static int claimers_sound(const struct twin_table *t, struct survey *s) {
    for (unsigned o = 0; o < TWIN_MUTEXES; o++) {
        const struct twin_mutex *m = &t->mutexes[o];
        const struct twin_list *list = &t->lists[TWIN_OF_MUTEXES + o];
        if (list->length == 0)
            s->stray |= bits_of_places(list->ids);
        else if (m->depth == 0 || !waiters_sound(t, list, m->owner, s))
            return 0;
    }
    return 1;
}

static int flags_sound(const struct twin_table *t, struct survey *s) {
    for (unsigned o = 0; o < TWIN_FLAGS; o++) {
        const struct twin_flags *f = &t->flags[o];
        const struct twin_list *list = &t->lists[TWIN_OF_FLAGS + o];
        unsigned length = list->length, before = TOP_PRIORITY;
        if (f->created > 1 || (f->created == 0 && (f->word | length) != 0) || !places_sound(list->ids, length, s)) return 0;
        for (unsigned k = 0; k < length; k++) {
            const struct twin_thread *th = meet(t, list->ids[k], s);
            if (th == NULL || th->current > before || th->mask == 0 || th->mode > TOP_MODE || th->result != 0) return 0;
            if (holds(f->word, th->mask, th->mode)) return 0;
            before = th->current;
        }
    }
    return 1;
}

static int timers_sound(const struct twin_table *t, struct survey *s) {
    for (unsigned o = 0; o < TWIN_TIMERS; o++) {
        const struct twin_timer *tm = &t->timers[o];
        if (tm->period == 0) {
            s->stray |= bits_of_timer(tm);
            continue;
        }
        if (tm->left > tm->period || tm->repeat > 1) return 0;
        if (tm->kind == ORDIZGUM_NOTHING) {
            if ((tm->object | tm->mask) != 0) return 0;
        } else if (tm->kind == ORDIZGUM_POSTS) {
            if (tm->object >= TWIN_SEMAPHORES || t->semaphores[tm->object].created == 0 || tm->mask != 0) return 0;
        } else {
            if (tm->kind != ORDIZGUM_SETS_FLAGS || tm->object >= TWIN_FLAGS || t->flags[tm->object].created == 0 || tm->mask == 0) return 0;
        }
    }
    return 1;
}

static int choice_sound(const struct twin_table *t, unsigned ready) {
    if (t->off == 0) return t->chosen == highest(t);
    return t->off == 1 && (t->chosen == TWIN_NOBODY || (t->chosen < TWIN_THREADS && (ready >> t->chosen & 1) != 0));
}

int twin_sound(const struct twin_table *t) {
    struct survey s = {0, 0, 0};
    if (!owners_sound(t, &s) || !ready_sound(t, &s) || !choice_sound(t, s.met)) return 0;
    if (!stopped_sound(t, &s) || !sleepers_sound(t, &s)) return 0;
    if (!semaphores_sound(t, &s) || !claimers_sound(t, &s) || !flags_sound(t, &s) || !timers_sound(t, &s)) return 0;
    /* Who is on no list isn't there. */
    for (unsigned rest = ~s.met & 0xFFFFu; rest != 0; rest &= rest - 1) s.stray |= bits_of_thread(&t->threads[__builtin_ctz(rest)]);
    return s.stray == 0 && (s.owners & ~s.met) == 0;
}

/* ---- lists */

/* The place of an id, or the length where it isn't on the list. */
INLINE unsigned place_of(const uint8_t *ids, unsigned length, unsigned id) {
    unsigned k = 0;
    while (k < length && ids[k] != id) k++;
    return k;
}

/* The places behind move up by one; those past the end are 0, so all sixteen may move. */
INLINE void cut_head(uint8_t *ids, uint8_t *length) {
    memmove(ids, ids + 1, TWIN_THREADS - 1);
    ids[TWIN_THREADS - 1] = 0;
    --*length;
}

static void cut(uint8_t *ids, uint8_t *length, unsigned at) {
    unsigned last = --*length;
    for (; at < last; at++) ids[at] = ids[at + 1];
    ids[last] = 0;
}

INLINE void to_ready_tail(struct twin_table *t, unsigned id) {
    unsigned p = t->threads[id].current;
    t->ready[p][t->ready_length[p]++] = (uint8_t)id;
}

INLINE void to_tail(struct twin_list *list, unsigned id) {
    list->ids[list->length++] = (uint8_t)id;
}

/* In front of the first whose current priority is lower, searched from the end. */
static void enter(struct twin_table *t, struct twin_list *list, unsigned id) {
    unsigned p = t->threads[id].current, at = list->length++;
    for (; at > 0 && t->threads[list->ids[at - 1]].current < p; at--) list->ids[at] = list->ids[at - 1];
    list->ids[at] = (uint8_t)id;
}

/* The running thread, with scheduling on, is the head of its ready list. */
INLINE void cut_running(struct twin_table *t) {
    unsigned p = t->threads[t->chosen].current;
    cut_head(t->ready[p], &t->ready_length[p]);
}

INLINE void running_to_tail(struct twin_table *t) {
    unsigned p = t->threads[t->chosen].current;
    uint8_t *ids = t->ready[p];
    memmove(ids, ids + 1, TWIN_THREADS - 1);
    ids[t->ready_length[p] - 1] = t->chosen;
}

/* Takes a thread off whichever of the lists from `first` to before `end` it is on and names that list; `end` where it is on none. */
static unsigned cut_from_any(struct twin_table *t, unsigned id, unsigned first, unsigned end) {
    for (unsigned l = first; l < end; l++) {
        struct twin_list *list = &t->lists[l];
        unsigned at = place_of(list->ids, list->length, id);
        if (at < list->length) {
            cut(list->ids, &list->length, at);
            return l;
        }
    }
    return end;
}

/* ---- threads */

static int owns_any(const struct twin_table *t, unsigned id) {
    for (unsigned o = 0; o < TWIN_MUTEXES; o++)
        if (t->mutexes[o].depth != 0 && t->mutexes[o].owner == id) return 1;
    return 0;
}

/* A change of the current priority moves a thread that is ready or on a wait list, and nobody else. */
static void set_current(struct twin_table *t, unsigned id, unsigned priority) {
    struct twin_thread *th = &t->threads[id];
    unsigned old = th->current, at, list;
    if (old == priority) return;
    th->current = (uint8_t)priority;
    at = place_of(t->ready[old], t->ready_length[old], id);
    if (at < t->ready_length[old]) {
        cut(t->ready[old], &t->ready_length[old], at);
        to_ready_tail(t, id);
        return;
    }
    list = cut_from_any(t, id, TWIN_OF_SEMAPHORES, TWIN_LISTS);
    if (list < TWIN_LISTS) enter(t, &t->lists[list], id);
}

/* A thread that has left its list becomes ready. */
INLINE void wake(struct twin_table *t, unsigned id, uint8_t result) {
    struct twin_thread *th = &t->threads[id];
    th->limit = 0;
    th->mask = 0;
    th->mode = 0;
    th->result = result;
    to_ready_tail(t, id);
}

static unsigned wake_head(struct twin_table *t, struct twin_list *list) {
    unsigned id = list->ids[0];
    cut_head(list->ids, &list->length);
    wake(t, id, RESULT_DONE);
    return id;
}

/* The running thread leaves its ready list, to sleep or to wait. */
INLINE void suspend(struct twin_table *t, uint32_t limit) {
    struct twin_thread *th = &t->threads[t->chosen];
    cut_running(t);
    th->limit = limit;
    th->result = RESULT_NONE;
}

INLINE void choose(struct twin_table *t) {
    unsigned id = highest(t);
    if (id == t->chosen) return;
    t->chosen = (uint8_t)id;
    if (id != TWIN_NOBODY) t->threads[id].left = t->threads[id].quantum;
}

/* ---- what a call and a timer have in common */

/* False where the semaphore is full. */
static int post(struct twin_table *t, unsigned o) {
    struct twin_semaphore *sem = &t->semaphores[o];
    struct twin_list *list = &t->lists[TWIN_OF_SEMAPHORES + o];
    if (list->length != 0) {
        wake_head(t, list);
        return 1;
    }
    if (sem->count == sem->maximum) return 0;
    sem->count++;
    return 1;
}

/* Those whose condition holds become ready in list order, and the others move up. */
static void set_word(struct twin_table *t, unsigned o, uint16_t word) {
    struct twin_list *list = &t->lists[TWIN_OF_FLAGS + o];
    unsigned length = list->length, kept = 0;
    t->flags[o].word = word;
    for (unsigned k = 0; k < length; k++) {
        unsigned id = list->ids[k];
        struct twin_thread *th = &t->threads[id];
        if (holds(word, th->mask, th->mode)) {
            th->delivered = word;
            wake(t, id, RESULT_DONE);
        } else {
            list->ids[kept++] = (uint8_t)id;
        }
    }
    list->length = (uint8_t)kept;
    while (kept < length) list->ids[kept++] = 0;
}

/* ---- ticks */

/* The running thread if its quantum counts down, else null. */
INLINE struct twin_thread *in_quantum(struct twin_table *t) {
    if (t->off != 0 || t->chosen == TWIN_NOBODY) return NULL;
    struct twin_thread *th = &t->threads[t->chosen];
    return th->quantum != 0 && t->ready_length[th->current] >= 2 ? th : NULL;
}

/* The lesser of the least and a counter less one, so that a counter at rest is the greatest number. The least plus one is the distance. */
INLINE uint32_t lesser(uint32_t least, uint32_t counter) {
    return counter - 1 < least ? counter - 1 : least;
}

static uint32_t next_wake_up(struct twin_table *t) {
    uint32_t least = UINT32_MAX;
    const struct twin_thread *running = in_quantum(t);
    if (running != NULL) least = lesser(least, running->left);
    for (unsigned o = 0; o < TWIN_TIMERS; o++) least = lesser(least, t->timers[o].left);
    for (unsigned id = 0; id < TWIN_THREADS; id++) least = lesser(least, t->threads[id].limit);
    return least + 1;
}

/* The timers and the limits that count down, as masks. An advance only ever stops some of them. */
struct counters {
    unsigned timers, limits;
};

INLINE struct counters running_counters(const struct twin_table *t) {
    struct counters on = {0, 0};
    for (unsigned o = 0; o < TWIN_TIMERS; o++) on.timers |= (unsigned)(t->timers[o].left != 0) << o;
    for (unsigned id = 0; id < TWIN_THREADS; id++) on.limits |= (unsigned)(t->threads[id].limit != 0) << id;
    return on;
}

/* Ticks in which nothing falls due. */
INLINE void pass_quietly(struct twin_table *t, struct counters on, uint32_t ticks) {
    struct twin_thread *running = in_quantum(t);
    if (running != NULL) running->left = (uint16_t)(running->left - ticks);
    for (; on.timers != 0; on.timers &= on.timers - 1) t->timers[__builtin_ctz(on.timers)].left -= ticks;
    for (; on.limits != 0; on.limits &= on.limits - 1) t->threads[__builtin_ctz(on.limits)].limit -= ticks;
}

/* A timer has reached 0. */
static void expire(struct twin_table *t, struct twin_timer *tm) {
    tm->count++;
    if (tm->repeat != 0) tm->left = tm->period;
    if (tm->kind == ORDIZGUM_POSTS)
        post(t, tm->object);
    else if (tm->kind == ORDIZGUM_SETS_FLAGS)
        set_word(t, tm->object, t->flags[tm->object].word | tm->mask);
}

/* A limit has reached 0. Nobody on the stopped list has one. */
static void time_out(struct twin_table *t, unsigned id) {
    unsigned first = t->threads[id].mask != 0 ? TWIN_OF_FLAGS : TWIN_SLEEPING;
    unsigned list = cut_from_any(t, id, first, TWIN_LISTS);
    wake(t, id, list == TWIN_SLEEPING ? RESULT_DONE : RESULT_TIMED_OUT);
}

/* The ticks up to the next wake-up, that one included: all counters fall at once, then what is due is done in a tick's order. Answers the
   distance to the wake-up after it, which the same pass finds. */
INLINE uint32_t pass_to_wake_up(struct twin_table *t, struct counters *on, uint32_t ticks) {
    uint32_t least = UINT32_MAX;
    struct twin_thread *running = in_quantum(t);
    if (running != NULL) {
        running->left = (uint16_t)(running->left - ticks);
        if (running->left == 0) {
            running->left = running->quantum;
            running_to_tail(t);
        }
    }
    for (unsigned rest = on->timers; rest != 0; rest &= rest - 1) {
        struct twin_timer *tm = &t->timers[__builtin_ctz(rest)];
        tm->left -= ticks;
        if (tm->left == 0) {
            expire(t, tm);
            if (tm->left == 0) on->timers &= ~(rest & -rest);
        }
        least = lesser(least, tm->left);
    }
    for (unsigned rest = on->limits; rest != 0; rest &= rest - 1) {
        struct twin_thread *th = &t->threads[__builtin_ctz(rest)];
        /* A timer of this tick may have woken it. */
        if (th->limit == ticks) time_out(t, (unsigned)__builtin_ctz(rest));
        if (th->limit == 0) {
            on->limits &= ~(rest & -rest);
        } else {
            th->limit -= ticks;
            least = lesser(least, th->limit);
        }
    }
    if (t->off == 0) choose(t);
    running = in_quantum(t);
    if (running != NULL) least = lesser(least, running->left);
    return least + 1;
}

/* Answers the number of wake-ups and leaves the distance to the next one. */
static uint32_t advance(struct twin_table *t, uint32_t ticks, uint32_t *next) {
    struct counters on = running_counters(t);
    uint32_t wake_ups = 0, distance = next_wake_up(t);
    t->clock += ticks;
    while (distance != 0 && distance <= ticks) {
        ticks -= distance;
        distance = pass_to_wake_up(t, &on, distance);
        wake_ups++;
    }
    if (distance != 0 && ticks != 0) {
        pass_quietly(t, on, ticks);
        distance -= ticks;
    }
    *next = distance;
    return wake_ups;
}

/* ---- calls: each refuses in the order of the answers' numbers, then does its effect */

INLINE int no_thread(const struct twin_table *t, uint32_t id) {
    return id >= TWIN_THREADS || t->threads[id].created == 0;
}

INLINE int no_semaphore(const struct twin_table *t, uint32_t id) {
    return id >= TWIN_SEMAPHORES || t->semaphores[id].created == 0;
}

INLINE int no_mutex(const struct twin_table *t, uint32_t id) {
    return id >= TWIN_MUTEXES || t->mutexes[id].created == 0;
}

INLINE int no_flags(const struct twin_table *t, uint32_t id) {
    return id >= TWIN_FLAGS || t->flags[id].created == 0;
}

INLINE int no_mask(uint32_t mask) {
    return mask == 0 || mask > TOP_WORD;
}

static uint32_t create_thread(struct twin_table *t, uint32_t id, uint32_t priority, uint32_t quantum, uint32_t unused) {
    if (id >= TWIN_THREADS) return ORDIZGUM_NO_OBJECT;
    if (priority > TOP_PRIORITY || quantum > TOP_WORD || unused != 0) return ORDIZGUM_BAD_NUMBER;
    struct twin_thread *th = &t->threads[id];
    if (th->created != 0) return ORDIZGUM_EXISTS;
    th->created = 1;
    th->base = th->current = (uint8_t)priority;
    th->quantum = th->left = (uint16_t)quantum;
    to_tail(&t->lists[TWIN_STOPPED], id);
    return ORDIZGUM_DONE;
}

static uint32_t start(struct twin_table *t, uint32_t id, uint32_t unused) {
    if (no_thread(t, id)) return ORDIZGUM_NO_OBJECT;
    if (unused != 0) return ORDIZGUM_BAD_NUMBER;
    struct twin_list *stopped = &t->lists[TWIN_STOPPED];
    unsigned at = place_of(stopped->ids, stopped->length, id);
    if (at == stopped->length) return ORDIZGUM_WRONG_STATE;
    cut(stopped->ids, &stopped->length, at);
    to_ready_tail(t, id);
    return ORDIZGUM_DONE;
}

static uint32_t stop(struct twin_table *t, uint32_t id, uint32_t unused) {
    if (no_thread(t, id)) return ORDIZGUM_NO_OBJECT;
    if (unused != 0) return ORDIZGUM_BAD_NUMBER;
    if (t->off != 0 && id == t->chosen) return ORDIZGUM_SCHEDULING_OFF;
    unsigned p = t->threads[id].current, at = place_of(t->ready[p], t->ready_length[p], id);
    if (at == t->ready_length[p]) return ORDIZGUM_WRONG_STATE;
    cut(t->ready[p], &t->ready_length[p], at);
    to_tail(&t->lists[TWIN_STOPPED], id);
    return ORDIZGUM_DONE;
}

static uint32_t leave(struct twin_table *t, uint32_t unused) {
    if (unused != 0) return ORDIZGUM_BAD_NUMBER;
    if (t->chosen == TWIN_NOBODY) return ORDIZGUM_NOBODY_RUNS;
    if (t->off != 0) return ORDIZGUM_SCHEDULING_OFF;
    if (owns_any(t, t->chosen)) return ORDIZGUM_WRONG_STATE;
    cut_running(t);
    memset(&t->threads[t->chosen], 0, sizeof t->threads[0]);
    return ORDIZGUM_DONE;
}

static uint32_t yield(struct twin_table *t, uint32_t unused) {
    if (unused != 0) return ORDIZGUM_BAD_NUMBER;
    if (t->chosen == TWIN_NOBODY) return ORDIZGUM_NOBODY_RUNS;
    if (t->off != 0) return ORDIZGUM_SCHEDULING_OFF;
    running_to_tail(t);
    return ORDIZGUM_DONE;
}

static uint32_t sleep_for(struct twin_table *t, uint32_t ticks, uint32_t unused) {
    if (ticks == 0 || unused != 0) return ORDIZGUM_BAD_NUMBER;
    if (t->chosen == TWIN_NOBODY) return ORDIZGUM_NOBODY_RUNS;
    if (t->off != 0) return ORDIZGUM_SCHEDULING_OFF;
    suspend(t, ticks);
    to_tail(&t->lists[TWIN_SLEEPING], t->chosen);
    return ORDIZGUM_WAITS;
}

static uint32_t set_priority(struct twin_table *t, uint32_t id, uint32_t priority, uint32_t unused) {
    if (no_thread(t, id)) return ORDIZGUM_NO_OBJECT;
    if (priority > TOP_PRIORITY || unused != 0) return ORDIZGUM_BAD_NUMBER;
    struct twin_thread *th = &t->threads[id];
    th->base = (uint8_t)priority;
    /* An owner keeps a priority that is higher. */
    if (priority > th->current || !owns_any(t, id)) set_current(t, id, priority);
    return ORDIZGUM_DONE;
}

static uint32_t set_quantum(struct twin_table *t, uint32_t id, uint32_t quantum, uint32_t unused) {
    if (no_thread(t, id)) return ORDIZGUM_NO_OBJECT;
    if (quantum > TOP_WORD || unused != 0) return ORDIZGUM_BAD_NUMBER;
    t->threads[id].quantum = t->threads[id].left = (uint16_t)quantum;
    return ORDIZGUM_DONE;
}

static uint32_t create_semaphore(struct twin_table *t, uint32_t id, uint32_t count, uint32_t maximum, uint32_t unused) {
    if (id >= TWIN_SEMAPHORES) return ORDIZGUM_NO_OBJECT;
    if (maximum == 0 || maximum > TOP_WORD || count > maximum || unused != 0) return ORDIZGUM_BAD_NUMBER;
    struct twin_semaphore *sem = &t->semaphores[id];
    if (sem->created != 0) return ORDIZGUM_EXISTS;
    sem->created = 1;
    sem->count = (uint16_t)count;
    sem->maximum = (uint16_t)maximum;
    return ORDIZGUM_DONE;
}

static uint32_t pend(struct twin_table *t, uint32_t id, uint32_t limit, uint32_t unused) {
    if (no_semaphore(t, id)) return ORDIZGUM_NO_OBJECT;
    if (unused != 0) return ORDIZGUM_BAD_NUMBER;
    if (t->chosen == TWIN_NOBODY) return ORDIZGUM_NOBODY_RUNS;
    struct twin_semaphore *sem = &t->semaphores[id];
    if (sem->count != 0) {
        sem->count--;
        t->threads[t->chosen].result = RESULT_DONE;
        return ORDIZGUM_DONE;
    }
    if (t->off != 0) return ORDIZGUM_SCHEDULING_OFF;
    suspend(t, limit);
    enter(t, &t->lists[TWIN_OF_SEMAPHORES + id], t->chosen);
    return ORDIZGUM_WAITS;
}

static uint32_t post_call(struct twin_table *t, uint32_t id, uint32_t unused) {
    if (no_semaphore(t, id)) return ORDIZGUM_NO_OBJECT;
    if (unused != 0) return ORDIZGUM_BAD_NUMBER;
    return post(t, id) ? ORDIZGUM_DONE : ORDIZGUM_FULL;
}

static uint32_t create_mutex(struct twin_table *t, uint32_t id, uint32_t unused) {
    if (id >= TWIN_MUTEXES) return ORDIZGUM_NO_OBJECT;
    if (unused != 0) return ORDIZGUM_BAD_NUMBER;
    if (t->mutexes[id].created != 0) return ORDIZGUM_EXISTS;
    t->mutexes[id].created = 1;
    return ORDIZGUM_DONE;
}

static uint32_t claim(struct twin_table *t, uint32_t id, uint32_t limit, uint32_t unused) {
    if (no_mutex(t, id)) return ORDIZGUM_NO_OBJECT;
    if (unused != 0) return ORDIZGUM_BAD_NUMBER;
    if (t->chosen == TWIN_NOBODY) return ORDIZGUM_NOBODY_RUNS;
    struct twin_mutex *m = &t->mutexes[id];
    struct twin_thread *running = &t->threads[t->chosen];
    if (m->depth == 0 || m->owner == t->chosen) {
        if (m->depth == TOP_DEPTH) return ORDIZGUM_FULL;
        m->owner = t->chosen;
        m->depth++;
        running->result = RESULT_DONE;
        return ORDIZGUM_DONE;
    }
    if (t->off != 0) return ORDIZGUM_SCHEDULING_OFF;
    suspend(t, limit);
    enter(t, &t->lists[TWIN_OF_MUTEXES + id], t->chosen);
    if (running->current > t->threads[m->owner].current) set_current(t, m->owner, running->current);
    return ORDIZGUM_WAITS;
}

static uint32_t release(struct twin_table *t, uint32_t id, uint32_t unused) {
    if (no_mutex(t, id)) return ORDIZGUM_NO_OBJECT;
    if (unused != 0) return ORDIZGUM_BAD_NUMBER;
    if (t->chosen == TWIN_NOBODY) return ORDIZGUM_NOBODY_RUNS;
    struct twin_mutex *m = &t->mutexes[id];
    struct twin_list *list = &t->lists[TWIN_OF_MUTEXES + id];
    if (m->depth == 0 || m->owner != t->chosen) return ORDIZGUM_WRONG_STATE;
    m->depth--;
    if (m->depth != 0) return ORDIZGUM_DONE;
    set_current(t, t->chosen, t->threads[t->chosen].base);
    m->owner = 0;
    if (list->length != 0) {
        m->owner = (uint8_t)wake_head(t, list);
        m->depth = 1;
    }
    return ORDIZGUM_DONE;
}

static uint32_t create_flags(struct twin_table *t, uint32_t id, uint32_t word, uint32_t unused) {
    if (id >= TWIN_FLAGS) return ORDIZGUM_NO_OBJECT;
    if (word > TOP_WORD || unused != 0) return ORDIZGUM_BAD_NUMBER;
    if (t->flags[id].created != 0) return ORDIZGUM_EXISTS;
    t->flags[id].created = 1;
    t->flags[id].word = (uint16_t)word;
    return ORDIZGUM_DONE;
}

static uint32_t wait_for(struct twin_table *t, uint32_t id, uint32_t mask, uint32_t mode, uint32_t limit, uint32_t unused) {
    if (no_flags(t, id)) return ORDIZGUM_NO_OBJECT;
    if (no_mask(mask) || mode > TOP_MODE || unused != 0) return ORDIZGUM_BAD_NUMBER;
    if (t->chosen == TWIN_NOBODY) return ORDIZGUM_NOBODY_RUNS;
    struct twin_thread *running = &t->threads[t->chosen];
    if (holds(t->flags[id].word, mask, mode)) {
        running->result = RESULT_DONE;
        running->delivered = t->flags[id].word;
        return ORDIZGUM_DONE;
    }
    if (t->off != 0) return ORDIZGUM_SCHEDULING_OFF;
    suspend(t, limit);
    running->mask = (uint16_t)mask;
    running->mode = (uint8_t)mode;
    enter(t, &t->lists[TWIN_OF_FLAGS + id], t->chosen);
    return ORDIZGUM_WAITS;
}

static uint32_t change_flags(struct twin_table *t, uint32_t call, uint32_t id, uint32_t mask, uint32_t unused) {
    if (no_flags(t, id)) return ORDIZGUM_NO_OBJECT;
    if (no_mask(mask) || unused != 0) return ORDIZGUM_BAD_NUMBER;
    unsigned word = t->flags[id].word;
    set_word(t, id, (uint16_t)(call == ORDIZGUM_SET ? word | mask : word & ~mask));
    return ORDIZGUM_DONE;
}

static uint32_t start_timer(struct twin_table *t, uint32_t id, uint32_t period, uint32_t repeat, uint32_t action, uint32_t mask) {
    uint32_t kind = action & 255, object = action >> 8;
    int masked = kind == ORDIZGUM_SETS_FLAGS;
    if (id >= TWIN_TIMERS) return ORDIZGUM_NO_OBJECT;
    if ((kind == ORDIZGUM_POSTS && no_semaphore(t, object)) || (masked && no_flags(t, object))) return ORDIZGUM_NO_OBJECT;
    if (kind > ORDIZGUM_SETS_FLAGS || (kind == ORDIZGUM_NOTHING && object != 0)) return ORDIZGUM_BAD_NUMBER;
    if (period == 0 || repeat > 1 || (masked ? no_mask(mask) : mask != 0)) return ORDIZGUM_BAD_NUMBER;
    struct twin_timer *tm = &t->timers[id];
    tm->period = tm->left = period;
    tm->repeat = (uint8_t)repeat;
    tm->kind = (uint8_t)kind;
    tm->object = (uint8_t)object;
    tm->mask = (uint16_t)mask;
    return ORDIZGUM_DONE;
}

static uint32_t stop_timer(struct twin_table *t, uint32_t id, uint32_t unused) {
    if (id >= TWIN_TIMERS) return ORDIZGUM_NO_OBJECT;
    if (unused != 0) return ORDIZGUM_BAD_NUMBER;
    t->timers[id].left = 0;
    return ORDIZGUM_DONE;
}

static uint32_t scheduling(struct twin_table *t, uint32_t on, uint32_t unused) {
    if (on > 1 || unused != 0) return ORDIZGUM_BAD_NUMBER;
    t->off = on == 0;
    return ORDIZGUM_DONE;
}

/* Every call but an advance. */
INLINE uint32_t act(struct twin_table *t, uint32_t call, uint32_t id, uint32_t a, uint32_t b, uint32_t c, uint32_t d) {
    switch (call) {
    case ORDIZGUM_CREATE_THREAD: return create_thread(t, id, a, b, c | d);
    case ORDIZGUM_START: return start(t, id, a | b | c | d);
    case ORDIZGUM_STOP: return stop(t, id, a | b | c | d);
    case ORDIZGUM_EXIT: return leave(t, id | a | b | c | d);
    case ORDIZGUM_YIELD: return yield(t, id | a | b | c | d);
    case ORDIZGUM_SLEEP: return sleep_for(t, a, id | b | c | d);
    case ORDIZGUM_SET_PRIORITY: return set_priority(t, id, a, b | c | d);
    case ORDIZGUM_SET_QUANTUM: return set_quantum(t, id, a, b | c | d);
    case ORDIZGUM_CREATE_SEMAPHORE: return create_semaphore(t, id, a, b, c | d);
    case ORDIZGUM_PEND: return pend(t, id, a, b | c | d);
    case ORDIZGUM_POST: return post_call(t, id, a | b | c | d);
    case ORDIZGUM_CREATE_MUTEX: return create_mutex(t, id, a | b | c | d);
    case ORDIZGUM_CLAIM: return claim(t, id, a, b | c | d);
    case ORDIZGUM_RELEASE: return release(t, id, a | b | c | d);
    case ORDIZGUM_CREATE_FLAGS: return create_flags(t, id, a, b | c | d);
    case ORDIZGUM_WAIT: return wait_for(t, id, a, b, c, d);
    case ORDIZGUM_SET:
    case ORDIZGUM_CLEAR: return change_flags(t, call, id, a, b | c | d);
    case ORDIZGUM_START_TIMER: return start_timer(t, id, a, b, c, d);
    case ORDIZGUM_STOP_TIMER: return stop_timer(t, id, a | b | c | d);
    case ORDIZGUM_SCHEDULING: return scheduling(t, a, id | b | c | d);
    default: return ORDIZGUM_NO_CALL;
    }
}

static uint32_t report_unsound(uint32_t report[ORDIZGUM_REPORT_LENGTH]) {
    report[ORDIZGUM_REPORT_ANSWER] = ORDIZGUM_UNSOUND;
    report[ORDIZGUM_REPORT_CHOSEN] = ORDIZGUM_NOBODY;
    report[ORDIZGUM_REPORT_CLOCK] = report[ORDIZGUM_REPORT_WAKE_UPS] = report[ORDIZGUM_REPORT_NEXT_WAKE_UP] = 0;
    return ORDIZGUM_UNSOUND;
}

uint32_t twin_call(struct twin_table *t, uint32_t call, uint32_t id, uint32_t a, uint32_t b, uint32_t c, uint32_t d,
                   uint32_t report[ORDIZGUM_REPORT_LENGTH]) {
    uint32_t answer, wake_ups = 0, next;
    if (!twin_sound(t)) return report_unsound(report);
    if (call == ORDIZGUM_ADVANCE && (id | b | c | d) == 0) {
        answer = ORDIZGUM_DONE;
        wake_ups = advance(t, a, &next);
    } else {
        answer = call == ORDIZGUM_ADVANCE ? ORDIZGUM_BAD_NUMBER : act(t, call, id, a, b, c, d);
        /* After a refusal this changes nothing: the table was sound, so its chosen thread is the highest. */
        if (t->off == 0) choose(t);
        next = next_wake_up(t);
    }
    report[ORDIZGUM_REPORT_ANSWER] = answer;
    report[ORDIZGUM_REPORT_CHOSEN] = t->chosen;
    report[ORDIZGUM_REPORT_CLOCK] = t->clock;
    report[ORDIZGUM_REPORT_WAKE_UPS] = wake_ups;
    report[ORDIZGUM_REPORT_NEXT_WAKE_UP] = next;
    return answer;
}

void twin_fresh(struct twin_table *t) {
    memset(t, 0, sizeof *t);
    t->chosen = TWIN_NOBODY;
}

/* ---- the image */

/* Numbers in bytes, low byte first, whatever the machine; each steps over what it read or wrote. A compiler makes one load or store of them. */

INLINE uint8_t take8(const uint8_t **from) {
    return *(*from)++;
}

INLINE uint16_t take16(const uint8_t **from) {
    const uint8_t *p = *from;
    *from += 2;
    return (uint16_t)(p[0] | p[1] << 8);
}

INLINE uint32_t take32(const uint8_t **from) {
    const uint8_t *p = *from;
    *from += 4;
    return (uint32_t)p[0] | (uint32_t)p[1] << 8 | (uint32_t)p[2] << 16 | (uint32_t)p[3] << 24;
}

INLINE void put8(uint8_t **to, uint8_t n) {
    *(*to)++ = n;
}

INLINE void put16(uint8_t **to, uint16_t n) {
    put8(to, (uint8_t)n);
    put8(to, (uint8_t)(n >> 8));
}

INLINE void put32(uint8_t **to, uint32_t n) {
    put16(to, (uint16_t)n);
    put16(to, (uint16_t)(n >> 16));
}

INLINE void take_thread(struct twin_thread *th, const uint8_t **from) {
    th->created = take8(from);
    th->base = take8(from);
    th->current = take8(from);
    th->quantum = take16(from);
    th->left = take16(from);
    th->limit = take32(from);
    th->result = take8(from);
    th->mask = take16(from);
    th->mode = take8(from);
    th->delivered = take16(from);
}

INLINE void put_thread(uint8_t **to, const struct twin_thread *th) {
    put8(to, th->created);
    put8(to, th->base);
    put8(to, th->current);
    put16(to, th->quantum);
    put16(to, th->left);
    put32(to, th->limit);
    put8(to, th->result);
    put16(to, th->mask);
    put8(to, th->mode);
    put16(to, th->delivered);
}

INLINE void take_timer(struct twin_timer *tm, const uint8_t **from) {
    tm->period = take32(from);
    tm->left = take32(from);
    tm->repeat = take8(from);
    tm->kind = take8(from);
    tm->object = take8(from);
    tm->mask = take16(from);
    tm->count = take32(from);
}

INLINE void put_timer(uint8_t **to, const struct twin_timer *tm) {
    put32(to, tm->period);
    put32(to, tm->left);
    put8(to, tm->repeat);
    put8(to, tm->kind);
    put8(to, tm->object);
    put16(to, tm->mask);
    put32(to, tm->count);
}

/* Mutexes and lists are bytes alone, in the order of the image: the structs have no holes, so they are copied whole. */
void twin_read(struct twin_table *t, const uint8_t *image) {
    const uint8_t *from = image;
    t->clock = take32(&from);
    t->off = take8(&from);
    t->chosen = take8(&from);
    for (unsigned i = 0; i < TWIN_THREADS; i++) take_thread(&t->threads[i], &from);
    for (unsigned o = 0; o < TWIN_SEMAPHORES; o++) {
        t->semaphores[o].created = take8(&from);
        t->semaphores[o].count = take16(&from);
        t->semaphores[o].maximum = take16(&from);
    }
    memcpy(t->mutexes, from, sizeof t->mutexes);
    from += sizeof t->mutexes;
    for (unsigned o = 0; o < TWIN_FLAGS; o++) {
        t->flags[o].created = take8(&from);
        t->flags[o].word = take16(&from);
    }
    for (unsigned o = 0; o < TWIN_TIMERS; o++) take_timer(&t->timers[o], &from);
    memcpy(t->ready_length, from, sizeof t->ready_length);
    from += sizeof t->ready_length;
    memcpy(t->ready, from, sizeof t->ready);
    from += sizeof t->ready;
    memcpy(t->lists, from, sizeof t->lists);
}

void twin_write(const struct twin_table *t, uint8_t *image) {
    uint8_t *to = image;
    put32(&to, t->clock);
    put8(&to, t->off);
    put8(&to, t->chosen);
    for (unsigned i = 0; i < TWIN_THREADS; i++) put_thread(&to, &t->threads[i]);
    for (unsigned o = 0; o < TWIN_SEMAPHORES; o++) {
        put8(&to, t->semaphores[o].created);
        put16(&to, t->semaphores[o].count);
        put16(&to, t->semaphores[o].maximum);
    }
    memcpy(to, t->mutexes, sizeof t->mutexes);
    to += sizeof t->mutexes;
    for (unsigned o = 0; o < TWIN_FLAGS; o++) {
        put8(&to, t->flags[o].created);
        put16(&to, t->flags[o].word);
    }
    for (unsigned o = 0; o < TWIN_TIMERS; o++) put_timer(&to, &t->timers[o]);
    memcpy(to, t->ready_length, sizeof t->ready_length);
    to += sizeof t->ready_length;
    memcpy(to, t->ready, sizeof t->ready);
    to += sizeof t->ready;
    memcpy(to, t->lists, sizeof t->lists);
}

/* ---- the port */

uint32_t ordizgum_image_length(void) {
    return ORDIZGUM_IMAGE_LENGTH;
}

uint32_t ordizgum_fresh(uint8_t *image, size_t length) {
    struct twin_table t;
    if (length != ORDIZGUM_IMAGE_LENGTH) return ORDIZGUM_UNSOUND;
    twin_fresh(&t);
    twin_write(&t, image);
    return ORDIZGUM_DONE;
}

uint32_t ordizgum_sound(const uint8_t *image, size_t length) {
    struct twin_table t;
    if (length != ORDIZGUM_IMAGE_LENGTH) return ORDIZGUM_UNSOUND;
    twin_read(&t, image);
    return twin_sound(&t) ? ORDIZGUM_DONE : ORDIZGUM_UNSOUND;
}

uint32_t ordizgum_call(uint8_t *image, size_t length, uint32_t call, uint32_t id, uint32_t a, uint32_t b, uint32_t c, uint32_t d,
                       uint32_t report[ORDIZGUM_REPORT_LENGTH]) {
    struct twin_table t;
    uint32_t answer;
    if (length != ORDIZGUM_IMAGE_LENGTH) return report_unsound(report);
    twin_read(&t, image);
    answer = twin_call(&t, call, id, a, b, c, d, report);
    if (answer == ORDIZGUM_DONE || answer == ORDIZGUM_WAITS) twin_write(&t, image);
    return answer;
}

uint32_t ordizgum_next_wake_up(const uint8_t *image, size_t length, uint32_t next[1]) {
    struct twin_table t;
    next[0] = 0;
    if (length != ORDIZGUM_IMAGE_LENGTH) return ORDIZGUM_UNSOUND;
    twin_read(&t, image);
    if (!twin_sound(&t)) return ORDIZGUM_UNSOUND;
    next[0] = next_wake_up(&t);
    return ORDIZGUM_DONE;
}
