/*
 * The twin in place: the kernel table by hand once more, on the image with links (docs/IMAGE.md, its second chapter; linked.h). The image is
 * the table: structs without padding are laid over its bytes, nothing is unpacked and nothing is kept between two calls. A peer to measure
 * against: that it gives the same answers is tested, not proved.
 *
 * Written to be fast. Eight links or several fields of a record are looked at as one number, which needs a machine that has the low byte first
 * and a compiler that packs structs (gcc, clang). The soundness test goes along each list once and notes on which it met a thread, so that a
 * call needn't search for it. An advance goes from wake-up to wake-up, by an agenda of what falls due within it.
 *
 * Where a function here relies on the table being sound, the call has tested that first.
 */
#include "linked.h"
#include <string.h>

#if !defined(__BYTE_ORDER__) || __BYTE_ORDER__ != __ORDER_LITTLE_ENDIAN__
#error "the image's fields are read in place: low byte first"
#endif

#define INLINE static inline __attribute__((always_inline))
#define IN_PLACE __attribute__((packed, may_alias))
#define RARE __attribute__((noinline, cold))
#define RARELY(condition) __builtin_expect((condition) != 0, 0)

enum { THREADS = 16, PRIORITIES = 8, SEMAPHORES = 8, MUTEXES = 4, FLAGS = 4, TIMERS = 8, NOBODY = 255 };
enum { TOP_PRIORITY = 7, TOP_RESULT = 2, TOP_MODE = 3, TOP_WORD = 65535, TOP_DEPTH = 255 };
enum { RESULT_NONE = 0, RESULT_DONE = 1, RESULT_TIMED_OUT = 2 };

/* The lists by their numbers: 0 to 7 are the ready lists; the last three here are the first of a run, one for each object. */
enum {
    SLEEPING = PRIORITIES,
    STOPPED,
    OF_SEMAPHORES,
    OF_MUTEXES = OF_SEMAPHORES + SEMAPHORES,
    OF_FLAGS = OF_MUTEXES + MUTEXES,
    LISTS = OF_FLAGS + FLAGS
};

/* ---- the image */

struct IN_PLACE thread {
    uint8_t created, base, current;
    uint16_t quantum, left;
    uint32_t limit;
    uint8_t result;
    uint16_t mask;
    uint8_t mode;
    uint16_t delivered;
};

struct IN_PLACE semaphore {
    uint8_t created;
    uint16_t count, maximum;
};

struct IN_PLACE mutex {
    uint8_t created, owner, depth;
};

struct IN_PLACE flags {
    uint8_t created;
    uint16_t word;
};

struct IN_PLACE timer {
    uint32_t period, left;
    uint8_t repeat, kind, object;
    uint16_t mask;
    uint32_t count;
};

/* A link is a thread's id plus one, or 0. */
struct IN_PLACE table {
    uint32_t clock;
    uint8_t off, chosen;
    struct thread threads[THREADS];
    struct semaphore semaphores[SEMAPHORES];
    struct mutex mutexes[MUTEXES];
    struct flags flags[FLAGS];
    struct timer timers[TIMERS];
    uint8_t next[THREADS], first[LISTS];
    uint8_t previous[THREADS], last[LISTS];
};

typedef char image_has_its_length[sizeof(struct table) == ORDIZGUM_IMAGE_LENGTH ? 1 : -1];

INLINE uint32_t get32(const void *p) {
    uint32_t n;
    memcpy(&n, p, sizeof n);
    return n;
}

INLINE uint64_t get64(const void *p) {
    uint64_t n;
    memcpy(&n, p, sizeof n);
    return n;
}

INLINE void put64(void *p, uint64_t n) {
    memcpy(p, &n, sizeof n);
}

/* Where several fields of a record are read as one number, of a thread: quantum and left; limit, result, mask and mode; the last three of these.
   Of a timer: repeat, kind, object and mask, behind three bytes that are shifted out. */
enum { QUANTUM_AT = 3, WAIT_AT = 7, RESULT_AT = 11, RESULT_SHIFT = 32, ACTION_AT = 5, ACTION_SHIFT = 24 };

/* Created, base and current of a thread, or the whole record of a mutex or a flag object. */
INLINE uint32_t three_bytes(const void *p) {
    return get32(p) & 0xFFFFFF;
}

/* Every bit of a thread's or a timer's record, which have one length. */
INLINE uint64_t bits_of(const void *record) {
    const uint8_t *bytes = record;
    return get64(bytes) | get64(bytes + 8) | bytes[16];
}

typedef char records_have_one_length[sizeof(struct thread) == 17 && sizeof(struct timer) == 17 ? 1 : -1];

/* A thread by its link, and its links; a timer by its id. */
enum { BEHIND_LINK_0 = sizeof(struct thread) - offsetof(struct table, threads) };
enum { BEFORE_NEXT = offsetof(struct table, next) - 1, BEFORE_PREVIOUS = offsetof(struct table, previous) - 1 };

INLINE const struct thread *seen(const struct table *t, size_t link) {
    return (const struct thread *)(const void *)((const uint8_t *)t + (sizeof(struct thread) * link - BEHIND_LINK_0));
}

INLINE struct thread *linked(struct table *t, size_t link) {
    return (struct thread *)(void *)((uint8_t *)t + (sizeof(struct thread) * link - BEHIND_LINK_0));
}

INLINE struct timer *timer_at(struct table *t, size_t id) {
    return (struct timer *)(void *)((uint8_t *)t + (offsetof(struct table, timers) + sizeof(struct timer) * id));
}

INLINE uint8_t next_of(const struct table *t, size_t link) {
    return ((const uint8_t *)t)[link + BEFORE_NEXT];
}

INLINE uint8_t previous_of(const struct table *t, size_t link) {
    return ((const uint8_t *)t)[link + BEFORE_PREVIOUS];
}

/* Whether a wait for flags is over. The modes' high bit asks for clear bits, their low bit for all of the mask, which isn't 0. */
INLINE int holds(unsigned word, unsigned mask, unsigned mode) {
    unsigned met = (mode & 2 ? ~word : word) & mask;
    return met != 0 && ((mode & 1) == 0 || met == mask);
}

/* The link of the head of the highest ready list that isn't empty, or 0: the eight firsts are one word, whose highest byte in use it is. */
INLINE unsigned highest(const struct table *t) {
    uint64_t firsts = get64(t->first);
    return (unsigned)(firsts >> ((63 - __builtin_clzll(firsts | 1)) & 56));
}

/* ---- soundness: links */

/* For each link the number of the list that the thread was met on, plus one. */
struct notes {
    uint8_t list[THREADS + 1];
};

INLINE int is_ready(const struct notes *noted, size_t link) {
    return noted->list[link] - 1u < PRIORITIES;
}

INLINE int is_on(const struct notes *noted, size_t link, unsigned list) {
    return noted->list[link] == list + 1;
}

#define EVERY_BYTE(n) (0x0101010101010101u * (uint64_t)(n))
#define TOP_BITS EVERY_BYTE(0x80)

/* Has the top bit of each byte above 16, and maybe of others beside such a byte. */
INLINE uint64_t beyond_threads(uint64_t links) {
    return (links + EVERY_BYTE(0x7F - THREADS)) | links;
}

/* Nothing is looked up by a link before this. Of the links from behind each is compared with one from the front. */
INLINE int links_in_range(const struct table *t) {
    uint64_t of_threads = beyond_threads(get64(t->next)) | beyond_threads(get64(t->next + 8));
    uint64_t of_lists = beyond_threads(get64(t->first)) | beyond_threads(get64(t->first + 8));
    of_lists |= beyond_threads(get64(t->first + 16)) | beyond_threads(get64(t->first + LISTS - 8));
    return ((of_threads | of_lists) & TOP_BITS) == 0;
}

/* The top bit of each byte other than 0, where none is above 128. */
INLINE uint64_t in_use(uint64_t bytes) {
    return (bytes + EVERY_BYTE(0x7F)) & TOP_BITS;
}

/* Which of eight lists aren't empty, as top bits: they have both ends, and the others neither. */
INLINE int both_ends(const struct table *t, size_t list, uint64_t *filled) {
    uint64_t lasts = get64(t->last + list);
    *filled = in_use(get64(t->first + list));
    return (((lasts + EVERY_BYTE(0x7F)) | lasts) & TOP_BITS) == *filled;
}

/* The first of eight lists that isn't empty. */
INLINE size_t list_at(uint64_t filled) {
    return (unsigned)__builtin_ctzll(filled) / 8;
}

/* ---- soundness: threads */

/* What the threads of a list are, and by that which values they may have. */
enum state { READY, AT_REST, ASLEEP, WAITING, WAITING_FOR_FLAGS };

static int owns_any(const struct table *t, size_t link) {
    for (unsigned o = 0; o < MUTEXES; o++)
        if (t->mutexes[o].depth != 0 && t->mutexes[o].owner + 1u == link) return 1;
    return 0;
}

/* Current may be above base for an owner. */
static RARE int raised(const struct table *t, size_t link) {
    const struct thread *th = seen(t, link);
    return th->created == 1 && th->base < th->current && owns_any(t, link);
}

/* Created, base and current: as one number, where current can be `top` alone. */
INLINE int priority_sound(const struct table *t, const struct thread *th, size_t link, enum state state, unsigned top) {
    if (state == READY) {
        if (RARELY(three_bytes(th) != 1 + top * 0x10100)) return th->current == top && raised(t, link);
        return 1;
    }
    if (th->current > top) return 0;
    if (RARELY(th->base != th->current)) return raised(t, link);
    return th->created == 1;
}

/* Quantum and left: if left isn't 1 to quantum, then both are 0. */
INLINE int quantum_sound(const struct thread *th) {
    if (RARELY(th->left - 1u >= th->quantum)) return get32((const uint8_t *)th + QUANTUM_AT) == 0;
    return 1;
}

/* Mask, mode and result of who waits for flags, from the low end on. */
INLINE int wait_for_flags_sound(uint32_t wait, unsigned word) {
    unsigned mask = (uint16_t)wait;
    return wait < (TOP_MODE + 1) << 16 && mask != 0 && !holds(word, mask, wait >> 16);
}

/* Limit, result, mask and mode, from the low end on. For who waits for flags the word of the flag object is given. */
INLINE int wait_sound(const struct thread *th, enum state state, unsigned word) {
    uint64_t wait = get64((const uint8_t *)th + WAIT_AT);
    uint32_t beside_limit = get32((const uint8_t *)th + RESULT_AT);
    switch (state) {
    case READY:
    case AT_REST: return (wait << 32 | wait >> 32) <= TOP_RESULT;
    case ASLEEP: return wait - 1 < UINT32_MAX;
    case WAITING: return beside_limit == 0;
    default: return wait_for_flags_sound(beside_limit >> 8 | beside_limit << 24, word);
    }
}

/*
 * A list that isn't empty. A ready list has threads of one current priority, `top`; on a wait list they fall or stay level, and elsewhere they
 * are free up to it. As each thread has to have the one before it as its previous, nobody can be met twice but at the beginnings of two lists.
 */
INLINE int list_sound(const struct table *t, size_t list, enum state state, unsigned top, unsigned word, struct notes *noted) {
    size_t link = t->first[list], before;
    if (noted->list[link] != 0 || previous_of(t, link) != 0) return 0;
    do {
        const struct thread *th = seen(t, link);
        if (!priority_sound(t, th, link, state, top) || !quantum_sound(th) || !wait_sound(th, state, word)) return 0;
        if (state == WAITING || state == WAITING_FOR_FLAGS) top = th->current;
        noted->list[link] = (uint8_t)(list + 1);
        before = link;
        link = next_of(t, link);
    } while (link != 0 && previous_of(t, link) == (uint8_t)before);
    return link == 0 && t->last[list] == (uint8_t)before;
}

static int ready_sound(const struct table *t, struct notes *noted) {
    uint64_t filled;
    if (!both_ends(t, 0, &filled)) return 0;
    for (; filled != 0; filled &= filled - 1) {
        size_t p = list_at(filled);
        if (!list_sound(t, p, READY, (unsigned)p, 0, noted)) return 0;
    }
    return 1;
}

/* A list by itself, the sleep list or the stopped list. */
INLINE int single_sound(const struct table *t, size_t list, enum state state, struct notes *noted) {
    if (t->first[list] == 0) return t->last[list] == 0;
    return list_sound(t, list, state, TOP_PRIORITY, 0, noted);
}

/* Who is on no list isn't there, and has no links. */
static int absent_sound(const struct table *t, const struct notes *noted) {
    uint64_t stray = 0;
    if ((in_use(get64(noted->list + 1)) & in_use(get64(noted->list + 9))) == TOP_BITS) return 1;
    for (size_t link = 1; link <= THREADS; link++)
        if (noted->list[link] == 0) stray |= bits_of(seen(t, link)) | next_of(t, link) | previous_of(t, link);
    return stray == 0;
}

INLINE int choice_sound(const struct table *t, const struct notes *noted) {
    if (t->off == 0) return t->chosen == (uint8_t)(highest(t) - 1);
    return t->off == 1 && (t->chosen == NOBODY || (t->chosen < THREADS && is_ready(noted, t->chosen + 1u)));
}

/* ---- soundness: objects and timers */

static int semaphores_sound(const struct table *t, struct notes *noted) {
    uint64_t filled;
    for (unsigned o = 0; o < SEMAPHORES; o++) {
        const struct semaphore *sem = &t->semaphores[o];
        if (sem->created != (sem->maximum != 0) || sem->count > sem->maximum) return 0;
    }
    if (!both_ends(t, OF_SEMAPHORES, &filled)) return 0;
    for (; filled != 0; filled &= filled - 1) {
        size_t o = list_at(filled);
        if (t->semaphores[o].created == 0 || t->semaphores[o].count != 0) return 0;
        if (!list_sound(t, OF_SEMAPHORES + o, WAITING, TOP_PRIORITY, 0, noted)) return 0;
    }
    return 1;
}

/* An owner is there, and doesn't wait for what it owns. */
INLINE int owner_sound(const struct mutex *m, unsigned o, const struct notes *noted) {
    if (m->created != 1 || m->owner >= THREADS || m->depth == 0) return 0;
    return !is_on(noted, m->owner + 1u, OF_MUTEXES + o) && noted->list[m->owner + 1] != 0;
}

/* When all lists have been walked. */
static int owners_sound(const struct table *t, const struct notes *noted) {
#pragma GCC unroll 4
    for (unsigned o = 0; o < MUTEXES; o++)
        if (three_bytes(&t->mutexes[o]) > 1 && !owner_sound(&t->mutexes[o], o, noted)) return 0;
    return 1;
}

static int claimers_sound(const struct table *t, uint64_t filled, struct notes *noted) {
    for (; filled != 0; filled &= filled - 1) {
        size_t o = list_at(filled);
        if (t->mutexes[o].depth == 0 || !list_sound(t, OF_MUTEXES + o, WAITING, TOP_PRIORITY, 0, noted)) return 0;
    }
    return 1;
}

static int flags_sound(const struct table *t, uint64_t filled, struct notes *noted) {
    for (unsigned o = 0; o < FLAGS; o++)
        if (RARELY(t->flags[o].created != 1) && three_bytes(&t->flags[o]) != 0) return 0;
    for (; filled != 0; filled &= filled - 1) {
        size_t o = list_at(filled);
        if (t->flags[o].created == 0) return 0;
        if (!list_sound(t, OF_FLAGS + o, WAITING_FOR_FLAGS, TOP_PRIORITY, t->flags[o].word, noted)) return 0;
    }
    return 1;
}

/* The lists of mutexes and flag objects are eight beside each other. */
static int objects_sound(const struct table *t, struct notes *noted) {
    uint64_t filled;
    if (!semaphores_sound(t, noted) || !both_ends(t, OF_MUTEXES, &filled)) return 0;
    return claimers_sound(t, filled & UINT32_MAX, noted) && flags_sound(t, filled >> 32, noted) && owners_sound(t, noted);
}

/* Repeat, kind, object and mask of a timer, from the low end on. A timer that does nothing has no more than repeat. */
INLINE int acts_or_odd(const struct timer *tm) {
    return get64((const uint8_t *)tm + ACTION_AT) >= (uint64_t)2 << ACTION_SHIFT;
}

INLINE int action_sound(const struct table *t, const struct timer *tm) {
    uint64_t action = get64((const uint8_t *)tm + ACTION_AT) >> ACTION_SHIFT, object_and_mask = action >> 16;
    if ((action & 0xFFFE) == ORDIZGUM_POSTS << 8) return object_and_mask < SEMAPHORES && t->semaphores[object_and_mask].created != 0;
    if ((action & 0xFFFE) != ORDIZGUM_SETS_FLAGS << 8) return 0;
    return tm->object < FLAGS && t->flags[tm->object].created != 0 && tm->mask != 0;
}

static int timers_sound(const struct table *t) {
#pragma GCC unroll 8
    for (unsigned o = 0; o < TIMERS; o++) {
        const struct timer *tm = &t->timers[o];
        if (RARELY(tm->period == 0)) {
            if (bits_of(tm) != 0) return 0;
        } else if (tm->left > tm->period || (acts_or_odd(tm) && !action_sound(t, tm))) {
            return 0;
        }
    }
    return 1;
}

static int sound(const struct table *t, struct notes *noted) {
    memset(noted->list + 1, 0, THREADS);
    if (!links_in_range(t) || !ready_sound(t, noted) || !choice_sound(t, noted)) return 0;
    if (!single_sound(t, SLEEPING, ASLEEP, noted) || !single_sound(t, STOPPED, AT_REST, noted)) return 0;
    return objects_sound(t, noted) && timers_sound(t) && absent_sound(t, noted);
}

/* ---- lists */

/* The cell of a thread's link, or of the list's own where there is no thread. */
INLINE uint8_t *next_cell(struct table *t, size_t list, size_t link) {
    return (uint8_t *)t + (link != 0 ? link + BEFORE_NEXT : list + offsetof(struct table, first));
}

INLINE uint8_t *previous_cell(struct table *t, size_t list, size_t link) {
    return (uint8_t *)t + (link != 0 ? link + BEFORE_PREVIOUS : list + offsetof(struct table, last));
}

/* Makes two threads neighbours on a list; 0 is the list's end. */
INLINE void join(struct table *t, size_t list, size_t before, size_t behind) {
    *next_cell(t, list, before) = (uint8_t)behind;
    *previous_cell(t, list, behind) = (uint8_t)before;
}

INLINE void to_tail(struct table *t, size_t list, size_t link) {
    size_t before = t->last[list];
    t->next[link - 1] = 0;
    t->previous[link - 1] = (uint8_t)before;
    t->last[list] = (uint8_t)link;
    *next_cell(t, list, before) = (uint8_t)link;
}

/* The links of who has left stay as they are until it is on another list, or absent. */
INLINE void cut(struct table *t, size_t list, size_t link) {
    join(t, list, previous_of(t, link), next_of(t, link));
}

INLINE void cut_head(struct table *t, size_t list) {
    size_t behind = next_of(t, t->first[list]);
    t->first[list] = (uint8_t)behind;
    *previous_cell(t, list, behind) = 0;
}

/* On a list of two or more. Answers the new head. */
INLINE size_t head_to_tail(struct table *t, size_t list) {
    size_t head = t->first[list], behind = next_of(t, head), last = t->last[list];
    t->first[list] = (uint8_t)behind;
    t->previous[behind - 1] = 0;
    t->next[last - 1] = (uint8_t)head;
    t->next[head - 1] = 0;
    t->previous[head - 1] = (uint8_t)last;
    t->last[list] = (uint8_t)head;
    return behind;
}

/* In front of the first whose current priority is lower, searched from the end. */
INLINE void enter(struct table *t, size_t list, size_t link) {
    unsigned p = linked(t, link)->current;
    size_t behind = 0, before = t->last[list];
    while (before != 0 && linked(t, before)->current < p) {
        behind = before;
        before = previous_of(t, before);
    }
    join(t, list, before, link);
    join(t, list, link, behind);
}

/* ---- threads */

INLINE size_t running(const struct table *t) {
    return t->chosen + 1u;
}

/* A change of the current priority moves a thread that is ready or on a wait list, and nobody else. */
INLINE void set_current(struct table *t, size_t link, unsigned priority, const struct notes *noted) {
    struct thread *th = linked(t, link);
    size_t list = noted->list[link] - 1u;
    if (th->current == priority) return;
    th->current = (uint8_t)priority;
    if (list == SLEEPING || list == STOPPED) return;
    cut(t, list, link);
    if (list < PRIORITIES)
        to_tail(t, priority, link);
    else
        enter(t, list, link);
}

/* A thread that has left its list becomes ready: limit, mask and mode 0. */
INLINE void wake(struct table *t, size_t link, unsigned result) {
    struct thread *th = linked(t, link);
    put64((uint8_t *)th + WAIT_AT, (uint64_t)result << RESULT_SHIFT);
    to_tail(t, th->current, link);
}

INLINE size_t wake_head(struct table *t, size_t list) {
    size_t link = t->first[list];
    cut_head(t, list);
    wake(t, link, RESULT_DONE);
    return link;
}

/* The running thread, with scheduling on the head of its ready list, leaves it to sleep or to wait. */
INLINE struct thread *suspend(struct table *t, uint32_t limit) {
    struct thread *th = linked(t, running(t));
    cut_head(t, th->current);
    th->limit = limit;
    th->result = RESULT_NONE;
    return th;
}

/* Another thread is chosen. */
INLINE void appoint(struct table *t, size_t link) {
    struct thread *th = linked(t, link);
    t->chosen = (uint8_t)(link - 1);
    th->left = th->quantum;
}

INLINE void choose(struct table *t) {
    size_t link = highest(t);
    if ((uint8_t)(link - 1) == t->chosen) return;
    if (link != 0)
        appoint(t, link);
    else
        t->chosen = NOBODY;
}

/* ---- what a call and a timer have in common */

/* False where the semaphore is full. */
static int post(struct table *t, size_t o) {
    struct semaphore *sem = &t->semaphores[o];
    if (t->first[OF_SEMAPHORES + o] != 0) {
        wake_head(t, OF_SEMAPHORES + o);
        return 1;
    }
    if (sem->count == sem->maximum) return 0;
    sem->count++;
    return 1;
}

/* Those whose condition holds become ready in list order. */
static void set_word(struct table *t, size_t o, uint16_t word) {
    size_t link = t->first[OF_FLAGS + o], behind;
    t->flags[o].word = word;
    for (; link != 0; link = behind) {
        struct thread *th = linked(t, link);
        behind = next_of(t, link);
        if (!holds(word, th->mask, th->mode)) continue;
        cut(t, OF_FLAGS + o, link);
        th->delivered = word;
        wake(t, link, RESULT_DONE);
    }
}

/* ---- ticks */

INLINE int has_company(const struct table *t, size_t priority) {
    return t->first[priority] != t->last[priority];
}

/* The running thread if its quantum counts down, else null: to look at, and to change. */
INLINE const struct thread *seen_in_quantum(const struct table *t) {
    if (t->off != 0 || t->chosen == NOBODY) return NULL;
    const struct thread *th = seen(t, running(t));
    return th->quantum != 0 && has_company(t, th->current) ? th : NULL;
}

INLINE struct thread *in_quantum(struct table *t) {
    return seen_in_quantum(t) != NULL ? linked(t, running(t)) : NULL;
}

/* The lesser of the least and a counter less one, so that a counter at rest is the greatest number. The least plus one is the distance. */
INLINE uint32_t lesser(uint32_t least, uint32_t counter) {
    return counter - 1 < least ? counter - 1 : least;
}

INLINE uint32_t next_wake_up(const struct table *t) {
    uint32_t least = UINT32_MAX;
    const struct thread *counting = seen_in_quantum(t);
    if (counting != NULL) least = lesser(least, counting->left);
    for (unsigned o = 0; o < TIMERS; o++) least = lesser(least, t->timers[o].left);
    for (unsigned id = 0; id < THREADS; id++) least = lesser(least, t->threads[id].limit);
    return least + 1;
}

/*
 * What falls due within an advance, in the order in which it does: a time, counted from the advance's beginning, and who it is, first the timers by
 * id and then the threads by link. While an advance lasts, a timer's left and a thread's limit in the image are such times too, so that a wake-up
 * changes those alone that are due in it.
 */
enum { PLACES = 32, WHO_BITS = 8, BEFORE_LINKS = TIMERS - 1 };
#define NEVER UINT64_MAX

struct agenda {
    uint64_t due[PLACES];
    unsigned begin, end;
    unsigned timers; /* those that run, as bits: a time of 4,294,967,296 is a left of 0 in the image */
};

INLINE void plan(struct agenda *a, uint64_t time, uint64_t who) {
    uint64_t due = time << WHO_BITS | who;
    unsigned at = a->end++;
    for (; at != a->begin && a->due[(at - 1) % PLACES] > due; at--) a->due[at % PLACES] = a->due[(at - 1) % PLACES];
    a->due[at % PLACES] = due;
}

INLINE void plan_all(const struct table *t, struct agenda *a, uint32_t ticks) {
    a->begin = a->end = a->timers = 0;
    for (unsigned o = 0; o < TIMERS; o++) {
        a->timers |= (unsigned)(t->timers[o].left != 0) << o;
        if (t->timers[o].left - 1 < ticks) plan(a, t->timers[o].left, o);
    }
    for (unsigned link = 1; link <= THREADS; link++)
        if (seen(t, link)->limit - 1 < ticks) plan(a, seen(t, link)->limit, link + BEFORE_LINKS);
}

/* When the first falls due. A thread that was woken before its time has no limit any more. */
INLINE uint64_t first_due(const struct table *t, struct agenda *a) {
    for (; a->begin != a->end; a->begin++) {
        uint64_t due = a->due[a->begin % PLACES];
        size_t who = (uint8_t)due;
        if (who <= BEFORE_LINKS || seen(t, who - BEFORE_LINKS)->limit != 0) return due >> WHO_BITS;
    }
    return NEVER;
}

/* A timer has reached 0. It is planned anew if that is within the advance. */
INLINE void expire(struct table *t, struct agenda *a, size_t o, uint64_t now, uint32_t ticks) {
    struct timer *tm = timer_at(t, o);
    uint64_t again = now + tm->period;
    tm->count++;
    if (tm->repeat != 0) {
        tm->left = (uint32_t)again;
        if (again <= ticks) plan(a, again, o);
    } else {
        tm->left = 0;
        a->timers &= ~(1u << o);
    }
    if (tm->kind == ORDIZGUM_POSTS)
        post(t, tm->object);
    else if (tm->kind == ORDIZGUM_SETS_FLAGS)
        set_word(t, tm->object, t->flags[tm->object].word | tm->mask);
}

/* A limit has reached 0, unless a timer of the same tick has woken the thread. */
INLINE void time_out(struct table *t, size_t link, const struct notes *noted) {
    size_t list = noted->list[link] - 1u;
    if (linked(t, link)->limit == 0) return;
    cut(t, list, link);
    wake(t, link, list == SLEEPING ? RESULT_DONE : RESULT_TIMED_OUT);
}

/* Ticks of the running thread's quantum, at the end of which it goes to the tail. Answers the new head then, else 0. */
INLINE size_t use_up(struct table *t, struct thread *th, uint64_t ticks) {
    uint16_t left = (uint16_t)(th->left - ticks);
    th->left = left != 0 ? left : th->quantum;
    return left != 0 ? 0 : head_to_tail(t, th->current);
}

/* All that falls due in one tick, beside a quantum. */
INLINE void do_due(struct table *t, struct agenda *a, uint64_t now, uint32_t ticks, const struct notes *noted) {
    for (; a->begin != a->end && a->due[a->begin % PLACES] >> WHO_BITS == now; a->begin++) {
        size_t who = (uint8_t)a->due[a->begin % PLACES];
        if (who <= BEFORE_LINKS)
            expire(t, a, who, now, ticks);
        else
            time_out(t, who - BEFORE_LINKS, noted);
    }
}

/* From wake-up to wake-up, in each of which what is due is done in a tick's order. Answers their number. Where a quantum ends and nothing else is
   due, the choice is known: all eight firsts aren't read as a word so shortly after one of them was written, which would take a while. */
static uint32_t pass_wake_ups(struct table *t, struct agenda *a, uint32_t ticks, const struct notes *noted) {
    struct thread *counting = in_quantum(t);
    uint64_t now = 0;
    for (uint32_t wake_ups = 0;; wake_ups++) {
        uint64_t due = first_due(t, a), end = counting != NULL ? now + counting->left : NEVER, then = end < due ? end : due;
        if (then > ticks) {
            if (counting != NULL) use_up(t, counting, ticks - now);
            return wake_ups;
        }
        size_t heir = counting != NULL ? use_up(t, counting, then - now) : 0;
        now = then;
        if (due == now) {
            do_due(t, a, now, ticks, noted);
            if (t->off == 0) choose(t);
        } else {
            appoint(t, heir);
        }
        counting = in_quantum(t);
    }
}

/* At the end of an advance what is a time becomes what is left of it. Answers the distance to the next wake-up. */
INLINE uint32_t settle(struct table *t, const struct agenda *a, uint32_t ticks) {
    const struct thread *counting = seen_in_quantum(t);
    uint32_t least = counting != NULL ? lesser(UINT32_MAX, counting->left) : UINT32_MAX;
    for (unsigned o = 0; o < TIMERS; o++) {
        if ((a->timers >> o & 1) != 0) t->timers[o].left -= ticks;
        least = lesser(least, t->timers[o].left);
    }
    for (unsigned id = 0; id < THREADS; id++) {
        if (t->threads[id].limit != 0) t->threads[id].limit -= ticks;
        least = lesser(least, t->threads[id].limit);
    }
    return least + 1;
}

/* Ticks in which nothing falls due. */
INLINE void pass_quietly(struct table *t, uint32_t ticks) {
    struct thread *counting = in_quantum(t);
    if (counting != NULL) use_up(t, counting, ticks);
    for (unsigned o = 0; o < TIMERS; o++)
        if (t->timers[o].left != 0) t->timers[o].left -= ticks;
    for (unsigned id = 0; id < THREADS; id++)
        if (t->threads[id].limit != 0) t->threads[id].limit -= ticks;
}

/* Answers the number of wake-ups and leaves the distance to the next one. */
static uint32_t advance(struct table *t, uint32_t ticks, const struct notes *noted, uint32_t *next) {
    struct agenda a;
    uint32_t wake_ups, distance = next_wake_up(t);
    t->clock += ticks;
    if (distance == 0 || distance > ticks) {
        *next = distance == 0 ? 0 : distance - ticks;
        if (distance != 0) pass_quietly(t, ticks);
        return 0;
    }
    plan_all(t, &a, ticks);
    wake_ups = pass_wake_ups(t, &a, ticks, noted);
    *next = settle(t, &a, ticks);
    return wake_ups;
}

/* ---- calls: each refuses in the order of the answers' numbers, then does its effect */

INLINE int no_thread(const struct table *t, uint32_t id) {
    return id >= THREADS || t->threads[id].created == 0;
}

INLINE int no_semaphore(const struct table *t, uint32_t id) {
    return id >= SEMAPHORES || t->semaphores[id].created == 0;
}

INLINE int no_mutex(const struct table *t, uint32_t id) {
    return id >= MUTEXES || t->mutexes[id].created == 0;
}

INLINE int no_flags(const struct table *t, uint32_t id) {
    return id >= FLAGS || t->flags[id].created == 0;
}

INLINE int no_mask(uint32_t mask) {
    return mask == 0 || mask > TOP_WORD;
}

static uint32_t create_thread(struct table *t, uint32_t id, uint32_t priority, uint32_t quantum, uint32_t unused) {
    if (id >= THREADS) return ORDIZGUM_NO_OBJECT;
    if (priority > TOP_PRIORITY || quantum > TOP_WORD || unused != 0) return ORDIZGUM_BAD_NUMBER;
    struct thread *th = &t->threads[id];
    if (th->created != 0) return ORDIZGUM_EXISTS;
    th->created = 1;
    th->base = th->current = (uint8_t)priority;
    th->quantum = th->left = (uint16_t)quantum;
    to_tail(t, STOPPED, id + 1);
    return ORDIZGUM_DONE;
}

static uint32_t start(struct table *t, uint32_t id, uint32_t unused, const struct notes *noted) {
    if (no_thread(t, id)) return ORDIZGUM_NO_OBJECT;
    if (unused != 0) return ORDIZGUM_BAD_NUMBER;
    if (!is_on(noted, id + 1, STOPPED)) return ORDIZGUM_WRONG_STATE;
    cut(t, STOPPED, id + 1);
    to_tail(t, t->threads[id].current, id + 1);
    return ORDIZGUM_DONE;
}

static uint32_t stop(struct table *t, uint32_t id, uint32_t unused, const struct notes *noted) {
    if (no_thread(t, id)) return ORDIZGUM_NO_OBJECT;
    if (unused != 0) return ORDIZGUM_BAD_NUMBER;
    if (t->off != 0 && id == t->chosen) return ORDIZGUM_SCHEDULING_OFF;
    if (!is_ready(noted, id + 1)) return ORDIZGUM_WRONG_STATE;
    cut(t, t->threads[id].current, id + 1);
    to_tail(t, STOPPED, id + 1);
    return ORDIZGUM_DONE;
}

static uint32_t leave(struct table *t, uint32_t unused) {
    if (unused != 0) return ORDIZGUM_BAD_NUMBER;
    if (t->chosen == NOBODY) return ORDIZGUM_NOBODY_RUNS;
    if (t->off != 0) return ORDIZGUM_SCHEDULING_OFF;
    if (owns_any(t, running(t))) return ORDIZGUM_WRONG_STATE;
    struct thread *th = &t->threads[t->chosen];
    cut_head(t, th->current);
    t->next[t->chosen] = t->previous[t->chosen] = 0;
    memset(th, 0, sizeof *th);
    return ORDIZGUM_DONE;
}

static uint32_t yield(struct table *t, uint32_t unused) {
    if (unused != 0) return ORDIZGUM_BAD_NUMBER;
    if (t->chosen == NOBODY) return ORDIZGUM_NOBODY_RUNS;
    if (t->off != 0) return ORDIZGUM_SCHEDULING_OFF;
    unsigned p = t->threads[t->chosen].current;
    if (has_company(t, p)) head_to_tail(t, p);
    return ORDIZGUM_DONE;
}

static uint32_t sleep_for(struct table *t, uint32_t ticks, uint32_t unused) {
    if (ticks == 0 || unused != 0) return ORDIZGUM_BAD_NUMBER;
    if (t->chosen == NOBODY) return ORDIZGUM_NOBODY_RUNS;
    if (t->off != 0) return ORDIZGUM_SCHEDULING_OFF;
    suspend(t, ticks);
    to_tail(t, SLEEPING, running(t));
    return ORDIZGUM_WAITS;
}

static uint32_t set_priority(struct table *t, uint32_t id, uint32_t priority, uint32_t unused, const struct notes *noted) {
    if (no_thread(t, id)) return ORDIZGUM_NO_OBJECT;
    if (priority > TOP_PRIORITY || unused != 0) return ORDIZGUM_BAD_NUMBER;
    struct thread *th = &t->threads[id];
    th->base = (uint8_t)priority;
    /* An owner keeps a priority that is higher. */
    if (priority > th->current || !owns_any(t, id + 1)) set_current(t, id + 1, priority, noted);
    return ORDIZGUM_DONE;
}

static uint32_t set_quantum(struct table *t, uint32_t id, uint32_t quantum, uint32_t unused) {
    if (no_thread(t, id)) return ORDIZGUM_NO_OBJECT;
    if (quantum > TOP_WORD || unused != 0) return ORDIZGUM_BAD_NUMBER;
    t->threads[id].quantum = t->threads[id].left = (uint16_t)quantum;
    return ORDIZGUM_DONE;
}

static uint32_t create_semaphore(struct table *t, uint32_t id, uint32_t count, uint32_t maximum, uint32_t unused) {
    if (id >= SEMAPHORES) return ORDIZGUM_NO_OBJECT;
    if (maximum == 0 || maximum > TOP_WORD || count > maximum || unused != 0) return ORDIZGUM_BAD_NUMBER;
    struct semaphore *sem = &t->semaphores[id];
    if (sem->created != 0) return ORDIZGUM_EXISTS;
    sem->created = 1;
    sem->count = (uint16_t)count;
    sem->maximum = (uint16_t)maximum;
    return ORDIZGUM_DONE;
}

static uint32_t pend(struct table *t, uint32_t id, uint32_t limit, uint32_t unused) {
    if (no_semaphore(t, id)) return ORDIZGUM_NO_OBJECT;
    if (unused != 0) return ORDIZGUM_BAD_NUMBER;
    if (t->chosen == NOBODY) return ORDIZGUM_NOBODY_RUNS;
    struct semaphore *sem = &t->semaphores[id];
    if (sem->count != 0) {
        sem->count--;
        t->threads[t->chosen].result = RESULT_DONE;
        return ORDIZGUM_DONE;
    }
    if (t->off != 0) return ORDIZGUM_SCHEDULING_OFF;
    suspend(t, limit);
    enter(t, OF_SEMAPHORES + id, running(t));
    return ORDIZGUM_WAITS;
}

static uint32_t post_call(struct table *t, uint32_t id, uint32_t unused) {
    if (no_semaphore(t, id)) return ORDIZGUM_NO_OBJECT;
    if (unused != 0) return ORDIZGUM_BAD_NUMBER;
    return post(t, id) ? ORDIZGUM_DONE : ORDIZGUM_FULL;
}

static uint32_t create_mutex(struct table *t, uint32_t id, uint32_t unused) {
    if (id >= MUTEXES) return ORDIZGUM_NO_OBJECT;
    if (unused != 0) return ORDIZGUM_BAD_NUMBER;
    if (t->mutexes[id].created != 0) return ORDIZGUM_EXISTS;
    t->mutexes[id].created = 1;
    return ORDIZGUM_DONE;
}

static uint32_t claim(struct table *t, uint32_t id, uint32_t limit, uint32_t unused, const struct notes *noted) {
    if (no_mutex(t, id)) return ORDIZGUM_NO_OBJECT;
    if (unused != 0) return ORDIZGUM_BAD_NUMBER;
    if (t->chosen == NOBODY) return ORDIZGUM_NOBODY_RUNS;
    struct mutex *m = &t->mutexes[id];
    if (m->depth == 0 || m->owner == t->chosen) {
        if (m->depth == TOP_DEPTH) return ORDIZGUM_FULL;
        m->owner = t->chosen;
        m->depth++;
        t->threads[t->chosen].result = RESULT_DONE;
        return ORDIZGUM_DONE;
    }
    if (t->off != 0) return ORDIZGUM_SCHEDULING_OFF;
    unsigned current = suspend(t, limit)->current;
    enter(t, OF_MUTEXES + id, running(t));
    if (current > t->threads[m->owner].current) set_current(t, m->owner + 1u, current, noted);
    return ORDIZGUM_WAITS;
}

static uint32_t release(struct table *t, uint32_t id, uint32_t unused, const struct notes *noted) {
    if (no_mutex(t, id)) return ORDIZGUM_NO_OBJECT;
    if (unused != 0) return ORDIZGUM_BAD_NUMBER;
    if (t->chosen == NOBODY) return ORDIZGUM_NOBODY_RUNS;
    struct mutex *m = &t->mutexes[id];
    if (m->depth == 0 || m->owner != t->chosen) return ORDIZGUM_WRONG_STATE;
    m->depth--;
    if (m->depth != 0) return ORDIZGUM_DONE;
    set_current(t, running(t), t->threads[t->chosen].base, noted);
    m->owner = 0;
    if (t->first[OF_MUTEXES + id] != 0) {
        m->owner = (uint8_t)(wake_head(t, OF_MUTEXES + id) - 1);
        m->depth = 1;
    }
    return ORDIZGUM_DONE;
}

static uint32_t create_flags(struct table *t, uint32_t id, uint32_t word, uint32_t unused) {
    if (id >= FLAGS) return ORDIZGUM_NO_OBJECT;
    if (word > TOP_WORD || unused != 0) return ORDIZGUM_BAD_NUMBER;
    if (t->flags[id].created != 0) return ORDIZGUM_EXISTS;
    t->flags[id].created = 1;
    t->flags[id].word = (uint16_t)word;
    return ORDIZGUM_DONE;
}

static uint32_t wait_for(struct table *t, uint32_t id, uint32_t mask, uint32_t mode, uint32_t limit, uint32_t unused) {
    if (no_flags(t, id)) return ORDIZGUM_NO_OBJECT;
    if (no_mask(mask) || mode > TOP_MODE || unused != 0) return ORDIZGUM_BAD_NUMBER;
    if (t->chosen == NOBODY) return ORDIZGUM_NOBODY_RUNS;
    struct thread *th = &t->threads[t->chosen];
    if (holds(t->flags[id].word, mask, mode)) {
        th->result = RESULT_DONE;
        th->delivered = t->flags[id].word;
        return ORDIZGUM_DONE;
    }
    if (t->off != 0) return ORDIZGUM_SCHEDULING_OFF;
    suspend(t, limit);
    th->mask = (uint16_t)mask;
    th->mode = (uint8_t)mode;
    enter(t, OF_FLAGS + id, running(t));
    return ORDIZGUM_WAITS;
}

static uint32_t change_flags(struct table *t, uint32_t call, uint32_t id, uint32_t mask, uint32_t unused) {
    if (no_flags(t, id)) return ORDIZGUM_NO_OBJECT;
    if (no_mask(mask) || unused != 0) return ORDIZGUM_BAD_NUMBER;
    unsigned word = t->flags[id].word;
    set_word(t, id, (uint16_t)(call == ORDIZGUM_SET ? word | mask : word & ~mask));
    return ORDIZGUM_DONE;
}

static uint32_t start_timer(struct table *t, uint32_t id, uint32_t period, uint32_t repeat, uint32_t action, uint32_t mask) {
    uint32_t kind = action & 255, object = action >> 8;
    int masked = kind == ORDIZGUM_SETS_FLAGS;
    if (id >= TIMERS) return ORDIZGUM_NO_OBJECT;
    if ((kind == ORDIZGUM_POSTS && no_semaphore(t, object)) || (masked && no_flags(t, object))) return ORDIZGUM_NO_OBJECT;
    if (kind > ORDIZGUM_SETS_FLAGS || (kind == ORDIZGUM_NOTHING && object != 0)) return ORDIZGUM_BAD_NUMBER;
    if (period == 0 || repeat > 1 || (masked ? no_mask(mask) : mask != 0)) return ORDIZGUM_BAD_NUMBER;
    struct timer *tm = &t->timers[id];
    tm->period = tm->left = period;
    tm->repeat = (uint8_t)repeat;
    tm->kind = (uint8_t)kind;
    tm->object = (uint8_t)object;
    tm->mask = (uint16_t)mask;
    return ORDIZGUM_DONE;
}

static uint32_t stop_timer(struct table *t, uint32_t id, uint32_t unused) {
    if (id >= TIMERS) return ORDIZGUM_NO_OBJECT;
    if (unused != 0) return ORDIZGUM_BAD_NUMBER;
    t->timers[id].left = 0;
    return ORDIZGUM_DONE;
}

static uint32_t scheduling(struct table *t, uint32_t on, uint32_t unused) {
    if (on > 1 || unused != 0) return ORDIZGUM_BAD_NUMBER;
    t->off = on == 0;
    return ORDIZGUM_DONE;
}

/* Every call but an advance. */
INLINE uint32_t act(struct table *t, uint32_t call, uint32_t id, uint32_t a, uint32_t b, uint32_t c, uint32_t d, const struct notes *noted) {
    switch (call) {
    case ORDIZGUM_CREATE_THREAD: return create_thread(t, id, a, b, c | d);
    case ORDIZGUM_START: return start(t, id, a | b | c | d, noted);
    case ORDIZGUM_STOP: return stop(t, id, a | b | c | d, noted);
    case ORDIZGUM_EXIT: return leave(t, id | a | b | c | d);
    case ORDIZGUM_YIELD: return yield(t, id | a | b | c | d);
    case ORDIZGUM_SLEEP: return sleep_for(t, a, id | b | c | d);
    case ORDIZGUM_SET_PRIORITY: return set_priority(t, id, a, b | c | d, noted);
    case ORDIZGUM_SET_QUANTUM: return set_quantum(t, id, a, b | c | d);
    case ORDIZGUM_CREATE_SEMAPHORE: return create_semaphore(t, id, a, b, c | d);
    case ORDIZGUM_PEND: return pend(t, id, a, b | c | d);
    case ORDIZGUM_POST: return post_call(t, id, a | b | c | d);
    case ORDIZGUM_CREATE_MUTEX: return create_mutex(t, id, a | b | c | d);
    case ORDIZGUM_CLAIM: return claim(t, id, a, b | c | d, noted);
    case ORDIZGUM_RELEASE: return release(t, id, a | b | c | d, noted);
    case ORDIZGUM_CREATE_FLAGS: return create_flags(t, id, a, b | c | d);
    case ORDIZGUM_WAIT: return wait_for(t, id, a, b, c, d);
    case ORDIZGUM_SET:
    case ORDIZGUM_CLEAR: return change_flags(t, call, id, a, b | c | d);
    case ORDIZGUM_START_TIMER: return start_timer(t, id, a, b, c, d);
    case ORDIZGUM_STOP_TIMER: return stop_timer(t, id, a | b | c | d);
    case ORDIZGUM_SCHEDULING: return scheduling(t, a, id | b | c | d);
    default: return ORDIZGUM_NO_CALL;
    }
}

/* ---- the port */

static uint32_t report_unsound(uint32_t report[ORDIZGUM_REPORT_LENGTH]) {
    report[ORDIZGUM_REPORT_ANSWER] = ORDIZGUM_UNSOUND;
    report[ORDIZGUM_REPORT_CHOSEN] = ORDIZGUM_NOBODY;
    report[ORDIZGUM_REPORT_CLOCK] = report[ORDIZGUM_REPORT_WAKE_UPS] = report[ORDIZGUM_REPORT_NEXT_WAKE_UP] = 0;
    return ORDIZGUM_UNSOUND;
}

uint32_t ordizgum_image_length(void) {
    return ORDIZGUM_IMAGE_LENGTH;
}

uint32_t ordizgum_fresh(uint8_t *image, size_t length) {
    if (length != ORDIZGUM_IMAGE_LENGTH) return ORDIZGUM_UNSOUND;
    memset(image, 0, ORDIZGUM_IMAGE_LENGTH);
    ((struct table *)(void *)image)->chosen = NOBODY;
    return ORDIZGUM_DONE;
}

uint32_t ordizgum_sound(const uint8_t *image, size_t length) {
    struct notes noted;
    if (length != ORDIZGUM_IMAGE_LENGTH) return ORDIZGUM_UNSOUND;
    return sound((const struct table *)(const void *)image, &noted) ? ORDIZGUM_DONE : ORDIZGUM_UNSOUND;
}

uint32_t ordizgum_call(uint8_t *image, size_t length, uint32_t call, uint32_t id, uint32_t a, uint32_t b, uint32_t c, uint32_t d,
                       uint32_t report[ORDIZGUM_REPORT_LENGTH]) {
    struct table *t = (struct table *)(void *)image;
    struct notes noted;
    uint32_t answer, wake_ups = 0, next;
    if (length != ORDIZGUM_IMAGE_LENGTH || !sound(t, &noted)) return report_unsound(report);
    if (call == ORDIZGUM_ADVANCE && (id | b | c | d) == 0) {
        answer = ORDIZGUM_DONE;
        wake_ups = advance(t, a, &noted, &next);
    } else {
        answer = call == ORDIZGUM_ADVANCE ? ORDIZGUM_BAD_NUMBER : act(t, call, id, a, b, c, d, &noted);
        /* After a refusal this changes nothing: the table was sound, so its chosen thread is the highest. */
        if (t->off == 0) choose(t);
        next = next_wake_up(t);
    }
    report[ORDIZGUM_REPORT_ANSWER] = answer;
    report[ORDIZGUM_REPORT_CHOSEN] = t->chosen;
    report[ORDIZGUM_REPORT_CLOCK] = t->clock;
    report[ORDIZGUM_REPORT_WAKE_UPS] = wake_ups;
    report[ORDIZGUM_REPORT_NEXT_WAKE_UP] = next;
    return answer;
}

uint32_t ordizgum_next_wake_up(const uint8_t *image, size_t length, uint32_t next[1]) {
    const struct table *t = (const struct table *)(const void *)image;
    struct notes noted;
    next[0] = 0;
    if (length != ORDIZGUM_IMAGE_LENGTH || !sound(t, &noted)) return ORDIZGUM_UNSOUND;
    next[0] = next_wake_up(t);
    return ORDIZGUM_DONE;
}
