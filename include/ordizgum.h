/*
 * Ordizgum: a kernel table with proofs, for C.
 *
 * The table is an image: ORDIZGUM_IMAGE_LENGTH bytes that the caller owns, laid out as docs/IMAGE.md says. Nothing else is kept between
 * two calls, so an image may be copied, saved and sent. What the comments here say is proved, for any bytes, any length and any numbers
 * (crates/port has the contracts); each function ends, touches nothing but what it is handed, and calls nothing back.
 *
 * What the caller sees to: no pointer is null (not even with a length of 0), `image` has `length` bytes, the array `report` or `next`
 * doesn't overlap the image, and no two calls on one image run at the same time. In an interrupt: hold interrupts off around a call.
 *
 * Link with libport.a (x86-64), which `./ordizgum library` makes.
 */
#ifndef ORDIZGUM_H
#define ORDIZGUM_H

#include <stddef.h>
#include <stdint.h>

#ifdef __cplusplus
extern "C" {
#endif

/* The one length of an image, in bytes; ordizgum_image_length() gives the same number. */
#define ORDIZGUM_IMAGE_LENGTH 920u

/* The chosen thread where there is none. */
#define ORDIZGUM_NOBODY 255u

/*
 * Answers. 0 and 10 are accepted; 1 to 9 are refusals, tested in this order, the lowest that is due is given, and the image keeps every
 * byte.
 */
#define ORDIZGUM_DONE 0u           /* done */
#define ORDIZGUM_UNSOUND 1u        /* the image isn't sound, or its length is wrong */
#define ORDIZGUM_NO_CALL 2u        /* there is no such call */
#define ORDIZGUM_NO_OBJECT 3u      /* there is no such thread or object, also one named by a timer's action */
#define ORDIZGUM_BAD_NUMBER 4u     /* a number out of its range, or a field that the call doesn't use isn't 0 */
#define ORDIZGUM_EXISTS 5u         /* what is to be created is there */
#define ORDIZGUM_NOBODY_RUNS 6u    /* the call is made by the running thread, and nobody runs */
#define ORDIZGUM_SCHEDULING_OFF 7u /* not while scheduling is off */
#define ORDIZGUM_WRONG_STATE 8u    /* start of what isn't stopped, stop of what isn't ready, exit of an owner, release by another */
#define ORDIZGUM_FULL 9u           /* a semaphore that nobody waits for has its maximum; a mutex its 255 levels */
#define ORDIZGUM_WAITS 10u         /* accepted: the running thread now waits or sleeps */

/*
 * Calls. Behind each: its id and the numbers it takes; the others must be 0. "Running" is the chosen thread. A limit of 0 means none.
 */
#define ORDIZGUM_CREATE_THREAD 1u    /* id 0 to 15; a: priority 0 to 7, 7 the highest; b: quantum 0 to 65535 */
#define ORDIZGUM_START 2u            /* id of a stopped thread */
#define ORDIZGUM_STOP 3u             /* id of a ready thread */
#define ORDIZGUM_EXIT 4u             /* running */
#define ORDIZGUM_YIELD 5u            /* running */
#define ORDIZGUM_SLEEP 6u            /* running; a: ticks, from 1 */
#define ORDIZGUM_SET_PRIORITY 7u     /* id of a thread; a: priority */
#define ORDIZGUM_SET_QUANTUM 8u      /* id of a thread; a: quantum */
#define ORDIZGUM_CREATE_SEMAPHORE 9u /* id 0 to 7; a: count; b: maximum 1 to 65535 */
#define ORDIZGUM_PEND 10u            /* running; id of a semaphore; a: limit */
#define ORDIZGUM_POST 11u            /* id of a semaphore */
#define ORDIZGUM_CREATE_MUTEX 12u    /* id 0 to 3 */
#define ORDIZGUM_CLAIM 13u           /* running; id of a mutex; a: limit */
#define ORDIZGUM_RELEASE 14u         /* running; id of a mutex that it owns */
#define ORDIZGUM_CREATE_FLAGS 15u    /* id 0 to 3; a: word 0 to 65535 */
#define ORDIZGUM_WAIT 16u            /* running; id of a flag object; a: mask 1 to 65535; b: mode; c: limit */
#define ORDIZGUM_SET 17u             /* id of a flag object; a: mask */
#define ORDIZGUM_CLEAR 18u           /* id of a flag object; a: mask */
#define ORDIZGUM_START_TIMER 19u     /* id 0 to 7; a: period, from 1; b: 1 to repeat, else 0; c: ORDIZGUM_ACTION(kind, object); d: mask */
#define ORDIZGUM_STOP_TIMER 20u      /* id 0 to 7 */
#define ORDIZGUM_SCHEDULING 21u      /* a: 0 off, 1 on */
#define ORDIZGUM_ADVANCE 22u         /* a: ticks, any number */

/* Modes of a wait for flags: which bits of the mask have to be set, or clear. */
#define ORDIZGUM_ANY_SET 0u
#define ORDIZGUM_ALL_SET 1u
#define ORDIZGUM_ANY_CLEAR 2u
#define ORDIZGUM_ALL_CLEAR 3u

/* Kinds of a timer's action, and c of ORDIZGUM_START_TIMER. */
#define ORDIZGUM_NOTHING 0u   /* object 0, mask 0 */
#define ORDIZGUM_POSTS 1u     /* object: a semaphore; mask 0 */
#define ORDIZGUM_SETS_FLAGS 2u /* object: a flag object; mask 1 to 65535 */
#define ORDIZGUM_ACTION(kind, object) ((uint32_t)(kind) + 256u * (uint32_t)(object))

/* The places of a report. */
#define ORDIZGUM_REPORT_ANSWER 0
#define ORDIZGUM_REPORT_CHOSEN 1       /* the thread to run now, or ORDIZGUM_NOBODY */
#define ORDIZGUM_REPORT_CLOCK 2        /* the tick clock; it goes from 4294967295 to 0 */
#define ORDIZGUM_REPORT_WAKE_UPS 3     /* how many of an advance's ticks were wake-ups; 0 for every other call */
#define ORDIZGUM_REPORT_NEXT_WAKE_UP 4 /* in how many ticks the next one is; 0: in none */

/* How many places a report has: the array that a call is handed has room for so many numbers. */
#define ORDIZGUM_REPORT_LENGTH 5

/* The length of an image, ORDIZGUM_IMAGE_LENGTH. */
uint32_t ordizgum_image_length(void);

/*
 * Makes the image that of a fresh table: everything absent, zero and empty, scheduling on, nobody chosen. Answers 0, or 1 for a wrong
 * length, and then no byte is touched.
 */
uint32_t ordizgum_fresh(uint8_t *image, size_t length);

/* Whether the image is sound: 0, or 1 where it isn't, a wrong length among the reasons. */
uint32_t ordizgum_sound(const uint8_t *image, size_t length);

/*
 * One call. Answers as above and writes answer, chosen, clock, wake-ups and next wake-up into `report`, always every place. A refusal leaves
 * every byte of the image. With answer 1 the others are ORDIZGUM_NOBODY, 0, 0, 0: that is no order to sleep.
 */
uint32_t ordizgum_call(uint8_t *image, size_t length, uint32_t call, uint32_t id, uint32_t a, uint32_t b, uint32_t c, uint32_t d,
                       uint32_t report[ORDIZGUM_REPORT_LENGTH]);

/*
 * In how many ticks the next wake-up is, worked out from the image each time: 0 in `next[0]` means that there is none unless a call is
 * made. Answers 0; or 1 for an unsound image or a wrong length, and then next[0] is 0 too. Look at the answer first: a damaged image must
 * never be taken for "sleep for ever".
 */
uint32_t ordizgum_next_wake_up(const uint8_t *image, size_t length, uint32_t next[1]);

#ifdef __cplusplus
}
#endif

#endif
