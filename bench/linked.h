/*
 * For programs over the image with links (docs/IMAGE.md, its second chapter) instead of the image of include/ordizgum.h:
 *
 *     cc -include linked.h ..
 *
 * puts this in front of a program, whose own includes of ordizgum.h and twin.h then do nothing. Functions, calls and answers are those of
 * ordizgum.h; only the length is another, and the twin's table is the image itself.
 */
#ifndef LINKED_H
#define LINKED_H

/* Which functions a program asks of the C library it says in front of its first include, and that is this one: so all are asked for here, and the
   names are given free again. */
#define _DEFAULT_SOURCE
#include "ordizgum.h"
#undef _DEFAULT_SOURCE
#undef _POSIX_C_SOURCE

#undef ORDIZGUM_IMAGE_LENGTH
#define ORDIZGUM_IMAGE_LENGTH 562u

/* What twin_replay.c asks of twin.h. */
#define TWIN_H

struct twin_table {
    uint8_t image[ORDIZGUM_IMAGE_LENGTH];
};

static inline void twin_fresh(struct twin_table *t) {
    ordizgum_fresh(t->image, sizeof t->image);
}

static inline uint32_t twin_call(struct twin_table *t, uint32_t call, uint32_t id, uint32_t a, uint32_t b, uint32_t c, uint32_t d,
                                 uint32_t report[ORDIZGUM_REPORT_LENGTH]) {
    return ordizgum_call(t->image, sizeof t->image, call, id, a, b, c, d, report);
}

#endif
