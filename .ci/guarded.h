/* What the drivers share: memory between pages that can't be touched, numbers of four bytes, and an end with a reason. */
#ifndef GUARDED_H
#define GUARDED_H

#define _DEFAULT_SOURCE
#include <stddef.h>
#include <stdint.h>
#include <stdio.h>
#include <stdlib.h>
#include <sys/mman.h>
#include <unistd.h>

enum { LONGEST = 8192 };           /* of an image, a multiple of a page */
enum { NUMBER = 4, REQUEST = 6 };  /* a number's bytes in a case, and a request's numbers */

static void stop(const char *what) {
    perror(what);
    exit(2);
}

/* Room of so many bytes, a multiple of a page, between two pages that can't be touched. */
static uint8_t *guarded(size_t room) {
    size_t page = (size_t)sysconf(_SC_PAGESIZE);
    uint8_t *all = mmap(NULL, room + 2 * page, PROT_NONE, MAP_PRIVATE | MAP_ANONYMOUS, -1, 0);
    if (all == MAP_FAILED || mprotect(all + page, room, PROT_READ | PROT_WRITE) != 0) stop("guarded memory");
    return all + page;
}

/* An image of a length in such room: at its end and at its beginning in turn, so that a byte read or written outside stops the program. */
static uint8_t *against_a_page(uint8_t *room, size_t length, unsigned long turn) {
    return turn % 2 == 0 ? room + LONGEST - length : room;
}

static uint32_t get32(const uint8_t *p) {
    return (uint32_t)p[0] | (uint32_t)p[1] << 8 | (uint32_t)p[2] << 16 | (uint32_t)p[3] << 24;
}

static void put32(uint32_t n) {
    uint8_t bytes[NUMBER] = {(uint8_t)n, (uint8_t)(n >> 8), (uint8_t)(n >> 16), (uint8_t)(n >> 24)};
    if (fwrite(bytes, 1, NUMBER, stdout) != NUMBER) stop("standard output");
}

/* The length of the next case's image; whether there is one. */
static int next_case(size_t *length) {
    uint8_t head[NUMBER];
    if (fread(head, 1, NUMBER, stdin) != NUMBER) return 0;
    *length = get32(head);
    if (*length > LONGEST) stop("an image is too long");
    return 1;
}

static void read_part(uint8_t *part, size_t length) {
    if (fread(part, 1, length, stdin) != length) stop("a case is short");
}

#endif
