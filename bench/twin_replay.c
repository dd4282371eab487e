/*
 * Replays a file of calls on the twin, from the file named or from standard input, and writes a line for each record: answer, chosen, clock
 * and wake-ups. It ends at the first record that is short or has a wrong mark, and says where that begins.
 *
 *     twin_replay [FILE]
 *
 * A block holds whole records alone, and the lines of a block are written at once.
 */
#define _POSIX_C_SOURCE 200809L
#include "twin.h"
#include <fcntl.h>
#include <stdio.h>
#include <stdlib.h>
#include <string.h>
#include <unistd.h>

/* A line has at most 2, 3, 10 and 10 digits with their ends; the last one, on a bad record, is longer by less than the room beside. */
enum { RECORD = 20, BLOCK = 16380, LINE = 29, LAST_LINE = 64 };

static uint8_t block[BLOCK];
static char lines[BLOCK / RECORD * LINE + LAST_LINE];
static struct twin_table table;

static void fail(const char *what) {
    perror(what);
    exit(1);
}

static uint32_t get32(const uint8_t *p) {
    return (uint32_t)p[0] | (uint32_t)p[1] << 8 | (uint32_t)p[2] << 16 | (uint32_t)p[3] << 24;
}

/* The number in decimal, then the character that ends it. Answers where to go on. */
static inline char *put_number(char *to, uint64_t n, char end) {
    char digits[20];
    unsigned at = sizeof digits;
    while (n >= 10) {
        digits[--at] = (char)('0' + n % 10);
        n /= 10;
    }
    *to++ = (char)('0' + n);
    while (at < sizeof digits) *to++ = digits[at++];
    *to++ = end;
    return to;
}

/* Fills the block, unless the file ends first. A pipe may hand over less than was asked for. */
static size_t read_block(int file) {
    size_t got = 0;
    while (got < BLOCK) {
        ssize_t more = read(file, block + got, BLOCK - got);
        if (more < 0) fail("reading");
        if (more == 0) break;
        got += (size_t)more;
    }
    return got;
}

static void write_lines(const char *end) {
    for (const char *from = lines; from < end;) {
        ssize_t done = write(STDOUT_FILENO, from, (size_t)(end - from));
        if (done < 0) fail("writing");
        from += done;
    }
}

/* The call of one record, and its line. */
static inline char *replay(const uint8_t *r, char *to) {
    uint32_t report[ORDIZGUM_REPORT_LENGTH];
    twin_call(&table, r[2], r[3], get32(r + 4), get32(r + 8), get32(r + 12), get32(r + 16), report);
    to = put_number(to, report[ORDIZGUM_REPORT_ANSWER], ' ');
    to = put_number(to, report[ORDIZGUM_REPORT_CHOSEN], ' ');
    to = put_number(to, report[ORDIZGUM_REPORT_CLOCK], ' ');
    return put_number(to, report[ORDIZGUM_REPORT_WAKE_UPS], '\n');
}

int main(int count, char **arguments) {
    int file = count > 1 ? open(arguments[1], O_RDONLY) : STDIN_FILENO, bad = 0;
    uint64_t offset = 0;
    size_t got;
    if (file < 0) fail(arguments[1]);
    twin_fresh(&table);
    while (!bad && (got = read_block(file)) != 0) {
        size_t at = 0;
        char *to = lines;
        for (; got - at >= RECORD && block[at] == 0xAC && block[at + 1] == 0xDC; at += RECORD) to = replay(block + at, to);
        bad = at < got;
        if (bad) {
            memcpy(to, "bad record at ", 14);
            to = put_number(to + 14, offset + at, '\n');
        }
        offset += got;
        write_lines(to);
    }
    return 0;
}
