/*
 * The port under test: reads a file of cases (second/README.md) from standard input, makes each call through the port, and writes the
 * answers to standard output in the form of `second image answers`. What that form has no place for is tested here: a difference is told
 * on standard error with the number of its case, and the exit status is 1.
 *
 * The image and the report lie against pages that can't be touched, the image at their end and at their beginning in turn, so that a byte
 * read or written outside stops the program; every so often the image is write-protected while it is only looked at.
 */
#include "guarded.h"
#include "ordizgum.h"
#include <string.h>

enum { PROTECT_EVERY = 64 };
enum { CHOSEN_AT = 5 }; /* docs/IMAGE.md */

static unsigned long number_of_case;
static int failures;

static void differs(const char *what) {
    fprintf(stderr, "case %lu: %s\n", number_of_case, what);
    failures++;
}

/* What is only looked at: soundness and the next wake-up. */
static uint32_t look(uint8_t *room, const uint8_t *image, size_t length, uint32_t *next) {
    int protect = number_of_case % PROTECT_EVERY == 0;
    if (protect && mprotect(room, LONGEST, PROT_READ) != 0) stop("write protection");
    uint32_t unsound = ordizgum_sound(image, length);
    next[0] = 0xA5A5A5A5u;
    if (ordizgum_next_wake_up(image, length, next) != unsound) differs("the next wake-up's answer isn't that of the soundness test");
    if (unsound != 0 && next[0] != 0) differs("a next wake-up is named for an unsound image");
    if (protect && mprotect(room, LONGEST, PROT_READ | PROT_WRITE) != 0) stop("write protection");
    return unsound;
}

/* A refusal writes nothing, not even the same bytes: it is asked for once more on an image that can't be written to. */
static void refused_again(uint8_t *room, uint8_t *image, size_t length, const uint32_t asked[REQUEST], uint32_t *report) {
    uint32_t before[ORDIZGUM_REPORT_LENGTH];
    memcpy(before, report, sizeof before);
    if (mprotect(room, LONGEST, PROT_READ) != 0) stop("write protection");
    ordizgum_call(image, length, asked[0], asked[1], asked[2], asked[3], asked[4], asked[5], report);
    if (mprotect(room, LONGEST, PROT_READ | PROT_WRITE) != 0) stop("write protection");
    if (memcmp(before, report, sizeof before) != 0) differs("a refusal isn't told the same way twice");
}

static void one_case(uint8_t *room, size_t length, uint32_t *report) {
    uint8_t *image = against_a_page(room, length, number_of_case);
    uint8_t request[REQUEST * NUMBER];
    uint32_t asked[REQUEST], next[1], unsound, answer;
    read_part(image, length);
    read_part(request, sizeof request);
    for (int i = 0; i < REQUEST; i++) asked[i] = get32(request + NUMBER * i);
    unsound = look(room, image, length, next);
    for (int i = 0; i < ORDIZGUM_REPORT_LENGTH; i++) report[i] = 0xA5A5A5A5u;
    answer = ordizgum_call(image, length, asked[0], asked[1], asked[2], asked[3], asked[4], asked[5], report);
    if (answer != report[ORDIZGUM_REPORT_ANSWER]) differs("the answer isn't the report's");
    if ((answer == ORDIZGUM_UNSOUND) != (unsound == 1)) differs("answer 1 isn't that of the soundness test");
    if (answer != ORDIZGUM_UNSOUND && (look(room, image, length, next) != 0 || next[0] != report[ORDIZGUM_REPORT_NEXT_WAKE_UP]))
        differs("the next wake-up reported isn't that of the image");
    if (answer != ORDIZGUM_DONE && answer != ORDIZGUM_WAITS) refused_again(room, image, length, asked, report);
    put32(unsound);
    for (int i = 0; i < ORDIZGUM_REPORT_LENGTH; i++) put32(report[i]);
    if (fwrite(image, 1, length, stdout) != length) stop("standard output");
}

/* A fresh image, and lengths that are refused. */
static void fresh_images(uint8_t *room) {
    static const size_t wrong[] = {0, 1, ORDIZGUM_IMAGE_LENGTH - 1, ORDIZGUM_IMAGE_LENGTH + 1, 2 * ORDIZGUM_IMAGE_LENGTH, LONGEST};
    memset(room, 0xA5, LONGEST);
    for (size_t i = 0; i < sizeof wrong / sizeof wrong[0]; i++) {
        if (ordizgum_fresh(room, wrong[i]) != 1) differs("a fresh image of a wrong length");
        for (size_t k = 0; k < LONGEST; k++)
            if (room[k] != 0xA5) differs("a byte was touched with a wrong length");
    }
    if (ordizgum_image_length() != ORDIZGUM_IMAGE_LENGTH) differs("the image's length isn't the header's");
    if (ordizgum_fresh(room, ORDIZGUM_IMAGE_LENGTH) != 0 || ordizgum_sound(room, ORDIZGUM_IMAGE_LENGTH) != 0) differs("a fresh image isn't sound");
    for (size_t k = 0; k < LONGEST; k++)
        if (room[k] != (k >= ORDIZGUM_IMAGE_LENGTH ? 0xA5 : k == CHOSEN_AT ? ORDIZGUM_NOBODY : 0)) differs("a byte of the fresh image");
}

int main(void) {
    uint8_t *room = guarded(LONGEST), *reports = guarded(LONGEST);
    size_t length;
    uint32_t *report = (uint32_t *)(void *)(reports + LONGEST) - ORDIZGUM_REPORT_LENGTH;
    fresh_images(room);
    for (; next_case(&length); number_of_case++) one_case(room, length, report);
    if (fflush(stdout) != 0) stop("standard output");
    return failures != 0;
}
