/*
 * A glider is weighed with a load-cell indicator, from the bytes that it sends:
 * the total on a cell in the crane, the rear reading on a cell under the tail
 * (method 1). The first time one of the readings still moves, so that the scales
 * are read again; then what came of the weighing is printed.
 *
 * To compile, at the top of the repository, once `tools/build.sh library` has
 * built the archive:
 *
 *   cc -std=c99 -Wall -Wextra -Iinclude examples/indicator.c target/staticlib/libnodhulika.a -o target/indicator
 */
#include <inttypes.h>
#include <stdio.h>
#include <stdlib.h>

#include "nodhulika.h"

/* Bytes of a message: a state, and a binary64 with its highest byte first. */
#define MESSAGE 9

/* A load cell: what it is rated for, and what it shows without the glider, both
 * in kilograms. */
struct cell {
    double rated, zero;
};

static const struct cell crane = {500.0, 0.25};
static const struct cell tail = {50.0, 0.05};

/* The four messages of a weighing. */
struct readings {
    uint8_t p[MESSAGE], q[MESSAGE], p2[MESSAGE], q2[MESSAGE];
};

/* 310.25 and 29.95 kg; then 310.65 kg, and the tail still swings. */
static const struct readings swinging = {
    {1, 0x40, 0x73, 0x64, 0x00, 0x00, 0x00, 0x00, 0x00},
    {1, 0x40, 0x3d, 0xf3, 0x33, 0x33, 0x33, 0x33, 0x33},
    {1, 0x40, 0x73, 0x6a, 0x66, 0x66, 0x66, 0x66, 0x66},
    {2, 0x40, 0x3d, 0xa0, 0x00, 0x00, 0x00, 0x00, 0x00},
};

/* The same, with the tail at rest at 29.75 kg. */
static const struct readings steady = {
    {1, 0x40, 0x73, 0x64, 0x00, 0x00, 0x00, 0x00, 0x00},
    {1, 0x40, 0x3d, 0xf3, 0x33, 0x33, 0x33, 0x33, 0x33},
    {1, 0x40, 0x73, 0x6a, 0x66, 0x66, 0x66, 0x66, 0x66},
    {1, 0x40, 0x3d, 0xc0, 0x00, 0x00, 0x00, 0x00, 0x00},
};

static uint64_t weigh(uint8_t *record, size_t length, const struct readings *r)
{
    return nodhulika_weigh_indicated(record, length,
                                     1, /* m */
                                     r->p, MESSAGE, crane.rated, crane.zero,
                                     r->q, MESSAGE, tail.rated, tail.zero,
                                     r->p2, MESSAGE, crane.rated, crane.zero,
                                     r->q2, MESSAGE, tail.rated, tail.zero,
                                     9500, 550000, /* a, b */
                                     0);           /* n */
}

/* Ends the program where a call is refused. */
static void accept(const char *call, uint64_t number)
{
    if (number != NODHULIKA_OK) {
        fprintf(stderr, "%s: refused %" PRIu64 "\n", call, number);
        exit(EXIT_FAILURE);
    }
}

/* Half of a number, which may be negative. */
static void print_half(const char *before, int64_t halves, const char *behind)
{
    int64_t size = halves < 0 ? -halves : halves;

    printf("%s%s%" PRId64 "%s%s\n", before, halves < 0 ? "-" : "", size / 2,
           size % 2 == 0 ? "" : ".5", behind);
}

int main(void)
{
    uint8_t record[NODHULIKA_LONGEST_FILE];
    uint8_t answer[NODHULIKA_ANSWER];
    uint64_t number;

    accept("fresh", nodhulika_fresh(record, sizeof record));
    number = weigh(record, sizeof record, &swinging);
    if (number == NODHULIKA_UNSTEADY) {
        printf("not at rest: read again\n");
        number = weigh(record, sizeof record, &steady);
    }
    accept("weigh_indicated", number);

    accept("centre", nodhulika_centre(record, sizeof record, answer,
                                      sizeof answer));
    print_half("total ", nodhulika_answer_number(answer, 0), " g");
    print_half("moment ", nodhulika_answer_number(answer, 1), " g x 0.01 mm");
    printf("centre of gravity %" PRId64 " x 0.01 mm\n",
           nodhulika_answer_number(answer, 2));
    printf("the record's file has %zu bytes\n", nodhulika_file_length(record));
    return EXIT_SUCCESS;
}
