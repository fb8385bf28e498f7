/*
 * A glider is weighed, its data sheet is installed (the paper's case G), a part
 * is fitted (case H) and taken back, and the glider is weighed once more with
 * the scales read twice; the placard is printed each time.
 *
 * To compile, at the top of the repository, once `tools/build.sh library` has
 * built the archive:
 *
 *   cc -std=c99 -Wall -Wextra -Iinclude examples/plate.c target/staticlib/libnodhulika.a -o target/plate
 */
#include <inttypes.h>
#include <stdio.h>
#include <stdlib.h>

#include "nodhulika.h"

/* Ends the program where a call is refused: no plate is made from a record
 * that lacks an entry. */
static void accept(const char *call, uint64_t number)
{
    if (number != NODHULIKA_OK) {
        fprintf(stderr, "%s: refused %" PRIu64 "\n", call, number);
        exit(EXIT_FAILURE);
    }
}

/* A glider weighed on wheel and tail, with the limits of an Astir. */
static void weigh_and_install(uint8_t *record, size_t length)
{
    accept("fresh", nodhulika_fresh(record, length));
    accept("weigh", nodhulika_weigh(record, length,
                                    1, 288000, 0,           /* m, p, q */
                                    63334, 500000,          /* a, b */
                                    140000));               /* n */
    accept("sheet", nodhulika_sheet(record, length,
                                    25000, 42500,           /* fwd, aft */
                                    380000, 450000, 240000, /* dry, wet, nlp */
                                    -47500, 55000, 110000, 1000, /* front */
                                    0, 0, 1,                     /* rear */
                                    30000, 100000, 50000));      /* water */
}

static void print_plate(const char *title, const uint8_t *record, size_t length)
{
    uint8_t out[NODHULIKA_LONGEST_PLACARD];
    uint8_t answer[NODHULIKA_ANSWER];
    int64_t total, bytes;

    accept("centre", nodhulika_centre(record, length, answer, sizeof answer));
    total = nodhulika_answer_number(answer, 0); /* in half grams */
    printf("%s: %" PRId64 "%s g, centre of gravity %" PRId64 "\n", title,
           total / 2, total % 2 == 0 ? "" : ".5",
           nodhulika_answer_number(answer, 2));

    accept("placard", nodhulika_placard(record, length, out, sizeof out,
                                        answer, sizeof answer));
    bytes = nodhulika_answer_number(answer, 0);
    fwrite(out, 1, (size_t)bytes, stdout);
}

int main(void)
{
    uint8_t record[NODHULIKA_LONGEST_FILE];

    weigh_and_install(record, sizeof record);
    print_plate("as weighed", record, sizeof record);

    /* A non-lifting part of 4.5 kg, one metre ahead of the datum. */
    accept("change", nodhulika_change(record, sizeof record, 4500, -100000, 1));
    print_plate("with the part", record, sizeof record);

    accept("undo", nodhulika_undo(record, sizeof record));
    print_plate("taken back", record, sizeof record);

    accept("weigh_paired",
           nodhulika_weigh_paired(record, sizeof record,
                                  1, 288000, 0, 288001, 0, /* m, p, q, p2, q2 */
                                  63334, 500000,           /* a, b */
                                  140000));                /* n */
    print_plate("weighed twice", record, sizeof record);
    printf("the record's file has %zu bytes\n", nodhulika_file_length(record));
    return EXIT_SUCCESS;
}
