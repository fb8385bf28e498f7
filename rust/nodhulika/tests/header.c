/* What the header defines itself: its two inline functions, and what they read
 * of a record and of an answer. And a seat's ends, the columns of the equipment
 * and the messages and cells of an indicator, as C passes them. */
#include <stdio.h>
#include <stdlib.h>

#include "nodhulika.h"

static void expect(int holds, const char *what)
{
    if (!holds) {
        fprintf(stderr, "not so: %s\n", what);
        exit(EXIT_FAILURE);
    }
}

#define EXPECT(condition) expect((condition), #condition)

static void file_lengths(void)
{
    uint8_t record[NODHULIKA_LONGEST_FILE];
    size_t i;

    EXPECT(nodhulika_fresh(record, sizeof record) == NODHULIKA_OK);
    EXPECT(nodhulika_file_length(record) == 6);
    for (i = 0; i < 64; i++) {
        EXPECT(nodhulika_sheet(record, sizeof record, 0, 1, 1, 1, 0, 0, 0, 0, 1,
                               0, 0, 1, 0, 0, 1) == NODHULIKA_OK);
        EXPECT(nodhulika_file_length(record) == 6 + 61 * (i + 1));
    }
    EXPECT(nodhulika_file_length(record) == NODHULIKA_LONGEST_FILE);
}

static void answer_numbers(void)
{
    static const uint8_t low_and_high[NODHULIKA_ANSWER] = {
        0x80, 0,    0,    0,    0,    0,    0,    0,
        0xff, 0xff, 0xff, 0xff, 0xff, 0xff, 0xff, 0xff,
        0x7f, 0xff, 0xff, 0xff, 0xff, 0xff, 0xff, 0xff,
    };
    static const uint8_t small[NODHULIKA_ANSWER] = {
        0,    0,    0,    0,    0,    0,    0,    0,
        0,    0,    0,    0,    0,    0,    1,    2,
        0xff, 0xff, 0xff, 0xff, 0xff, 0xff, 0xfe, 0xfe,
    };

    EXPECT(nodhulika_answer_number(low_and_high, 0) == INT64_MIN);
    EXPECT(nodhulika_answer_number(low_and_high, 1) == -1);
    EXPECT(nodhulika_answer_number(low_and_high, 2) == INT64_MAX);
    EXPECT(nodhulika_answer_number(small, 0) == 0);
    EXPECT(nodhulika_answer_number(small, 1) == 258);
    EXPECT(nodhulika_answer_number(small, 2) == -258);
}

/* A pair of 1 and 2 grams, half a gram ahead of the datum in all. */
static void half_grams(void)
{
    uint8_t record[64], answer[NODHULIKA_ANSWER];

    EXPECT(nodhulika_fresh(record, sizeof record) == NODHULIKA_OK);
    EXPECT(nodhulika_weigh_paired(record, sizeof record, 1, 1, 0, 2, 2, -1, 1,
                                  0) == NODHULIKA_OK);
    EXPECT(nodhulika_file_length(record) == 36);
    EXPECT(nodhulika_centre(record, sizeof record, answer, sizeof answer) ==
           NODHULIKA_OK);
    EXPECT(nodhulika_answer_number(answer, 0) == 3);
    EXPECT(nodhulika_answer_number(answer, 1) == -1);
    EXPECT(nodhulika_answer_number(answer, 2) == 0);
}

/* Two grams on the datum, and one in a seat that lies between two arms: it must
 * stay between the limits at both. */
static void seat_ends(void)
{
    uint8_t record[128], out[NODHULIKA_LINE], answer[NODHULIKA_ANSWER];

    EXPECT(nodhulika_fresh(record, sizeof record) == NODHULIKA_OK);
    EXPECT(nodhulika_weigh(record, sizeof record, 1, 2, 0, 0, 1, 0) ==
           NODHULIKA_OK);
    EXPECT(nodhulika_seat(record, sizeof record, -3, 2) == NODHULIKA_NO_SHEET);
    EXPECT(nodhulika_sheet(record, sizeof record, -1, 1, 3, 3, 0, 0, 1, 1, 1,
                           0, 0, 1, 0, 0, 1) == NODHULIKA_OK);
    EXPECT(nodhulika_seat(record, sizeof record, 2, -3) == NODHULIKA_ARM);
    EXPECT(nodhulika_seat(record, sizeof record, -3, 2) == NODHULIKA_OK);
    EXPECT(nodhulika_file_length(record) == 6 + 22 + 61 + 9);
    EXPECT(nodhulika_placard(record, sizeof record, out, sizeof out, answer,
                             sizeof answer) == NODHULIKA_OK);
    EXPECT(nodhulika_answer_number(answer, 2) == 0);
    EXPECT(nodhulika_seat(record, sizeof record, -4, 2) == NODHULIKA_OK);
    EXPECT(nodhulika_placard(record, sizeof record, out, sizeof out, answer,
                             sizeof answer) == NODHULIKA_OK);
    EXPECT(nodhulika_answer_number(answer, 2) == 1);
}

/* Two parts at one arm and one ahead of it, in columns of three lengths. */
static void equipment_columns(void)
{
    uint8_t record[64];
    int64_t arms[NODHULIKA_MOST_ARMS] = {0}, weights[2] = {0};
    int64_t nonlifting[3] = {0};
    uint64_t count = 99;

    EXPECT(nodhulika_fresh(record, sizeof record) == NODHULIKA_OK);
    EXPECT(nodhulika_equipment(record, sizeof record, arms, 63, weights, 2,
                               nonlifting, 3, &count) == NODHULIKA_UNWEIGHED);
    EXPECT(nodhulika_weigh(record, sizeof record, 1, 100, 0, 0, 1, 50) ==
           NODHULIKA_OK);
    EXPECT(nodhulika_change(record, sizeof record, 5, 9, 0) == NODHULIKA_OK);
    EXPECT(nodhulika_change(record, sizeof record, -7, -9, 1) == NODHULIKA_OK);
    EXPECT(nodhulika_change(record, sizeof record, -6, 9, 1) == NODHULIKA_OK);
    EXPECT(nodhulika_equipment(record, sizeof record, arms, 63, weights, 1,
                               nonlifting, 3, &count) == NODHULIKA_SHORT);
    EXPECT(nodhulika_equipment(record, 57, arms, 63, weights, 2, nonlifting, 3,
                               &count) == NODHULIKA_FILE);
    EXPECT(count == 99 && arms[0] == 0 && weights[0] == 0);
    EXPECT(nodhulika_equipment(record, sizeof record, arms, 63, weights, 2,
                               nonlifting, 3, &count) == NODHULIKA_OK);
    EXPECT(count == 2);
    EXPECT(arms[0] == -9 && weights[0] == -7 && nonlifting[0] == -7);
    EXPECT(arms[1] == 9 && weights[1] == -1 && nonlifting[1] == -6);
    EXPECT(arms[2] == 0 && nonlifting[2] == 0);
}

/* Four messages, each with a cell of its own, and the kilograms as C has them: in
 * method 4 the zero less the reading for q and q2. Some are the same bytes. */
static void indicator_messages(void)
{
    static const uint8_t p[] = {1, 0x40, 0x7c, 0xc8, 0, 0, 0, 0, 0};
    static const uint8_t q[] = {1, 0x40, 0x15, 0, 0, 0, 0, 0, 0, 2};
    uint8_t record[64], answer[NODHULIKA_ANSWER];
    const double nought = 0.0;

    EXPECT(nodhulika_fresh(record, sizeof record) == NODHULIKA_OK);
    EXPECT(nodhulika_weigh_indicated(record, sizeof record, 4, p, 9, 500.0, 0.5,
                                     q, 9, 50.0, 20.25, p, 9, 460.5, 0.499, q, 9,
                                     5.25, 20.251, 3000, 10300,
                                     0) == NODHULIKA_OK);
    EXPECT(nodhulika_file_length(record) == 36);
    EXPECT(nodhulika_centre(record, sizeof record, answer, sizeof answer) ==
           NODHULIKA_OK);
    EXPECT(nodhulika_answer_number(answer, 0) == 890000);
    EXPECT(nodhulika_answer_number(answer, 1) == 2361000000 - 10300);
    EXPECT(nodhulika_weigh_indicated(record, sizeof record, 4, p, 9, 500.0, 0.5,
                                     q, 10, 50.0, 20.25, p, 9, 460.5, 0.5, q, 9,
                                     5.25, 20.25, 3000, 10300,
                                     0) == NODHULIKA_UNSTEADY);
    EXPECT(nodhulika_weigh_indicated(record, sizeof record, 4, p, 9,
                                     nought / nought, 0.5, q, 9, 50.0, 20.25, p,
                                     9, 460.5, 0.5, q, 9, 5.25, 20.25, 3000,
                                     10300, 0) == NODHULIKA_LOAD);
    EXPECT(nodhulika_file_length(record) == 36);
}

int main(void)
{
    file_lengths();
    answer_numbers();
    half_grams();
    seat_ends();
    equipment_columns();
    indicator_messages();
    return EXIT_SUCCESS;
}
