/*
 * The weight and balance of gliders: weighings, data sheets, changes of
 * equipment, the loading placard, and the equipment by station.
 *
 * Units. A weight is whole grams, an arm or a distance whole hundredths of a
 * millimetre. An arm is positive aft of the datum unless it is said otherwise.
 * A moment is weight times arm. Everywhere a weight is at most 2,000,000 and an
 * arm lies in -2,000,000..2,000,000. Any value may be given: what is out of its
 * range is refused. Only nodhulika_centre answers in half grams, and only
 * nodhulika_weigh_indicated takes kilograms, as a load cell and its indicator
 * have them; no number of theirs is kept, only whole grams.
 *
 * A record is the list of a glider's accepted entries, at most 64: weighings,
 * plain and paired, data sheets, changes and adjustable seats. It is lent as
 * its file at the front of a buffer of the caller's: the first 4 + L bytes, L
 * being the big-endian number in the first four. The bytes behind the file are
 * free. Only an accepted call that makes the file longer writes there, and only
 * as far as the file then reaches. A buffer of NODHULIKA_LONGEST_FILE bytes has
 * room for every record.
 *
 * Files are written in version 2. One of version 1, which has no paired
 * weighings and no seats, is taken as it is; the first accepted call that
 * changes the record leaves one of version 2.
 *
 * Every function answers 0 where the call is accepted, else the number of its
 * refusal: the first, in the order given with the function, whose condition
 * holds. A refusal changes no byte of any buffer, column or count. A call keeps
 * nothing behind: no state, no memory, no pointer. Threads may call at the same
 * time, but not while one of them writes to what another uses.
 *
 * A buffer is a pointer to its first byte and its length in bytes. A column is a
 * pointer to its first number and its length in numbers, aligned for its type as
 * every array of it is; a count is a pointer to one number. No pointer may be
 * null; each must be valid for its length, even where the length is 0; no length
 * may come to more than PTRDIFF_MAX bytes; the buffers, the columns and the count
 * of one call must not overlap, but for the messages of an indicator, which are
 * only read and may overlap one another. Where this is not kept, the behaviour is
 * undefined.
 */
#ifndef NODHULIKA_H
#define NODHULIKA_H

#include <stddef.h>
#include <stdint.h>

#if defined(__GNUC__)
/* A refusal that is overlooked leaves a plate that is out of date. */
#define NODHULIKA_MUST_USE __attribute__((warn_unused_result))
#else
#define NODHULIKA_MUST_USE
#endif

#ifdef __cplusplus
extern "C" {
#endif

/* Bytes of the longest file of a record, that of 64 data sheets. */
#define NODHULIKA_LONGEST_FILE 3910

/* Bytes of a line of the placard, its line feed included. */
#define NODHULIKA_LINE 36

/* Bytes of the longest placard, which has 256 lines. */
#define NODHULIKA_LONGEST_PLACARD 9216

/* Bytes of an answer: three numbers of eight bytes each. */
#define NODHULIKA_ANSWER 24

/* The most arms that the equipment of a record can have: those of 63 changes
 * behind a weighing. */
#define NODHULIKA_MOST_ARMS 63

/* What the functions answer. G is the glider's empty total, n its non-lifting
 * weight. Of a paired weighing it is enough that a condition holds of one of its
 * two readings, of one that an indicator sends, of one of its four messages. */
enum nodhulika_refusal {
    /* Accepted. */
    NODHULIKA_OK = 0,
    /* The method is not 1..4, a reading is over 2,000,000 g, q is more than p
     * in method 1 or 2, or G is not 1..2,000,000 g. */
    NODHULIKA_READING = 1,
    /* An arm, or the distance a or b of a weighing, is outside its range, or
     * the ends of a seat are reversed. */
    NODHULIKA_ARM = 2,
    /* n is not 0..G, as given or after the change. */
    NODHULIKA_NON_LIFTING = 3,
    /* A range of the data sheet is broken that is not an arm's, a step's or
     * that of the rows. */
    NODHULIKA_SHEET = 4,
    /* A step is outside its range, or the placard would have over 256 rows. */
    NODHULIKA_ROWS = 5,
    /* The change's weight or flag is outside its range, or G after it is. */
    NODHULIKA_CHANGE = 6,
    /* The record has no weighing. */
    NODHULIKA_UNWEIGHED = 7,
    /* The record has no data sheet. */
    NODHULIKA_NO_SHEET = 8,
    /* The record has 64 entries already. */
    NODHULIKA_FULL = 9,
    /* The record has no entry to take back. */
    NODHULIKA_BARE = 10,
    /* A buffer or a column is shorter than what would be written to it. */
    NODHULIKA_SHORT = 11,
    /* The bytes are not the file of any record that accepted calls give. */
    NODHULIKA_FILE = 12,
    /* A message of an indicator is not of nine bytes, has a state other than 1 to
     * 3, or is moving or over. */
    NODHULIKA_UNSTEADY = 13,
    /* A cell's rating, its zero or a reading of an indicator is not finite; the
     * reading is below nought, above the rating or above 2000 kg; the zero is
     * below nought or above 2000 kg; or the net is below nought. */
    NODHULIKA_LOAD = 14
};

/*
 * Begins a fresh record, one with no entry, whatever the buffer holds.
 *
 * buffer: where to; six bytes at its front are written.
 *
 * Answers NODHULIKA_OK or NODHULIKA_SHORT.
 */
NODHULIKA_MUST_USE
uint64_t nodhulika_fresh(uint8_t *buffer, size_t buffer_length);

/*
 * Whether a record stands at the front of a buffer. Writes nothing.
 *
 * buffer: the bytes to look at; those behind the file count for nothing.
 *
 * Answers NODHULIKA_OK or NODHULIKA_FILE.
 */
NODHULIKA_MUST_USE
uint64_t nodhulika_check(const uint8_t *buffer, size_t buffer_length);

/*
 * Adds a weighing to the record. It gives the total G and the moment M:
 *
 *   m = 1, wheel and tail:   G = p      M = p*a + q*b
 *   m = 2, nose and wheel:   G = p      M = (p - q)*b - p*a
 *   m = 3, two slings:       G = p + q  M = q*b - G*a
 *   m = 4, wheel and tail held down by jury ballast:
 *                            G = p - q  M = G*a - q*b
 *
 * buffer: the record; 22 bytes behind its file are written, and its header.
 * m: the method, 1..4.
 * p, q: the readings, 0..2,000,000 g. Method 1: the total, and the rear one,
 *    at most p. 2: the total, and the front one, at most p. 3: the front and
 *    the rear one. 4: the platform, and the lift, which is the ballast less
 *    the rear reading.
 * a: from the datum to the front point, -2,000,000..2,000,000 hundredths of a
 *    millimetre; positive aft of the datum in methods 1 and 4, ahead of it in
 *    2 and 3.
 * b: from the front point to the rear one, 1..2,000,000 hundredths of a
 *    millimetre.
 * n: the weight of the non-lifting parts, 0..G g.
 *
 * Answers NODHULIKA_OK or, in this order, NODHULIKA_FILE, NODHULIKA_FULL,
 * NODHULIKA_READING, NODHULIKA_ARM, NODHULIKA_NON_LIFTING, NODHULIKA_SHORT.
 */
NODHULIKA_MUST_USE
uint64_t nodhulika_weigh(uint8_t *buffer, size_t buffer_length,
                         uint64_t m, uint64_t p, uint64_t q,
                         int64_t a, uint64_t b, uint64_t n);

/*
 * Adds a paired weighing to the record: the glider is disturbed, read again, and
 * both readings count. Total and moment are the sums over both, each worked out
 * by the method as with nodhulika_weigh, so that the glider weighs what they
 * average. A plain weighing counts as the pair of its readings with themselves.
 *
 * buffer: the record; 30 bytes behind its file are written, and its header.
 * m: the method, 1..4.
 * p, q: the first readings, as with nodhulika_weigh.
 * p2, q2: the second ones, in the same ranges.
 * a, b: the distances, as with nodhulika_weigh.
 * n: the weight of the non-lifting parts, in g: at most the smaller of the two
 *    totals.
 *
 * Answers NODHULIKA_OK or, in this order, NODHULIKA_FILE, NODHULIKA_FULL,
 * NODHULIKA_READING, NODHULIKA_ARM, NODHULIKA_NON_LIFTING, NODHULIKA_SHORT: by
 * number, and not reading by reading.
 */
NODHULIKA_MUST_USE
uint64_t nodhulika_weigh_paired(uint8_t *buffer, size_t buffer_length,
                                uint64_t m, uint64_t p, uint64_t q,
                                uint64_t p2, uint64_t q2,
                                int64_t a, uint64_t b, uint64_t n);

/*
 * Adds a paired weighing to the record as a load-cell indicator sends it: four
 * messages, each with the cell that it is of. What is added is an ordinary paired
 * weighing of the four nets, as nodhulika_weigh_paired adds it; nothing of the
 * cells and of the numbers that were sent is kept.
 *
 * A message is nine bytes: the state, 1 stable, 2 moving or 3 over, and then the
 * reading in kilograms, a binary64, as a double is, with its highest byte first.
 * Only stable readings are taken. A cell has its rating, which is the most that it may show,
 * and its zero, which is what it shows without the glider, both in kilograms.
 *
 * A reading becomes whole grams: the whole number nearest to its exact value
 * times 1000, of two that are as near the even one. It is rounded once, from the
 * exact value, and not from a product that was itself rounded: 0.0025 lies above
 * two and a half grams and is 3 g, 0.0055 lies below five and a half and is 5 g,
 * and 0.0625, which is 62.5 g exactly, is 62 g. A zero's grams are found alike.
 * The net is the reading's grams with the zero's taken off. Of q and q2 in method
 * 4 it is the zero's with the reading's taken off: the zero of that cell holds the
 * jury ballast, and the net is the lift. Minus nought is nought.
 *
 * buffer: the record; 30 bytes behind its file are written, and its header.
 * m: the method, 1..4. In any other nothing is turned round, and the nets are
 *    tested before m is.
 * p, q: the messages of the first readings, each with its length in bytes; any
 *    other than 9 is NODHULIKA_UNSTEADY.
 * p2, q2: the messages of the second ones.
 * p_rated, q_rated, p2_rated, q2_rated: the rating of the cell that each is of.
 *    It is compared with the reading as it was sent, before it is rounded and
 *    before the zero is taken off; it may be above 2000 kg, and the zero above it.
 * p_zero, q_zero, p2_zero, q2_zero: the cell's zero, 0..2000 kg.
 * a, b: the distances, as with nodhulika_weigh.
 * n: the weight of the non-lifting parts, in g, as with nodhulika_weigh_paired.
 *
 * Answers NODHULIKA_OK or, in this order, NODHULIKA_FILE, NODHULIKA_UNSTEADY (of
 * any of the four before NODHULIKA_LOAD of any), NODHULIKA_LOAD, NODHULIKA_FULL,
 * NODHULIKA_READING, NODHULIKA_ARM, NODHULIKA_NON_LIFTING, NODHULIKA_SHORT.
 */
NODHULIKA_MUST_USE
uint64_t nodhulika_weigh_indicated(uint8_t *buffer, size_t buffer_length,
                                   uint64_t m,
                                   const uint8_t *p, size_t p_length,
                                   double p_rated, double p_zero,
                                   const uint8_t *q, size_t q_length,
                                   double q_rated, double q_zero,
                                   const uint8_t *p2, size_t p2_length,
                                   double p2_rated, double p2_zero,
                                   const uint8_t *q2, size_t q2_length,
                                   double q2_rated, double q2_zero,
                                   int64_t a, uint64_t b, uint64_t n);

/*
 * Adds a data sheet to the record; the last one is in force. The placard has a
 * row for each multiple of the rear step up to rear_most and each multiple of
 * the water step up to water_most, from 0: at most 256 rows.
 *
 * buffer: the record; 61 bytes behind its file are written, and its header.
 * fwd, aft: the forward and the aft limit of the centre of gravity in flight,
 *    as arms; fwd < aft. The placard keeps 5 % of the range inside aft.
 * dry: the greatest weight without water, 1..2,000,000 g.
 * wet: the greatest weight with water, dry..2,000,000 g.
 * nlp: the greatest non-lifting weight, 0..2,000,000 g; 0 is no limit.
 * front_arm: the arm of the front load, until nodhulika_seat overrides it.
 * front_least, front_most: the least and the greatest front load, 0..500,000 g;
 *    front_least <= front_most. A front load of 0 never keeps the limits: where
 *    front_least is 0 a row begins at the next step at the earliest.
 * front_step: the step of the front load, 1..500,000 g.
 * rear_arm: the arm of the rear load.
 * rear_most: the greatest rear load, 0..500,000 g; 0 in a single-seater.
 * rear_step: the step of the rear load, 1..500,000 g.
 * water_arm: the arm of the wing water.
 * water_most: the capacity of the tanks, 0..2,000,000 g.
 * water_step: the step of the water, 1..2,000,000 g.
 *
 * Answers NODHULIKA_OK or, in this order, NODHULIKA_FILE, NODHULIKA_FULL,
 * NODHULIKA_ARM (fwd and aft are arms too), NODHULIKA_SHEET, NODHULIKA_ROWS,
 * NODHULIKA_SHORT.
 */
NODHULIKA_MUST_USE
uint64_t nodhulika_sheet(uint8_t *buffer, size_t buffer_length,
                         int64_t fwd, int64_t aft,
                         uint64_t dry, uint64_t wet, uint64_t nlp,
                         int64_t front_arm, uint64_t front_least,
                         uint64_t front_most, uint64_t front_step,
                         int64_t rear_arm, uint64_t rear_most,
                         uint64_t rear_step,
                         int64_t water_arm, uint64_t water_most,
                         uint64_t water_step);

/*
 * Adds a change of equipment to the record: c to the total, c times arm to the
 * moment and, for a non-lifting part, c to the non-lifting weight.
 *
 * buffer: the record; 10 bytes behind its file are written, and its header.
 * c: the weight, -2,000,000..2,000,000 g and not 0; positive where it is
 *    fitted, negative where it is taken out.
 * arm: its arm, in hundredths of a millimetre.
 * flag: 1 for a non-lifting part, else 0.
 *
 * Answers NODHULIKA_OK or, in this order, NODHULIKA_FILE, NODHULIKA_FULL,
 * NODHULIKA_UNWEIGHED, NODHULIKA_ARM, NODHULIKA_CHANGE, NODHULIKA_NON_LIFTING,
 * NODHULIKA_SHORT.
 */
NODHULIKA_MUST_USE
uint64_t nodhulika_change(uint8_t *buffer, size_t buffer_length,
                          int64_t c, int64_t arm, uint64_t flag);

/*
 * Adds to the record a front seat whose back can be adjusted: the arm of the
 * front load is known only to lie between two ends. They override the front_arm
 * of the data sheet before them until the next data sheet or seat. A front load
 * then keeps the limits only where it does so at every arm between the ends,
 * both included.
 *
 * buffer: the record; 9 bytes behind its file are written, and its header.
 * lower, higher: the two ends, as arms; lower <= higher.
 *
 * Answers NODHULIKA_OK or, in this order, NODHULIKA_FILE, NODHULIKA_FULL,
 * NODHULIKA_NO_SHEET, NODHULIKA_ARM, NODHULIKA_SHORT.
 */
NODHULIKA_MUST_USE
uint64_t nodhulika_seat(uint8_t *buffer, size_t buffer_length,
                        int64_t lower, int64_t higher);

/*
 * Takes the last entry back. The file gets shorter; the entry's bytes stay
 * where they are, behind it.
 *
 * buffer: the record; its header is written.
 *
 * Answers NODHULIKA_OK or, in this order, NODHULIKA_FILE, NODHULIKA_BARE.
 */
NODHULIKA_MUST_USE
uint64_t nodhulika_undo(uint8_t *buffer, size_t buffer_length);

/*
 * Puts the record of a file in the place of whatever the buffer holds.
 *
 * buffer: where to; it need not hold a record before. As many bytes at its
 *    front are written as the file has, as a file of version 2.
 * file: the file, exactly: a byte too many is refused as one too few.
 *
 * Answers NODHULIKA_OK or, in this order, NODHULIKA_FILE (of file),
 * NODHULIKA_SHORT.
 */
NODHULIKA_MUST_USE
uint64_t nodhulika_read(uint8_t *buffer, size_t buffer_length,
                        const uint8_t *file, size_t file_length);

/*
 * The glider's empty total, moment and centre of gravity, from the last
 * weighing, plain or paired, and the changes behind it.
 *
 * buffer: the record.
 * answer: where to; NODHULIKA_ANSWER bytes at its front are written. Its
 *    numbers, for nodhulika_answer_number: 0 the total in half grams, 1 the
 *    moment in half grams times hundredths of a millimetre, 2 the centre of
 *    gravity as an arm, to the nearest unit, halves towards the tail. A total
 *    prints in grams as total / 2, with ".5" behind it where total is odd:
 *
 *      printf("%" PRId64 "%s g", total / 2, total % 2 == 0 ? "" : ".5");
 *
 *    A moment may be negative, and then its sign has to be printed first: -1 / 2
 *    is 0 in C.
 *
 * Answers NODHULIKA_OK or, in this order, NODHULIKA_FILE, NODHULIKA_UNWEIGHED,
 * NODHULIKA_SHORT.
 */
NODHULIKA_MUST_USE
uint64_t nodhulika_centre(const uint8_t *buffer, size_t buffer_length,
                          uint8_t *answer, size_t answer_length);

/*
 * The loading placard. Its rows go by rear load, slowest, and water, fastest,
 * both rising. A row is a line of NODHULIKA_LINE bytes: rear load, water,
 * smallest and largest front load, each as four digits of kilograms, a point
 * and three of grams, one space between and a line feed behind. The front loads
 * are the ends of those that keep every limit with any part of the water aboard
 * and at every arm of the front seat, 0 never among them; both are eight
 * hyphens, a blank row, where there is none.
 *
 * buffer: the record.
 * out: where the lines go, from its front; bytes behind the last stay, and no
 *    zero byte ends them. NODHULIKA_LONGEST_PLACARD bytes hold every placard.
 * answer: where the counts go; NODHULIKA_ANSWER bytes at its front are
 *    written. Its numbers, for nodhulika_answer_number: 0 the bytes written to
 *    out, 1 the rows, 2 how many of them are blank.
 *
 * Answers NODHULIKA_OK or, in this order, NODHULIKA_FILE, NODHULIKA_UNWEIGHED,
 * NODHULIKA_NO_SHEET, NODHULIKA_SHORT (of out or of answer).
 */
NODHULIKA_MUST_USE
uint64_t nodhulika_placard(const uint8_t *buffer, size_t buffer_length,
                           uint8_t *out, size_t out_length,
                           uint8_t *answer, size_t answer_length);

/*
 * The equipment by station: what the changes behind the last weighing, plain or
 * paired, come to at each arm, from the nose aft. Data sheets and seats between
 * the changes make no difference. All three columns are filled from their front,
 * an element for each arm; elements behind the last stay. NODHULIKA_MOST_ARMS
 * elements hold the equipment of every record; where there is no change, columns
 * of length 0 will do.
 *
 * buffer: the record.
 * arms: where the arms go, each once, the foremost first, which is the smallest.
 * weights: where the net weight at each arm goes, in grams: the sum of c over the
 *    changes there; 0 where what was fitted was taken out again, negative where
 *    more was.
 * nonlifting: where the net non-lifting weight at each arm goes, in grams: the
 *    same over the non-lifting parts there.
 * count: where the number of arms goes. It is written only where the call is
 *    accepted.
 *
 * The columns hold whole grams, and not half grams.
 *
 * Answers NODHULIKA_OK or, in this order, NODHULIKA_FILE, NODHULIKA_UNWEIGHED,
 * NODHULIKA_SHORT (of any of the three columns).
 */
NODHULIKA_MUST_USE
uint64_t nodhulika_equipment(const uint8_t *buffer, size_t buffer_length,
                             int64_t *arms, size_t arms_length,
                             int64_t *weights, size_t weights_length,
                             int64_t *nonlifting, size_t nonlifting_length,
                             uint64_t *count);

/*
 * The length in bytes of the file at the front of a buffer, which
 * nodhulika_check or another call must have accepted.
 */
static inline size_t nodhulika_file_length(const uint8_t *buffer)
{
    uint32_t behind = (uint32_t)buffer[0] << 24 | (uint32_t)buffer[1] << 16 |
                      (uint32_t)buffer[2] << 8 | (uint32_t)buffer[3];

    return 4 + (size_t)behind;
}

/*
 * A number of an answer that a call has written: i is 0, 1 or 2.
 */
static inline int64_t nodhulika_answer_number(const uint8_t *answer, size_t i)
{
    uint64_t word = 0;
    size_t k;

    for (k = 0; k < 8; k++) {
        word = word << 8 | answer[8 * i + k];
    }
    if (word >> 63 == 0) {
        return (int64_t)word;
    }
    /* Below zero. The word itself is out of int64_t's range, where a conversion
     * is not defined everywhere; its complement is in it. */
    return -1 - (int64_t)~word;
}

#ifdef __cplusplus
}
#endif

#endif
