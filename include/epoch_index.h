/*
 * The epoch index: an exact nearest-neighbour index over bytes that the caller lends.
 *
 * A point is 1 to 16 whole numbers from -1,000 to 1,000. An epoch is a point with an identifier, a sleep stage and a stamp: seconds since
 * 1 January 2000 00:00 by the lab clock. An index is whole pages of 1,024 bytes, and all of it lies in those bytes: they may be stored,
 * sent and mapped as they are. Link target/staticlib/libepoch_index.a (x86-64 Linux), which `./build archive` writes once every function
 * in it is proved to meet its contract.
 *
 * What holds of every function here:
 * - All memory is the caller's. Nothing is allocated, and no pointer is kept after the return. There is no other state, so threads may work
 *   on different indexes, and ask or check the same index, at the same time; a change wants the index for itself.
 * - A run of memory is a pointer and its length in elements. A pointer is not null, even where the length is 0 (but for the weights and the
 *   dates of epoch_index_question, epoch_index_trusted_question and epoch_index_criteria_of), is aligned for its type and leads to that many elements. What a
 *   function writes (a pointer without const) overlaps nothing else that the call is handed.
 * - Every value of every parameter has a defined outcome; what cannot be done is refused with a code, and a refusal changes no byte.
 * - The bytes of an index may be anything: an act refuses a damaged index (EPOCH_INDEX_UNSOUND) and is never led astray by it.
 * - Stack: up to 1.5 MB for an act, whatever the bytes hold.
 *
 * epoch_index_unchecked.h has the functions without the check, for a caller that takes a duty upon itself.
 */
#ifndef EPOCH_INDEX_H
#define EPOCH_INDEX_H

#include <stddef.h>
#include <stdint.h>
#ifndef __cplusplus
#include <stdbool.h>
#endif

#ifdef __cplusplus
extern "C" {
#endif

/* The version of these headers and of the library they declare. */
#define EPOCH_INDEX_VERSION_MAJOR 0
#define EPOCH_INDEX_VERSION_MINOR 6
#define EPOCH_INDEX_VERSION_PATCH 0
#define EPOCH_INDEX_VERSION "0.6.0"

/* Limits. A length in bytes is a multiple of the page, EPOCH_INDEX_MIN_PAGES to EPOCH_INDEX_MAX_PAGES of them. */
#define EPOCH_INDEX_PAGE_BYTES 1024
#define EPOCH_INDEX_MIN_PAGES 2
#define EPOCH_INDEX_MAX_PAGES 16384
#define EPOCH_INDEX_MIN_FEATURES 1
#define EPOCH_INDEX_MAX_FEATURES 16
#define EPOCH_INDEX_MIN_COORDINATE (-1000)
#define EPOCH_INDEX_MAX_COORDINATE 1000
#define EPOCH_INDEX_MIN_ID UINT32_C(1)
#define EPOCH_INDEX_MAX_ID UINT32_C(4294967295)
#define EPOCH_INDEX_MIN_K 1
#define EPOCH_INDEX_MAX_K 64
#define EPOCH_INDEX_MAX_POINTS 65535
#define EPOCH_INDEX_MAX_STAGE 5
#define EPOCH_INDEX_MAX_WEIGHT 1000
#define EPOCH_INDEX_MIN_YEAR 2000
#define EPOCH_INDEX_MAX_YEAR 2099

/* The stage of an epoch. */
enum epoch_index_stage {
    EPOCH_INDEX_WAKE = 0,
    EPOCH_INDEX_N1 = 1,
    EPOCH_INDEX_N2 = 2,
    EPOCH_INDEX_N3 = 3,
    EPOCH_INDEX_REM = 4,
    EPOCH_INDEX_UNSCORED = 5
};

/* A set of stages is a number from 1 to EPOCH_INDEX_ALL_STAGES: bit s is set where stage s is in the set. The set of some stages is
 * EPOCH_INDEX_STAGE_BIT of each, joined by |. Stages and sets are handed over in 8 bits: C cuts a wider number down before any refusal. */
#define EPOCH_INDEX_STAGE_BIT(stage) (1u << (stage))
#define EPOCH_INDEX_ALL_STAGES 63

/* What an act returns: EPOCH_INDEX_OK, or the first of its refusals that applies, in the order given with the act. */
enum epoch_index_code {
    EPOCH_INDEX_OK = 0,
    EPOCH_INDEX_BAD_LENGTH = 1,       /* index length isn't a permitted number of whole pages */
    EPOCH_INDEX_UNSOUND = 2,          /* index isn't sound */
    EPOCH_INDEX_BAD_FEATURES = 3,     /* d, or the number of coordinates or weights, is wrong */
    EPOCH_INDEX_BAD_COORDINATE = 4,   /* a coordinate is out of range */
    EPOCH_INDEX_ZERO_ID = 5,          /* identifier 0 */
    EPOCH_INDEX_ALREADY_LIVE = 6,     /* identifier already live */
    EPOCH_INDEX_NOT_LIVE = 7,         /* identifier not live */
    EPOCH_INDEX_FULL = 8,             /* 65,535 points live */
    EPOCH_INDEX_NO_PAGES = 9,         /* insert wants more pages than are unused or freed */
    EPOCH_INDEX_BAD_K = 10,           /* k out of range */
    EPOCH_INDEX_FEW_ROWS = 11,        /* fewer than k rows lent */
                                      /* 12 is given to nothing: evening out two leaves takes no page */
    EPOCH_INDEX_UNREADABLE_LINE = 13, /* program: line not readable (not given here) */
    EPOCH_INDEX_BAD_WEIGHT = 14,      /* a weight above 1,000 */
    EPOCH_INDEX_BAD_STAGE = 15,       /* stage above 5 */
    EPOCH_INDEX_BAD_STAGE_SET = 16,   /* stage set is 0 or above 63 */
    EPOCH_INDEX_BAD_DATE = 17,        /* a date doesn't exist or lies outside 1 January 2000 to 31 December 2099 */
    EPOCH_INDEX_DATES_REVERSED = 18   /* last date is before the first */
};

/* A record that a question found: its distance from the asked point, its identifier, its stamp, and the position (0, 1, 2 .. in key order)
 * of the leaf that holds it. The distance is the squared one; with weights it is the sum of weight times squared difference, at most
 * 64,000,000,000. Rows stand nearest first, equal distances by later stamp, then by lower identifier. */
typedef struct epoch_index_row {
    uint64_t distance;
    uint32_t id;
    uint32_t stamp;
    uint64_t position;
} epoch_index_row;

/* A caller's tally: the questions carried out and the leaves that they read. It begins as two zeros; each stays at 4,294,967,295 once it
 * would pass it. */
typedef struct epoch_index_tally {
    uint32_t questions;
    uint32_t leaves;
} epoch_index_tally;

/* A date of the Gregorian calendar. It need not exist: a question refuses it then (EPOCH_INDEX_BAD_DATE), as it does one before
 * 1 January of EPOCH_INDEX_MIN_YEAR or after 31 December of EPOCH_INDEX_MAX_YEAR. C cuts wider numbers down before any refusal. */
typedef struct epoch_index_date {
    uint16_t year;
    uint8_t month;
    uint8_t day;
} epoch_index_date;

/* Recording days, from the first to the last, both included. A recording day runs from noon up to, not including, the next noon, and has
 * the date on which it began: an epoch of three in the morning belongs to the date of the evening before. */
typedef struct epoch_index_dates {
    epoch_index_date first;
    epoch_index_date last;
} epoch_index_dates;

/* What is asked of a point, as the library takes it. Its flags hold true or false; where `dated` is false `dates` is disregarded. */
typedef struct epoch_index_criteria {
    size_t k;
    uint8_t stages;
    bool weighted;
    bool dated;
    epoch_index_dates dates;
} epoch_index_criteria;

/* What a question returns: its code, how many rows it wrote, and how many leaves it read; refused, 0 rows and 0 leaves. */
typedef struct epoch_index_answer {
    uint32_t code;
    size_t count;
    uint32_t leaves;
} epoch_index_answer;

/* Makes an empty index of `features` features in the `index_len` bytes lent, whatever they hold. Page 0 becomes its header and page 1 an
 * empty leaf; the other pages keep their bytes until they are used.
 * Refusals: EPOCH_INDEX_BAD_LENGTH, EPOCH_INDEX_BAD_FEATURES. */
uint32_t epoch_index_make(uint8_t *index, size_t index_len, uint8_t features);

/* Inserts the epoch of the identifier `id`, with its stage, its stamp (any number) and the `point_len` coordinates of `point`.
 * Refusals: EPOCH_INDEX_BAD_LENGTH, EPOCH_INDEX_UNSOUND, EPOCH_INDEX_BAD_FEATURES, EPOCH_INDEX_BAD_COORDINATE, EPOCH_INDEX_ZERO_ID,
 * EPOCH_INDEX_BAD_STAGE, EPOCH_INDEX_ALREADY_LIVE, EPOCH_INDEX_FULL, EPOCH_INDEX_NO_PAGES. */
uint32_t epoch_index_insert(uint8_t *index, size_t index_len, uint32_t id, uint8_t stage, uint32_t stamp, const int16_t *point,
                            size_t point_len);

/* Deletes the epoch of the identifier `id`.
 * Refusals: EPOCH_INDEX_BAD_LENGTH, EPOCH_INDEX_UNSOUND, EPOCH_INDEX_ZERO_ID, EPOCH_INDEX_NOT_LIVE. */
uint32_t epoch_index_delete(uint8_t *index, size_t index_len, uint32_t id);

/* The criteria of `k` records of some stages, by weights and within dates, where the pointers to them are not null. */
static inline epoch_index_criteria epoch_index_criteria_of(size_t k, uint8_t stages, const uint16_t *weights,
                                                           const epoch_index_dates *dates)
{
    const epoch_index_dates none = {{0, 0, 0}, {0, 0, 0}};
    const epoch_index_criteria what = {k, stages, weights != NULL, dates != NULL, dates != NULL ? *dates : none};
    return what;
}

/* The question as the library exports it: `what` says whether it carries weights and dates. Where it carries no weights, what `weights`
 * leads to is disregarded, but the pointer is not null. epoch_index_question, below, says what is asked, and calls it. */
epoch_index_answer epoch_index_ask(const uint8_t *index, size_t index_len, const int16_t *point, size_t point_len, const uint16_t *weights,
                                   size_t weights_len, epoch_index_criteria what, epoch_index_row *rows, size_t rows_len,
                                   epoch_index_tally *tally);

/* Asks for the `k` records nearest to `point` among those whose stage is in the set `stages` and whose stamp lies in the days of `dates`;
 * with EPOCH_INDEX_ALL_STAGES and without dates that is every record. They are written to the first `count` of the `rows_len` rows lent,
 * nearest first, equal distances by later stamp, then by lower identifier, an order that also decides which are among the k: k of them, or
 * all of these stages and days if fewer are live; rows past those keep their contents. The tally counts the question and the leaves it
 * read. Refused, rows and tally stay as they are.
 *
 * `weights` leads to a weight for each coordinate, 0 to EPOCH_INDEX_MAX_WEIGHT: distance is then the sum of weight times squared
 * difference. A null pointer carries none, whatever `weights_len` is: such a question gives what weights of 1 give. A pointer that is not
 * null carries `weights_len` weights, so that one with a length of 0 is refused (EPOCH_INDEX_BAD_FEATURES).
 *
 * `dates` leads to a first and a last date, which may be the same. Only stamps in the recording days from the one to the other pass: none
 * from before noon of 1 January 2000 (below 43,200), none from noon of 1 January 2100 on (3,155,803,200). A null pointer carries no dates:
 * all stamps pass then, these too.
 * Refusals: EPOCH_INDEX_BAD_LENGTH, EPOCH_INDEX_UNSOUND, EPOCH_INDEX_BAD_FEATURES, EPOCH_INDEX_BAD_COORDINATE, EPOCH_INDEX_BAD_WEIGHT,
 * EPOCH_INDEX_BAD_K, EPOCH_INDEX_FEW_ROWS, EPOCH_INDEX_BAD_STAGE_SET, EPOCH_INDEX_BAD_DATE, EPOCH_INDEX_DATES_REVERSED. */
static inline epoch_index_answer epoch_index_question(const uint8_t *index, size_t index_len, const int16_t *point, size_t point_len,
                                                      const uint16_t *weights, size_t weights_len, size_t k, uint8_t stages,
                                                      const epoch_index_dates *dates, epoch_index_row *rows, size_t rows_len,
                                                      epoch_index_tally *tally)
{
    const uint16_t none = 0;
    return epoch_index_ask(index, index_len, point, point_len, weights != NULL ? weights : &none, weights != NULL ? weights_len : 0,
                           epoch_index_criteria_of(k, stages, weights, dates), rows, rows_len, tally);
}

/* Checks whether an index is sound: it looks at every page. With EPOCH_INDEX_UNSOUND `*page` is a page at which soundness fails, else 0.
 * Refusals: EPOCH_INDEX_BAD_LENGTH, EPOCH_INDEX_UNSOUND. */
uint32_t epoch_index_check(const uint8_t *index, size_t index_len, uint32_t *page);

#ifdef __cplusplus
}
#endif

#endif
