/* The headers' inline questions, in C and C++: a null pointer carries no weights, whatever the length beside it, or no dates; one that is
 * not null carries as many weights as the length says, or both dates. It ends with the number of the first question that has another code,
 * number of rows or distance. */
#include "epoch_index_unchecked.h"

#define LENGTH ((size_t)EPOCH_INDEX_MIN_PAGES * EPOCH_INDEX_PAGE_BYTES)
/* noon of 29 February 2000, in seconds since 1 January */
#define LEAP_NOON UINT32_C(5140800)

typedef epoch_index_answer question(const uint8_t *index, size_t index_len, const int16_t *point, size_t point_len, const uint16_t *weights,
                                    size_t weights_len, size_t k, uint8_t stages, const epoch_index_dates *dates, epoch_index_row *rows,
                                    size_t rows_len, epoch_index_tally *tally);

static uint8_t bytes[LENGTH];
static const uint16_t seven[2] = {7, 7}, heavy[1] = {EPOCH_INDEX_MAX_WEIGHT + 1};
static const epoch_index_dates leap = {{2000, 2, 29}, {2000, 2, 29}}, before = {{2000, 1, 1}, {2000, 2, 28}};
static const epoch_index_dates after = {{2000, 3, 1}, {EPOCH_INDEX_MAX_YEAR, 12, 31}}, widest = {{2000, 1, 1}, {2099, 12, 31}};
static const epoch_index_dates first = {{2001, 2, 29}, {2001, 3, 1}}, last = {{2000, 2, 29}, {2100, 2, 29}};
static const epoch_index_dates reversed = {{2000, 3, 1}, {2000, 2, 29}}, zeros = {{0, 0, 0}, {0, 0, 0}};

/* What is asked of one record, whose distance without weights is 9; the number of rows, and the distance of the row, 0 where there is
 * none. */
static const struct {
    const uint16_t *weights;
    size_t weights_len, k;
    const epoch_index_dates *dates;
    uint32_t code;
    size_t rows;
    uint64_t distance;
} cases[] = {
    {NULL, 0, 1, NULL, EPOCH_INDEX_OK, 1, 9},
    {NULL, 1, 1, NULL, EPOCH_INDEX_OK, 1, 9},
    {NULL, (size_t)-1, 1, NULL, EPOCH_INDEX_OK, 1, 9},
    {NULL, 7, 0, NULL, EPOCH_INDEX_BAD_K, 0, 0},
    {seven, 1, 1, NULL, EPOCH_INDEX_OK, 1, 63},
    {seven, 0, 1, NULL, EPOCH_INDEX_BAD_FEATURES, 0, 0},
    {seven, 2, 1, NULL, EPOCH_INDEX_BAD_FEATURES, 0, 0},
    {heavy, 1, 0, NULL, EPOCH_INDEX_BAD_WEIGHT, 0, 0},
    {seven, 1, 0, NULL, EPOCH_INDEX_BAD_K, 0, 0},
    {NULL, 0, 1, &leap, EPOCH_INDEX_OK, 1, 9},
    {NULL, 3, 1, &widest, EPOCH_INDEX_OK, 1, 9},
    {seven, 1, 1, &leap, EPOCH_INDEX_OK, 1, 63},
    {NULL, 0, 1, &before, EPOCH_INDEX_OK, 0, 0},
    {seven, 1, 1, &after, EPOCH_INDEX_OK, 0, 0},
    {NULL, 0, 1, &first, EPOCH_INDEX_BAD_DATE, 0, 0},
    {seven, 1, 1, &last, EPOCH_INDEX_BAD_DATE, 0, 0},
    {NULL, 0, 1, &zeros, EPOCH_INDEX_BAD_DATE, 0, 0},
    {NULL, 0, 1, &reversed, EPOCH_INDEX_DATES_REVERSED, 0, 0},
    {seven, 1, 0, &reversed, EPOCH_INDEX_BAD_K, 0, 0},
    {seven, 0, 1, &first, EPOCH_INDEX_BAD_FEATURES, 0, 0},
};

static int differs(question *asked, size_t i)
{
    const int16_t from[1] = {-8};
    epoch_index_row row = {0, 0, 0, 0};
    epoch_index_tally tally = {0, 0};
    const epoch_index_answer answer = asked(bytes, LENGTH, from, 1, cases[i].weights, cases[i].weights_len, cases[i].k,
                                            EPOCH_INDEX_ALL_STAGES, cases[i].dates, &row, 1, &tally);
    const uint32_t done = cases[i].code == EPOCH_INDEX_OK;
    return answer.code != cases[i].code || answer.count != cases[i].rows || row.distance != cases[i].distance || tally.questions != done;
}

int main(void)
{
    const int16_t at[1] = {-5};
    const size_t number = sizeof cases / sizeof cases[0];
    if (epoch_index_make(bytes, LENGTH, 1) != EPOCH_INDEX_OK)
        return 100;
    if (epoch_index_insert(bytes, LENGTH, 1, EPOCH_INDEX_REM, LEAP_NOON, at, 1) != EPOCH_INDEX_OK)
        return 101;
    for (size_t i = 0; i < number; i++)
        if (differs(epoch_index_question, i) || differs(epoch_index_trusted_question, i))
            return (int)i + 1;
    return 0;
}
