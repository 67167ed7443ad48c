/* A review: an index in 64 pages, acts that check it each time, questions with weights and dates, then one check and acts without it, with and
 * without a look for the identifier, then a damaged byte. */
#include <inttypes.h>
#include <stdio.h>
#include <stdlib.h>

#include "epoch_index.h"
#include "epoch_index_unchecked.h"

#define LENGTH ((size_t)64 * EPOCH_INDEX_PAGE_BYTES)
#define K 2
/* 16 November 2025 22:00 by the lab clock, in seconds since 1 January 2000 */
#define TEN_PM UINT32_C(816645600)
#define NON_REM (EPOCH_INDEX_STAGE_BIT(EPOCH_INDEX_N1) | EPOCH_INDEX_STAGE_BIT(EPOCH_INDEX_N2) | EPOCH_INDEX_STAGE_BIT(EPOCH_INDEX_N3))

static void print(epoch_index_answer answer, const epoch_index_row *rows)
{
    printf("question: code %" PRIu32 ", %zu rows, %" PRIu32 " leaves\n", answer.code, answer.count, answer.leaves);
    for (size_t i = 0; i < answer.count; i++)
        printf("  id %" PRIu32 " at distance %" PRIu64 ", leaf %" PRIu64 ", stamp %" PRIu32 "\n", rows[i].id, rows[i].distance,
               rows[i].position, rows[i].stamp);
}

static const int16_t first[2] = {-300, 100}, second[2] = {100, -300}, third[2] = {-90, -90}, asked[2] = {-100, -100};
/* the first feature is trusted less than the second */
static const uint16_t weights[2] = {3, EPOCH_INDEX_MAX_WEIGHT};
/* the night of the 16th, noon to noon */
static const epoch_index_dates night = {{2025, 11, 16}, {2025, 11, 16}};

static void by_stages(const uint8_t *index, epoch_index_row *rows, epoch_index_tally *tally)
{
    const uint8_t n3 = EPOCH_INDEX_STAGE_BIT(EPOCH_INDEX_N3);
    print(epoch_index_question(index, LENGTH, asked, 2, NULL, 0, K, EPOCH_INDEX_ALL_STAGES, NULL, rows, K, tally), rows);
    print(epoch_index_question(index, LENGTH, asked, 2, NULL, 0, K, n3, NULL, rows, K, tally), rows);
    print(epoch_index_question(index, LENGTH, asked, 2, NULL, 0, K, 0, NULL, rows, K, tally), rows);
}

static void by_weights(const uint8_t *index, epoch_index_row *rows, epoch_index_tally *tally)
{
    const int16_t other[2] = {-250, -250};
    /* none counts; one weight is too great */
    const uint16_t zeros[2] = {0, 0}, heavy[2] = {3, EPOCH_INDEX_MAX_WEIGHT + 1};
    const uint8_t all = EPOCH_INDEX_ALL_STAGES;
    print(epoch_index_question(index, LENGTH, other, 2, NULL, 0, K, all, NULL, rows, K, tally), rows);
    print(epoch_index_question(index, LENGTH, other, 2, weights, 2, K, all, NULL, rows, K, tally), rows);
    print(epoch_index_question(index, LENGTH, other, 2, zeros, 2, K, all, NULL, rows, K, tally), rows);
    print(epoch_index_question(index, LENGTH, other, 2, weights, 1, K, all, NULL, rows, K, tally), rows);
    print(epoch_index_question(index, LENGTH, other, 2, weights, 0, K, all, NULL, rows, K, tally), rows);
    print(epoch_index_question(index, LENGTH, other, 2, heavy, 2, 0, all, NULL, rows, K, tally), rows);
}

static void by_dates(const uint8_t *index, epoch_index_row *rows, epoch_index_tally *tally)
{
    /* the night after; a date that does not exist; the last before the first */
    const epoch_index_dates next = {{2025, 11, 17}, {2025, 11, 17}}, bad = {{2025, 2, 29}, {2025, 11, 16}};
    const epoch_index_dates reversed = {{2025, 11, 17}, {2025, 11, 16}};
    const uint8_t all = EPOCH_INDEX_ALL_STAGES;
    print(epoch_index_question(index, LENGTH, asked, 2, NULL, 0, K, all, &night, rows, K, tally), rows);
    print(epoch_index_question(index, LENGTH, asked, 2, NULL, 0, K, all, &next, rows, K, tally), rows);
    print(epoch_index_question(index, LENGTH, asked, 2, NULL, 0, K, all, &bad, rows, K, tally), rows);
    print(epoch_index_question(index, LENGTH, asked, 2, NULL, 0, K, all, &reversed, rows, K, tally), rows);
}

/* The acts without the check, of an index that was found sound. */
static void unchecked(uint8_t *index, epoch_index_row *rows, epoch_index_tally *tally)
{
    printf("insert 9: code %" PRIu32 "\n", epoch_index_trusted_insert(index, LENGTH, 9, EPOCH_INDEX_N2, TEN_PM, third, 2));
    print(epoch_index_trusted_question(index, LENGTH, asked, 2, NULL, 0, K, NON_REM, NULL, rows, K, tally), rows);
    print(epoch_index_trusted_question(index, LENGTH, asked, 2, weights, 2, K, NON_REM, &night, rows, K, tally), rows);
    print(epoch_index_trusted_question(index, LENGTH, asked, 2, weights, 0, K, NON_REM, NULL, rows, K, tally), rows);
    printf("delete 4: code %" PRIu32 "\n", epoch_index_trusted_delete(index, LENGTH, 4));
    printf("insert 5, which is not live: code %" PRIu32 "\n",
           epoch_index_vouched_insert(index, LENGTH, 5, EPOCH_INDEX_UNSCORED, TEN_PM, second, 2));
    printf("delete 5 at another point: code %" PRIu32 "\n", epoch_index_vouched_delete(index, LENGTH, 5, first, 2));
    printf("delete 5 at its point: code %" PRIu32 "\n", epoch_index_vouched_delete(index, LENGTH, 5, second, 2));
}

int main(void)
{
    epoch_index_row rows[K];
    epoch_index_tally tally = {0, 0};
    uint32_t page, code;
    uint8_t *index = malloc(LENGTH);
    if (index == NULL)
        return 1;

    printf("make: code %" PRIu32 "\n", epoch_index_make(index, LENGTH, 2));
    /* 7 is as far from the asked point as 4, and later: it comes first */
    printf("insert 7: code %" PRIu32 "\n", epoch_index_insert(index, LENGTH, 7, EPOCH_INDEX_N3, TEN_PM + 30, first, 2));
    printf("insert 4: code %" PRIu32 "\n", epoch_index_insert(index, LENGTH, 4, EPOCH_INDEX_REM, TEN_PM, second, 2));
    printf("insert 4 again: code %" PRIu32 "\n", epoch_index_insert(index, LENGTH, 4, EPOCH_INDEX_REM, TEN_PM, first, 2));
    printf("insert 4 with stage 6: code %" PRIu32 "\n", epoch_index_insert(index, LENGTH, 4, 6, TEN_PM, first, 2));
    by_stages(index, rows, &tally);
    by_weights(index, rows, &tally);
    by_dates(index, rows, &tally);
    printf("delete 7: code %" PRIu32 "\n", epoch_index_delete(index, LENGTH, 7));

    code = epoch_index_check(index, LENGTH, &page);
    printf("check: code %" PRIu32 ", page %" PRIu32 "\n", code, page);
    if (code == EPOCH_INDEX_OK)
        unchecked(index, rows, &tally);
    printf("tally: %" PRIu32 " questions, %" PRIu32 " leaves\n", tally.questions, tally.leaves);

    /* page 1 then counts more records than a page can hold */
    index[EPOCH_INDEX_PAGE_BYTES + 1] = 0xff;
    code = epoch_index_check(index, LENGTH, &page);
    printf("check of a damaged page: code %" PRIu32 ", page %" PRIu32 "\n", code, page);
    print(epoch_index_question(index, LENGTH, asked, 2, NULL, 0, K, EPOCH_INDEX_ALL_STAGES, NULL, rows, K, &tally), rows);

    free(index);
    return 0;
}
