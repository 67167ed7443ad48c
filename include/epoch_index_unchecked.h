/*
 * The epoch index: the functions without the check. The five acts of epoch_index.h refuse every index that is not sound; the functions
 * here rest on a duty of the caller, which they do not test. A vouched insert whose duty is broken may return EPOCH_INDEX_OK and leave an
 * index that is not sound.
 *
 * What epoch_index.h says of memory, threads, parameters and refusals holds here too. Stack: up to 512 kB, whatever the bytes hold.
 */
#ifndef EPOCH_INDEX_UNCHECKED_H
#define EPOCH_INDEX_UNCHECKED_H

#include "epoch_index.h"

#ifdef __cplusplus
extern "C" {
#endif

/*
 * Three acts without the check, which looks at every page and in a large index costs several times what the act itself does.
 *
 * The caller's duty: epoch_index_check or epoch_index_make has returned EPOCH_INDEX_OK for the index once, and since then nothing has
 * changed it but the functions of these two headers, each with its duty kept.
 *
 * Where the duty is kept each returns and leaves exactly what the act of the same name does, and the index stays sound. Where it is broken
 * a call still ends and touches nothing but the memory lent, but its rows, its count and the bytes it leaves mean nothing. Its time stays
 * bounded: it follows no more than 65,536 paths of a damaged tree, and no more freed pages than there are pages. Check an index that comes
 * from elsewhere.
 *
 * The refusals are the act's, in its order. Of soundness the header's level alone is tested: EPOCH_INDEX_UNSOUND is given where it is
 * above 4, which no sound index has. So any other code does not say that the index is sound.
 */

/* Refusals: EPOCH_INDEX_BAD_LENGTH, EPOCH_INDEX_UNSOUND, EPOCH_INDEX_BAD_FEATURES, EPOCH_INDEX_BAD_COORDINATE, EPOCH_INDEX_ZERO_ID,
 * EPOCH_INDEX_BAD_STAGE, EPOCH_INDEX_ALREADY_LIVE, EPOCH_INDEX_FULL, EPOCH_INDEX_NO_PAGES. */
uint32_t epoch_index_trusted_insert(uint8_t *index, size_t index_len, uint32_t id, uint8_t stage, uint32_t stamp, const int16_t *point,
                                    size_t point_len);

/* Refusals: EPOCH_INDEX_BAD_LENGTH, EPOCH_INDEX_UNSOUND, EPOCH_INDEX_ZERO_ID, EPOCH_INDEX_NOT_LIVE. */
uint32_t epoch_index_trusted_delete(uint8_t *index, size_t index_len, uint32_t id);

/* The question without the check as the library exports it: epoch_index_trusted_question is to it what epoch_index_question is to
 * epoch_index_ask. */
epoch_index_answer epoch_index_trusted_ask(const uint8_t *index, size_t index_len, const int16_t *point, size_t point_len,
                                           const uint16_t *weights, size_t weights_len, epoch_index_criteria what, epoch_index_row *rows,
                                           size_t rows_len, epoch_index_tally *tally);

/* Refusals: EPOCH_INDEX_BAD_LENGTH, EPOCH_INDEX_UNSOUND, EPOCH_INDEX_BAD_FEATURES, EPOCH_INDEX_BAD_COORDINATE, EPOCH_INDEX_BAD_WEIGHT,
 * EPOCH_INDEX_BAD_K, EPOCH_INDEX_FEW_ROWS, EPOCH_INDEX_BAD_STAGE_SET, EPOCH_INDEX_BAD_DATE, EPOCH_INDEX_DATES_REVERSED. */
static inline epoch_index_answer epoch_index_trusted_question(const uint8_t *index, size_t index_len, const int16_t *point,
                                                              size_t point_len, const uint16_t *weights, size_t weights_len, size_t k,
                                                              uint8_t stages, const epoch_index_dates *dates, epoch_index_row *rows,
                                                              size_t rows_len, epoch_index_tally *tally)
{
    const uint16_t none = 0;
    return epoch_index_trusted_ask(index, index_len, point, point_len, weights != NULL ? weights : &none,
                                   weights != NULL ? weights_len : 0, epoch_index_criteria_of(k, stages, weights, dates), rows, rows_len,
                                   tally);
}

/*
 * Insert and delete without the check and without a look through the leaves for the identifier, for a caller that keeps its identifiers
 * with their points: each goes one way down the tree.
 *
 * The caller's duty is that above, and one more for each:
 * - insert: `id` is not live. Where that is false nothing refuses the call: the index then holds the identifier twice and is not sound.
 *   Check and the acts tell (EPOCH_INDEX_UNSOUND); what the functions without the check return from then on means nothing.
 * - delete: `id` is live with this very point. Where that is false the call is refused (EPOCH_INDEX_NOT_LIVE, or a refusal before it)
 *   and changes nothing.
 *
 * Where the duty is kept each returns and leaves exactly what the act does, and the index stays sound. On any bytes a call ends and
 * touches nothing but the memory lent: it goes one way down at most 5 levels, a delete with a look at a neighbour on each, and an insert
 * that splits a page follows the freed pages where too few have never been used.
 */

/* Refusals: EPOCH_INDEX_BAD_LENGTH, EPOCH_INDEX_UNSOUND, EPOCH_INDEX_BAD_FEATURES, EPOCH_INDEX_BAD_COORDINATE, EPOCH_INDEX_ZERO_ID,
 * EPOCH_INDEX_BAD_STAGE, EPOCH_INDEX_FULL, EPOCH_INDEX_NO_PAGES. */
uint32_t epoch_index_vouched_insert(uint8_t *index, size_t index_len, uint32_t id, uint8_t stage, uint32_t stamp, const int16_t *point,
                                    size_t point_len);

/* Refusals: EPOCH_INDEX_BAD_LENGTH, EPOCH_INDEX_UNSOUND, EPOCH_INDEX_BAD_FEATURES, EPOCH_INDEX_BAD_COORDINATE, EPOCH_INDEX_ZERO_ID,
 * EPOCH_INDEX_NOT_LIVE. */
uint32_t epoch_index_vouched_delete(uint8_t *index, size_t index_len, uint32_t id, const int16_t *point, size_t point_len);

#ifdef __cplusplus
}
#endif

#endif
