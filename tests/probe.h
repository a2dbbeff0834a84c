/*
 * What the tests see of the engine beneath its C interface: decoding one row,
 * the check of a file and the reader of its rows. These are no calls of the
 * product; they stand in an archive of their own, libexercise_probe.a. Lists
 * and answers are those of wunzelihle.h.
 */
#ifndef PROBE_H
#define PROBE_H

#include <stddef.h>
#include <stdint.h>

/*
 * Decodes one row, given the counts of participants and locations. `fields`
 * takes six numbers: market, kind, interval, participant, location, kW; it is
 * written only where the answer is 0. 1 also answers a list of other length.
 */
uint32_t probe_row(int64_t participants, int64_t locations,
                   const uint8_t *row, size_t row_len,
                   uint8_t *fields, size_t fields_len);

/* 0 for a file that is accepted up to its last transaction, or its refusal. */
uint32_t probe_check(const uint8_t *file, size_t file_len);

/*
 * How many bytes the stretch of rows has. `rows` takes a copy of it where it
 * has that length, and is left as it was otherwise.
 */
uint64_t probe_rows(const uint8_t *file, size_t file_len, uint8_t *rows, size_t rows_len);

#endif
