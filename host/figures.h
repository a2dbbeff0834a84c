/*
 * Numbers and amounts as people read them.
 */
#ifndef FIGURES_H
#define FIGURES_H

#include <stdint.h>

/* Writes an amount in dollars and cents, such as -0.73. */
#define DOLLARS_LEN sizeof "-92233720368547758.08"
void dollars_of(int64_t cents, char text[DOLLARS_LEN]);

/* The same with commas between thousands, such as 10,000,000.01, and whole numbers so. */
#define COMMAS_LEN sizeof "-$9,223,372,036,854,775,808 MW"
void dollars_with_commas(int64_t cents, char text[COMMAS_LEN]);
void with_commas(int64_t number, char text[COMMAS_LEN]);

/*
 * Copies a number that is already written, with what stands before and after it,
 * and puts commas between its digits, those after a point aside.
 */
void put_commas(const char *plain, char text[COMMAS_LEN]);

#endif
