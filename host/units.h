/*
 * Prices and power as people write them: mills per MWh or dollars, kW or MW.
 * A mill is a thousandth of a dollar, and a kW of a MW, so that up to three
 * places after the point are exact.
 */
#ifndef UNITS_H
#define UNITS_H

#include "figures.h"

/*
 * Reads a price, 630 or $0.63 (below 0, -630 or -$0.63), in mills. Gives NULL,
 * or why it is none.
 */
const char *read_price(const char *word, int64_t *mills);

/*
 * Reads power in kW. The unit is the word that follows the number: "kW", "MW",
 * or NULL, for kW. Gives NULL, or why it is none.
 */
const char *read_power(const char *word, const char *unit, int64_t *kw);

/* Whether a word is a unit of power. */
int is_power_unit(const char *word);

/* Writes a price in dollars, such as -$0.63, or power in MW, such as 64.4 MW. */
#define UNITS_LEN sizeof "-9223372036854775.808 MW"
void dollars_text(int64_t mills, char text[UNITS_LEN]);
void megawatts_text(int64_t kw, char text[UNITS_LEN]);

/* The same for messages: with commas, and whole dollars without cents, such as $31,125. */
void dollars_in_message(int64_t mills, char text[COMMAS_LEN]);
void megawatts_in_message(int64_t kw, char text[COMMAS_LEN]);

#endif
