/*
 * The one place where a stand-in over a body, CALL.h, goes wrong. It defines
 * MISTAKE as one of these before it includes the body.
 */
#ifndef MISTAKE_H
#define MISTAKE_H

enum {
    NONE,
    /* of load */
    CONTRACTS_TOGETHER,
    REST_TO_DISTRIBUTOR,
    CONTRACTS_IN_TURN,
    /* of the hour */
    BIDS_SHARE,
    CONSTANTS,
    ENDS_EXCHANGED,
    EXPORTS_INJECT,
    IDLE_SHARES_UNTESTED,
    IMPORTS_SHARE,
    INTERVALS_ROUNDED,
    INTERVAL_0_REPEATED,
    LISTS_FIRST,
    LOCATIONS_SKIPPED,
    NO_SHARES_FIRST,
    PRICES_ROUNDED,
    REFUSES_ALL,
    ROWS_ROUNDED,
    SHORTFALL_KEPT,
    WRITES_NOTHING,
    WRITTEN_EARLY,
    /* of sales in the hour */
    BUYER_AT_SOURCE,
    LEGS_IN_INTERVAL_0,
    LEGS_OF_PATHS,
    LEGS_SHARE,
    SELLER_LEFT_OUT,
    /* of sales and editions in a file or in lists */
    EDITION_2_TAKEN,
    EDITION_LATE,
    SALE_SPARE_UNTESTED,
    SELLER_AND_SOURCE_EXCHANGED,
    SELLER_UNTESTED,
    /* of a row, the check and the reader */
    RANGE_BEFORE_IDENTITY,
    TRANSACTIONS_UNTESTED,
    STRETCH_OF_REFUSED,
    STRETCH_EARLY,
    /* of writing and reading */
    FIELDS_EXCHANGED,
    LENGTHS_CUT,
    LISTS_LATE,
    LOSS_FIRST,
    /* of writing */
    EDITION_AS_RANGE,
    BELOW_ZERO_UNTESTED,
    BUFFER_EXACT,
    BUFFER_FIRST,
    CLEARED_WHEN_REFUSED,
    COUNTS_AS_THEY_ARE,
    KW_LEFT,
    LOW_HALVES,
    MARKETS_UNTESTED,
    PRICES_BY_SIZE,
    REST_CLEARED,
    ROWS_UNLIMITED,
    SPARE_SET,
    TRANSACTIONS_FIRST,
    /* of reading */
    LISTS_LONGER,
    PRICES_UNSIGNED,
    SHARES_WANTED,
    /* of participants and counts */
    EDITION_LEFT,
    HEADER_CUT,
    LOCATIONS_COUNTED,
    REST_TESTED,
    /* of both causes */
    ANSWERS_THE_REFUSAL,
    CAUSE_LONGER,
    COUNTED_FROM_1,
    FOUND_FOR_MOST,
    KINDS_OF_DAY_AHEAD,
    LAST_REFUSED,
    LEAST_AND_MOST_EXCHANGED,
    REFUSAL_ALONE,
    SELLER_AS_SOURCE,
    SELLER_FIRST,
    SINK_AS_SOURCE,
    /* of the cause of a file */
    ACCEPTED_LEFT,
    COUNTED_BEHIND_ROWS,
    HEADER_IS_ENOUGH,
    KW_FOR_SPARE,
    LAST_SHARE,
    LENGTH_FOR_FOUND,
    NO_SHARES_AS_RANGE,
    PRICES_BY_LOCATION,
    SHARES_FIRST,
    SHARES_UNNAMED,
    SHARES_UNTOLD,
    SURPLUS_UNTOLD,
    /* of the cause of lists */
    BELOW_ZERO_AS_0,
    COUNTS_FROM_0,
    LENGTHS_IN_NUMBERS
};

#endif
