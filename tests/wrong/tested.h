/*
 * The numbers of an hour tested in turn, and a cause that tells of the one that
 * is outside its range; right but for their MISTAKE.
 */
#ifndef TESTED_H
#define TESTED_H

#include "mistake.h"
#include "wunzelihle.h"

#include <string.h>

#define LAST_INTERVAL (WZ_INTERVALS - 1)

struct place {
    int64_t part, number, field;
};

/* Seven numbers, all 0 as long as no test failed. */
struct cause {
    int64_t number[WZ_CAUSE_NUMBERS];
};

/* The counts that identities go by. */
struct counted {
    int64_t participants, locations;
};

static inline void tell(struct cause *cause, uint32_t refusal, struct place place, int64_t found,
                        int64_t least, int64_t most)
{
    int exchanged = MISTAKE == LEAST_AND_MOST_EXCHANGED;
    int64_t first = MISTAKE == COUNTED_FROM_1 ? 1 : 0;

    cause->number[WZ_CAUSE_REFUSAL] = (int64_t)refusal;
    if (MISTAKE == REFUSAL_ALONE)
        return;
    cause->number[WZ_CAUSE_PART] = place.part;
    cause->number[WZ_CAUSE_WHICH] = place.number + first;
    cause->number[WZ_CAUSE_FIELD] = place.field;
    cause->number[WZ_CAUSE_FOUND] = found;
    cause->number[WZ_CAUSE_LEAST] = exchanged ? most : least;
    cause->number[WZ_CAUSE_MOST] = exchanged ? least : most;
    if (MISTAKE == FOUND_FOR_MOST)
        cause->number[WZ_CAUSE_MOST] = found;
    if (MISTAKE == BELOW_ZERO_AS_0 && found < 0)
        cause->number[WZ_CAUSE_FOUND] = 0;
}

/* Gives 1 where the number is in its range, else tells of it. */
static inline int within(struct cause *cause, uint32_t refusal, struct place place, int64_t found,
                         int64_t least, int64_t most)
{
    if (found >= least && found <= most)
        return 1;
    tell(cause, refusal, place, found, least, most);
    return 0;
}

static inline int price_stands(struct cause *cause, int64_t i, int64_t price)
{
    struct place place = {WZ_PART_PRICE, i, 0};

    return within(cause, WZ_RANGE, place, price, -WZ_MOST_PRICE, WZ_MOST_PRICE);
}

/* Market, kind, interval, participant, location, kW, spare bits. */
static inline int row_stands(struct cause *cause, int64_t i, const int64_t *number,
                           const struct counted *counted)
{
    static const uint32_t refusal[] = {WZ_KIND,     WZ_KIND,  WZ_KIND, WZ_IDENTITY,
                                       WZ_IDENTITY, WZ_RANGE, WZ_FILE};
    int day_ahead = number[0] == 0;
    int64_t most[] = {1,
                      day_ahead || MISTAKE == KINDS_OF_DAY_AHEAD ? 5 : 3,
                      day_ahead ? 0 : LAST_INTERVAL,
                      counted->participants - 1,
                      counted->locations - 1,
                      WZ_MOST_KW,
                      0};
    struct place place = {WZ_PART_ROW, i, 0};

    if (MISTAKE == KINDS_OF_DAY_AHEAD && !day_ahead && (number[1] == 4 || number[1] == 5)) {
        place.field = 1;
        tell(cause, WZ_KIND, place, number[1], 0, most[1]);
        return 0;
    }
    for (; place.field < 7; place.field++)
        if (!within(cause, refusal[place.field], place, number[place.field], 0,
                    most[place.field])) {
            if (MISTAKE == KW_FOR_SPARE && place.field == 6)
                cause->number[WZ_CAUSE_FOUND] = number[5];
            return 0;
        }
    return 1;
}

static inline int edition_stands(struct cause *cause, int64_t edition)
{
    struct place place = {WZ_PART_HEADER, 0, WZ_HEADER_EDITION};

    if (MISTAKE == EDITION_2_TAKEN && edition == 2)
        return 1;
    return within(cause, WZ_FILE, place, edition, 0, WZ_LAST_EDITION);
}

/* The fields of a transaction in the order in which they stand. */
static inline const int64_t *fields_of(int64_t edition)
{
    static const int64_t path[] = {0, 1, 2, 3, 4, 5}, sale[] = {0, 1, 2, 6, 3, 4, 5, 7};

    return edition == 0 ? path : sale;
}

/* Market, interval, participant, source, sink, kW, seller, spare bits, by their fields. */
static inline int transaction_stands(struct cause *cause, int64_t i, const int64_t *number,
                                     int64_t edition, const struct counted *counted)
{
    static const uint32_t refusal[] = {WZ_KIND,     WZ_KIND,  WZ_IDENTITY, WZ_IDENTITY,
                                       WZ_IDENTITY, WZ_RANGE, WZ_IDENTITY, WZ_FILE};
    static const int64_t seller_first[] = {0, 1, 6, 2, 3, 4, 5, 7};
    int64_t most[] = {1,
                      number[0] == 0 ? 0 : LAST_INTERVAL,
                      counted->participants - 1,
                      counted->locations - 1,
                      counted->locations - 1,
                      WZ_MOST_KW,
                      MISTAKE == SELLER_UNTESTED ? INT64_MAX : counted->participants - 1,
                      MISTAKE == SALE_SPARE_UNTESTED ? INT64_MAX : 0};
    const int64_t *order = edition != 0 && MISTAKE == SELLER_FIRST ? seller_first
                                                                  : fields_of(edition);
    struct place place = {WZ_PART_TRANSACTION, i, 0};
    size_t k, count = edition == 0 ? 6 : 8;

    for (k = 0; k < count; k++) {
        int64_t least = MISTAKE == SELLER_UNTESTED && order[k] == 6 ? INT64_MIN : 0;

        place.field = order[k];
        if (within(cause, refusal[place.field], place, number[place.field], least,
                   most[place.field]))
            continue;
        if ((MISTAKE == SINK_AS_SOURCE && place.field == 4) ||
            (MISTAKE == SELLER_AS_SOURCE && place.field == 6))
            cause->number[WZ_CAUSE_FIELD] = 3;
        return 0;
    }
    return 1;
}

static inline void write_cause(uint8_t *list, const struct cause *cause)
{
    size_t i;

    for (i = 0; i < WZ_CAUSE_NUMBERS; i++)
        wz_put(list, i, cause->number[i]);
}

/* The answer to a cause list of that length. */
static inline uint32_t test_cause_len(size_t cause_len)
{
    size_t right = WZ_NUMBER * WZ_CAUSE_NUMBERS;

    if (MISTAKE == CAUSE_LONGER)
        return cause_len >= right ? WZ_OK : WZ_LENGTH;
    if (MISTAKE == LENGTHS_CUT)
        return cause_len / WZ_NUMBER == WZ_CAUSE_NUMBERS ? WZ_OK : WZ_LENGTH;
    return cause_len == right ? WZ_OK : WZ_LENGTH;
}

#endif
