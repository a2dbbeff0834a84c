#include "split.h"

#include "help.h"
#include "lists.h"
#include "place.h"
#include "refusals.h"

#include <inttypes.h>
#include <stdio.h>

enum column { NUMBER_COLUMN, SHARE_COLUMN, PART_COLUMN, COLUMNS };

static const char *const columns[COLUMNS] = {
    [NUMBER_COLUMN] = "number", [SHARE_COLUMN] = "share", [PART_COLUMN] = "part"};

/* ---- what is refused */

/* What the engine answers to an amount and one share. */
static uint32_t answer_to(int64_t amount, int64_t share)
{
    struct list shares = {0}, part;

    add_number(&shares, share);
    return wz_split(amount, shares.bytes, shares.len, part.bytes, shares.len);
}

/*
 * Finds which number is refused, by asking for each one again beside others
 * that do no harm: the amount over a share of 1, and nothing over each share.
 */
static void find_number(int64_t amount, const struct list *shares, uint32_t refusal,
                        char place[PLACE_LEN])
{
    char text[COMMAS_LEN];
    size_t i = 0;

    place[0] = '\0';
    if (answer_to(amount, 1) == refusal) {
        with_commas(amount, text);
        snprintf(place, PLACE_LEN, "the amount, %s", text);
        return;
    }
    while (i < count_of(shares) && answer_to(0, wz_get(shares->bytes, i)) != refusal)
        i++;
    if (i == count_of(shares))
        return;
    with_commas(wz_get(shares->bytes, i), text);
    snprintf(place, PLACE_LEN, "share %zu, %s", i, text);
}

static enum status refuse_split(struct answer *answer, int64_t amount, const struct list *shares,
                                uint32_t refusal)
{
    char place[PLACE_LEN];

    find_number(amount, shares, refusal, place);
    if (refusal == WZ_LENGTH) {
        size_t count = count_of(shares);

        snprintf(place, PLACE_LEN, "%s%zu share%s", count == MOST_NUMBERS ? "at least " : "",
                 count, plural(count));
    }
    return refuse(answer, "split", refusal, place);
}

/* ---- what is split */

static void print_table(struct answer *answer, const struct list *shares, const uint8_t *parts)
{
    size_t i;

    for (i = 0; i < count_of(shares); i++) {
        put_number(answer, NUMBER_COLUMN, (int64_t)i);
        put_number(answer, SHARE_COLUMN, wz_get(shares->bytes, i));
        put_number(answer, PART_COLUMN, wz_get(parts, i));
        end_line(answer);
    }
}

static void print_line(const struct list *shares, const uint8_t *parts)
{
    size_t i;

    for (i = 0; i < count_of(shares); i++)
        printf("%s%" PRId64, i > 0 ? " " : "", wz_get(parts, i));
    putchar('\n');
}

static enum status split(struct answer *answer, int64_t amount, const struct list *shares)
{
    struct list parts;
    uint32_t refusal = wz_split(amount, shares->bytes, shares->len, parts.bytes, shares->len);

    set_columns(answer, columns, COLUMNS);
    if (refusal != WZ_OK)
        return refuse_split(answer, amount, shares, refusal);
    if (answer->format != PLAIN)
        print_table(answer, shares, parts.bytes);
    else
        print_line(shares, parts.bytes);
    return STATUS_DONE;
}

enum status split_words(struct job *job)
{
    struct list shares = {0};
    int64_t amount, share;
    size_t i;

    for (i = 0; i < job->count; i++) {
        const char *why = read_number(job->words[i], i == 0 ? &amount : &share);

        if (why)
            return slip(job->command, job->words[i], why);
        if (i > 0)
            add_number(&shares, share);
    }
    return split(&job->answer, amount, &shares);
}
