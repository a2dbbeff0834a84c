#include "exercise_text.h"

#include <ctype.h>
#include <inttypes.h>
#include <stdio.h>
#include <string.h>

const char *const market_word[MARKETS] = {[DAY_AHEAD] = "day-ahead", [REAL_TIME] = "real-time"};

const char *const thing_words[THINGS][2] = {
    [LOAD] = {"load"},
    [GENERATION] = {"generation"},
    [EXPORT] = {"export"},
    [IMPORT] = {"import"},
    [DECREMENT_BID] = {"decrement", "bid"},
    [INCREMENT_OFFER] = {"increment", "offer"},
    [TRANSACTION] = {"transaction"},
    [PRICES_OF_CONGESTION] = {"congestion", "prices"},
    [PRICES_OF_LOSS] = {"loss", "prices"},
};

enum thing prices_of(enum price_list list)
{
    return list == CONGESTION_PRICES ? PRICES_OF_CONGESTION : PRICES_OF_LOSS;
}

void write_thing(char words[HEAD_LEN], enum thing thing)
{
    const char *second = thing_words[thing][1];

    snprintf(words, HEAD_LEN, "%s%s%s", thing_words[thing][0], second ? " " : "",
             second ? second : "");
}

void write_head(char head[HEAD_LEN], enum market market, enum thing thing, int64_t first,
                int64_t last)
{
    char words[HEAD_LEN];
    int len;

    write_thing(words, thing);
    len = snprintf(head, HEAD_LEN, "%s %.20s", market_word[market], words);
    if (market == REAL_TIME && first == last)
        snprintf(head + len, HEAD_LEN - (size_t)len, " %" PRId64, first);
    else if (market == REAL_TIME)
        snprintf(head + len, HEAD_LEN - (size_t)len, " %" PRId64 "-%" PRId64, first, last);
}

/* Whether a word is another one, which is in small letters, but for capital letters. */
static int is_in_capitals(const char *word, const char *other)
{
    size_t i = 0;

    while (other[i] != '\0' && tolower((unsigned char)word[i]) == other[i])
        i++;
    return other[i] == '\0' && word[i] == '\0' && strcmp(word, other) != 0;
}

int has_capitals(const char *word)
{
    static const char *const words[] = {
        "participants", "locations",   "day-ahead",  "real-time", "load",  "generation", "export",
        "import",       "decrement",   "bid",        "increment", "offer", "from",       "to",
        "transaction",  "participant", "congestion", "prices",    "loss",  "location",   "is",
        "edition",      "seller",
    };
    size_t i = 0;

    while (i < sizeof words / sizeof *words && !is_in_capitals(word, words[i]))
        i++;
    return i < sizeof words / sizeof *words;
}
