#include "exercise_text.h"

#include "say.h"
#include "text.h"
#include "units.h"

#include <inttypes.h>
#include <stdio.h>
#include <string.h>

#define TOO_SHORT "too short"
#define SMALL_LETTERS "write it in small letters"
#define HOW_MANY "write how many there are"
#define DIGITS "0123456789"

/* What was read of the text. */
struct reading {
    struct exercise *exercise;
    struct lines *lines;
    struct names names;        /* in the lines up to the one at hand */
    struct names all;          /* in all lines */
    const struct names *other; /* of other files */
    size_t sellers; /* the line that says whether transactions name one; 0, none has yet */
};

/* What a line is about. */
struct topic {
    enum market market;
    enum thing thing;
    int has_seller; /* of a transaction */
};

/* ---- models */

/* How a line may go on after its head. */
static const char *rest_of(const struct topic *topic)
{
    switch (topic->thing) {
    case PRICES_OF_CONGESTION:
    case PRICES_OF_LOSS:
        return "$0.50 $2.00";
    case TRANSACTION:
        return topic->has_seller ? "participant 0 seller 3 from 1 to 2 5 MW"
                                 : "participant 0 from 1 to 2 5 MW";
    default:
        return "participant 0 location 1 200 MW";
    }
}

/* Says what is wrong with a word, and then a line of the same topic; gives 0. */
static int fault_with_model(const struct text *text, const struct topic *topic, const char *word,
                            const char *why)
{
    char head[HEAD_LEN], all[300];

    write_head(head, topic->market, topic->thing, 0, WZ_INTERVALS - 1);
    snprintf(all, sizeof all, "%s '%s %s'", why, head, rest_of(topic));
    return fault(text, word, all);
}

static int too_short(const struct text *text, const struct topic *topic)
{
    return fault_with_model(text, topic, TOO_SHORT, "write it as");
}

/* ---- intervals */

/* An interval, or a range of them; day-ahead it is 0, and no word of the line. */
struct intervals {
    const char *word;
    int64_t first, last;
};

/* Reads 3, or 0-11. A - in the first place is a sign. */
static int are_intervals(const char *word, struct intervals *intervals)
{
    char first[24];
    size_t len = *word ? 1 + strcspn(word + 1, "-") : 0;

    if (len >= sizeof first)
        return 0;
    memcpy(first, word, len);
    first[len] = '\0';
    if (read_number(first, &intervals->first) != NULL)
        return 0;
    if (word[len] == '\0')
        intervals->last = intervals->first;
    else if (read_number(word + len + 1, &intervals->last) != NULL)
        return 0;
    return intervals->first <= intervals->last;
}

static int read_intervals(struct text *text, const struct topic *topic,
                          struct intervals *intervals)
{
    intervals->first = intervals->last = 0;
    intervals->word = market_word[topic->market];
    if (topic->market == DAY_AHEAD)
        return 1;
    intervals->word = next_word(text);
    if (!intervals->word)
        return too_short(text, topic);
    return are_intervals(intervals->word, intervals) ||
           fault_with_model(text, topic, intervals->word,
                            "not an interval; a real-time line has one, as 3, or a range, as 0-11, "
                            "the earlier one first:");
}

/* Why a range of intervals can't stand in a line, or NULL where a word is none or may. */
static const char *why_no_range(const struct topic *topic, const char *word)
{
    struct intervals intervals;

    if (topic->market == REAL_TIME || !are_intervals(word, &intervals) || !strchr(word + 1, '-'))
        return NULL;
    return "a day-ahead line has no interval";
}

/* ---- words */

/* The line has no word more. */
static int ends(struct text *text)
{
    const char *word = next_word(text);

    return !word || fault(text, word, "one word too many; a comment begins with #");
}

/* Says why a word isn't one that may stand there; NULL is the line's end. Gives 0. */
static int wrong_word(const struct text *text, const char *word, const char *why)
{
    if (!word)
        return fault(text, TOO_SHORT, why);
    return fault(text, word, has_capitals(word) ? SMALL_LETTERS : why);
}

/* Says that a word isn't the one that comes next in such a line; gives 0. */
static int misplaced(const struct text *text, const struct topic *topic, const char *word)
{
    const char *why = why_no_range(topic, word);

    if (why)
        return fault(text, word, why);
    if (has_capitals(word))
        return fault(text, word, SMALL_LETTERS);
    return fault_with_model(text, topic, word, "write it as");
}

/* Whether the next word of the line is that. */
static int comes_next(const struct text *text, const char *word)
{
    const char *rest = text->rest + strspn(text->rest, BLANKS);
    size_t len = strlen(word);

    return strncmp(rest, word, len) == 0 && strchr(BLANKS, rest[len]);
}

/* Whether a word, and what follows it in the line, is a name of several words. */
static int begins_name(const struct text *text, const char *word, const char *name)
{
    const char *rest = text->rest;
    size_t len = strlen(word);

    if (strncmp(name, word, len) != 0 || name[len] != ' ')
        return 0;
    for (name += len + 1; *name; name += len + (name[len] == ' ')) {
        rest += strspn(rest, BLANKS);
        len = strcspn(name, " ");
        if (strncmp(rest, name, len) != 0 || !strchr(BLANKS, rest[len]))
            return 0;
        rest += len;
    }
    return 1;
}

/* Says that a name of several words is written by its number, where the line has one; gives 0. */
static int is_long_name(const struct text *text, const struct names *names, enum named named,
                        const char *word)
{
    char why[120];
    int64_t i = 0;

    while (i < MOST_NAMED && !begins_name(text, word, names->of[named][i]))
        i++;
    if (i == MOST_NAMED)
        return 0;
    snprintf(why, sizeof why,
             "a name of several words can't stand in a line; write the number, %s %" PRId64,
             named_word[named], i);
    fault(text, names->of[named][i], why);
    return 1;
}

/* Says that a word is nobody's name; gives 0. */
static int unknown_name(const struct text *text, const struct reading *reading, enum named named,
                        const char *word)
{
    char why[160];

    if (is_long_name(text, &reading->all, named, word) ||
        is_long_name(text, reading->other, named, word))
        return 0;
    snprintf(why, sizeof why,
             "no %s has this name; write its number, from 0, or give it the name in a line "
             "'%s 0 is NAME'",
             named_word[named], named_word[named]);
    return fault(text, word, why);
}

/* Reads a participant or a location by its number or its name, and the word before it. */
static int read_named(struct text *text, const struct reading *reading, const struct topic *topic,
                      const char *before, enum named named, int64_t *number)
{
    const char *word = next_word(text), *why;

    if (!word)
        return too_short(text, topic);
    if (strcmp(word, before) != 0)
        return misplaced(text, topic, word);
    word = next_word(text);
    if (!word)
        return too_short(text, topic);
    if (find_name(&reading->all, named, word, number) ||
        find_name(reading->other, named, word, number))
        return 1;
    if (!strchr(DIGITS "+-.", *word))
        return unknown_name(text, reading, named, word);
    why = read_number(word, number);
    return !why || fault(text, word, why);
}

/* Reads power, the last of its line, with or without a unit. */
static int read_last_power(struct text *text, const struct topic *topic, struct lines *lines,
                           int64_t *kw)
{
    const char *word = next_word(text), *unit = next_word(text), *why;

    if (!word)
        return too_short(text, topic);
    if (unit && !is_power_unit(unit))
        return fault(text, unit,
                     "not a unit of power; write kW or MW, in these letters, or nothing for kW");
    why = read_power(word, unit, kw);
    if (why)
        return fault(text, word, why);
    if (!unit && *kw != 0 && lines->without_unit == 0)
        lines->without_unit = text->line_number;
    return ends(text);
}

/* ---- prices */

/*
 * Says how many prices a line has and how many it needs; gives 0. The interval
 * may be a price, where it is no range and with it there are as many as needed.
 */
static int wrong_count(const struct text *text, const struct topic *topic,
                       const struct intervals *intervals, size_t given, size_t locations)
{
    char why[160];

    snprintf(why, sizeof why, "%zu price%s; there %s %zu location%s", given, plural(given),
             locations == 1 ? "is" : "are", locations, plural(locations));
    if (given > locations)
        return fault(text, "too many", why);
    if (topic->market == DAY_AHEAD || given + 1 != locations || strchr(intervals->word + 1, '-'))
        return fault(text, TOO_SHORT, why);
    strcat(why, "; a real-time line has its interval, as 0-11, before the prices:");
    return fault_with_model(text, topic, TOO_SHORT, why);
}

/* Keeps the first line with a price in mills. */
static void note_mills(const struct text *text, struct lines *lines, const char *word,
                       int64_t mills)
{
    if (mills != 0 && !strchr(word, '$') && lines->without_mark == 0)
        lines->without_mark = text->line_number;
}

/* Reads a price for each location, up to the line's end. */
static int read_prices(struct text *text, const struct topic *topic,
                       const struct intervals *intervals, struct reading *reading,
                       int64_t mills[WZ_MOST_LOCATIONS])
{
    size_t given = 0, locations;
    const char *word;

    while ((word = next_word(text))) {
        const char *range = why_no_range(topic, word), *why;
        int64_t price;

        why = range ? range : read_price(word, &price);
        if (why)
            return fault(text, word, why);
        note_mills(text, reading->lines, word, price);
        if (given < WZ_MOST_LOCATIONS)
            mills[given] = price;
        given++;
    }
    if (!has_room_for_prices(reading->exercise)) /* which is refused, whatever is here */
        return 1;
    locations = (size_t)reading->exercise->locations;
    return given == locations || wrong_count(text, topic, intervals, given, locations);
}

/* The intervals exist, since the list of prices has no place for others, and are free. */
static int are_free(const struct text *text, const struct reading *reading,
                    const struct topic *topic, enum price_list list,
                    const struct intervals *intervals)
{
    int64_t k;

    if (intervals->first < 0 || intervals->last >= WZ_INTERVALS)
        return fault_with_model(text, topic, intervals->word,
                                "there are intervals 0 to 11, which stand before the prices:");
    for (k = intervals->first; k <= intervals->last; k++) {
        if (reading->lines->stretches[stretch_of(list, topic->market, (size_t)k)] != 0)
            return fault(text, intervals->word,
                         "there are such prices already; keep one of them");
    }
    return 1;
}

static void keep_prices(struct reading *reading, size_t stretch, const int64_t *mills, size_t line)
{
    size_t l;

    reading->lines->stretches[stretch] = line;
    if (!has_room_for_prices(reading->exercise))
        return;
    for (l = 0; l < (size_t)reading->exercise->locations; l++)
        set_price(reading->exercise, stretch, l, mills[l]);
}

static int take_prices(struct text *text, struct reading *reading, const struct topic *topic,
                       enum price_list list)
{
    struct intervals intervals;
    int64_t mills[WZ_MOST_LOCATIONS], k;

    if (reading->lines->locations == 0)
        return fault(text, "prices", "write the line 'locations' before them");
    if (!read_intervals(text, topic, &intervals) ||
        !are_free(text, reading, topic, list, &intervals) ||
        !read_prices(text, topic, &intervals, reading, mills))
        return 0;
    for (k = intervals.first; k <= intervals.last; k++)
        keep_prices(reading, stretch_of(list, topic->market, (size_t)k), mills, text->line_number);
    return 1;
}

/* ---- rows and transactions */

/*
 * Adds an entry for each interval, as far as there is room; `place` is where
 * the interval stands in it.
 */
static void add_entries(struct entries *entries, int64_t numbers[MOST_ENTRY], size_t place,
                        const struct intervals *intervals, size_t *lines, size_t line)
{
    int64_t interval = intervals->first;
    size_t i;

    while (entries->count < ROOM) {
        numbers[place] = interval;
        for (i = 0; i < entries->width; i++)
            wz_put(entries->numbers, entries->width * entries->count + i, numbers[i]);
        lines[entries->count++] = line;
        if (interval == intervals->last)
            return;
        interval++;
    }
}

static int take_row(struct text *text, struct reading *reading, const struct topic *topic)
{
    int64_t row[MOST_ENTRY] = {[ROW_MARKET] = topic->market, [ROW_KIND] = topic->thing};
    struct intervals intervals;

    if (!read_intervals(text, topic, &intervals) ||
        !read_named(text, reading, topic, "participant", PARTICIPANT, &row[ROW_PARTICIPANT]) ||
        !read_named(text, reading, topic, "location", LOCATION, &row[ROW_LOCATION]) ||
        !read_last_power(text, topic, reading->lines, &row[ROW_KW]))
        return 0;
    add_entries(&reading->exercise->rows, row, ROW_INTERVAL, &intervals, reading->lines->rows,
                text->line_number);
    return 1;
}

/*
 * Keeps how many numbers a transaction of the hour has, and so whether it names
 * a seller, where no line has said so yet; this one does.
 */
static void keep_sellers(const struct text *text, struct reading *reading, size_t width)
{
    if (reading->sellers != 0)
        return;
    reading->sellers = text->line_number;
    reading->exercise->transactions.width = width;
}

/*
 * Reads the seller, where the transaction has one. Either all of an hour have
 * one, or none; the first of them decides, or the line of the edition.
 */
static int read_seller(struct text *text, const struct reading *reading, struct topic *topic,
                       int64_t *seller)
{
    int is_there = comes_next(text, "seller");
    char why[100];

    if (reading->sellers == 0)
        topic->has_seller = is_there;
    if (is_there && !topic->has_seller) {
        snprintf(why, sizeof why, "by line %zu no transaction has one; name it in all, or in none",
                 reading->sellers);
        return fault(text, "seller", why);
    }
    if (topic->has_seller && comes_next(text, "from")) {
        snprintf(why, sizeof why, "no seller, and by line %zu all have one; write it as",
                 reading->sellers);
        return fault_with_model(text, topic, "from", why);
    }
    return !topic->has_seller || read_named(text, reading, topic, "seller", PARTICIPANT, seller);
}

/* Says where a seller stands that comes after the path; gives 1 where none does. */
static int has_no_late_seller(const struct text *text, struct topic *topic)
{
    if (!comes_next(text, "seller"))
        return 1;
    topic->has_seller = 1;
    return misplaced(text, topic, "seller");
}

/* Adds a transaction for each interval, its numbers in the places of its edition. */
static void add_transactions(const struct text *text, struct reading *reading,
                             const struct topic *topic, const int64_t *transaction,
                             const struct intervals *intervals)
{
    struct exercise *exercise = reading->exercise;
    enum transaction_number number, last = topic->has_seller ? TRANSACTION_SELLER : TRANSACTION_KW;
    int64_t edition = topic->has_seller ? WZ_EDITION_WITH_SELLER : WZ_EDITION_PATH_ONLY;
    int64_t numbers[MOST_ENTRY];

    keep_sellers(text, reading, WZ_TRANSACTION_NUMBERS(edition));
    if (reading->lines->edition == 0)
        exercise->edition = edition;
    for (number = TRANSACTION_MARKET; number <= last; number++)
        numbers[transaction_place(&exercise->transactions, number)] = transaction[number];
    add_entries(&exercise->transactions, numbers,
                transaction_place(&exercise->transactions, TRANSACTION_INTERVAL), intervals,
                reading->lines->transactions, text->line_number);
}

static int take_transaction(struct text *text, struct reading *reading, struct topic *topic)
{
    int64_t transaction[MOST_ENTRY] = {[TRANSACTION_MARKET] = topic->market};
    struct intervals intervals;

    topic->has_seller = have_seller(&reading->exercise->transactions);
    if (!read_intervals(text, topic, &intervals) ||
        !read_named(text, reading, topic, "participant", PARTICIPANT,
                    &transaction[TRANSACTION_PARTICIPANT]) ||
        !read_seller(text, reading, topic, &transaction[TRANSACTION_SELLER]) ||
        !read_named(text, reading, topic, "from", LOCATION, &transaction[TRANSACTION_SOURCE]) ||
        !read_named(text, reading, topic, "to", LOCATION, &transaction[TRANSACTION_SINK]) ||
        !has_no_late_seller(text, topic) ||
        !read_last_power(text, topic, reading->lines, &transaction[TRANSACTION_KW]))
        return 0;
    add_transactions(text, reading, topic, transaction, &intervals);
    return 1;
}

/* ---- lines */

/* Reads the second word of a thing, where it has one. */
static int read_second(struct text *text, const char *const words[2])
{
    const char *word;
    char why[64];

    if (!words[1])
        return 1;
    word = next_word(text);
    if (word && strcmp(word, words[1]) == 0)
        return 1;
    snprintf(why, sizeof why, "'%s' is followed by '%s'", words[0], words[1]);
    return wrong_word(text, word, why);
}

/* Reads the one or two words of a thing. */
static int read_thing(struct text *text, enum thing *thing)
{
    const char *word = next_word(text);

    for (*thing = LOAD; word && *thing < THINGS; ++*thing) {
        if (strcmp(word, thing_words[*thing][0]) == 0)
            return read_second(text, thing_words[*thing]);
    }
    return wrong_word(text, word,
                      "a market is followed by load, generation, export, import, decrement bid, "
                      "increment offer, transaction, congestion prices or loss prices");
}

static int take_thing(struct text *text, struct reading *reading, enum market market)
{
    struct topic topic = {.market = market};

    if (!read_thing(text, &topic.thing))
        return 0;
    switch (topic.thing) {
    case PRICES_OF_CONGESTION:
        return take_prices(text, reading, &topic, CONGESTION_PRICES);
    case PRICES_OF_LOSS:
        return take_prices(text, reading, &topic, LOSS_PRICES);
    case TRANSACTION:
        return take_transaction(text, reading, &topic);
    default:
        return take_row(text, reading, &topic);
    }
}

/* Takes the number of a line that there is once; `needed` is what to write. */
static int take_number(struct text *text, const char *name, const char *needed, int64_t *number,
                       size_t *line)
{
    const char *word = next_word(text), *why;

    if (*line != 0)
        return fault(text, name, "there is such a line already; keep one of them");
    if (!word)
        return fault(text, TOO_SHORT, needed);
    why = read_number(word, number);
    if (why)
        return fault(text, word, why);
    *line = text->line_number;
    return ends(text);
}

/* Takes the edition. One that there isn't is refused by the engine. */
static int take_edition(struct text *text, struct reading *reading)
{
    struct exercise *exercise = reading->exercise;
    size_t width;
    char why[100];

    if (!take_number(text, "edition", "write 1 where transactions name a seller, or else 0",
                     &exercise->edition, &reading->lines->edition))
        return 0;
    if (!is_edition(exercise->edition))
        return 1;
    width = WZ_TRANSACTION_NUMBERS(exercise->edition);
    keep_sellers(text, reading, width);
    if (exercise->transactions.width == width)
        return 1;
    snprintf(why, sizeof why, "%" PRId64 " %s, and line %zu names %s", exercise->edition,
             have_seller(&exercise->transactions) ? "has no sellers"
                                                  : "has a seller in each transaction",
             reading->sellers, have_seller(&exercise->transactions) ? "one" : "none");
    return fault(text, "edition", why);
}

static int take_line(struct text *text, void *into)
{
    struct reading *reading = into;
    const char *word = next_word(text);
    enum named named = named_by(word);
    enum market market;

    if (named < NAMED)
        return take_name(text, named, &reading->names);
    if (strcmp(word, "participants") == 0)
        return take_number(text, word, HOW_MANY, &reading->exercise->participants,
                           &reading->lines->participants);
    if (strcmp(word, "locations") == 0)
        return take_number(text, word, HOW_MANY, &reading->exercise->locations,
                           &reading->lines->locations);
    if (strcmp(word, "edition") == 0)
        return take_edition(text, reading);
    for (market = DAY_AHEAD; market < MARKETS; market++) {
        if (strcmp(word, market_word[market]) == 0)
            return take_thing(text, reading, market);
    }
    return wrong_word(text, word,
                      "no such line; one begins with participants, locations, edition, "
                      "participant, location, day-ahead or real-time");
}

/* ---- the whole */

/* Gives 0 where intervals have no prices, and has said which are the first of them. */
static int has_prices(const struct text *text, const struct lines *lines, enum price_list list)
{
    const size_t *intervals = lines->stretches + stretch_of(list, REAL_TIME, 0);
    char line[HEAD_LEN];
    size_t first = 0, after;

    if (lines->stretches[stretch_of(list, DAY_AHEAD, 0)] == 0) {
        write_head(line, DAY_AHEAD, prices_of(list), 0, 0);
        return missing(text, line, "write a price for each location");
    }
    while (first < WZ_INTERVALS && intervals[first] != 0)
        first++;
    if (first == WZ_INTERVALS)
        return 1;
    after = first + 1;
    while (after < WZ_INTERVALS && intervals[after] == 0)
        after++;
    write_head(line, REAL_TIME, prices_of(list), (int64_t)first, (int64_t)after - 1);
    return missing(text, line, "write a price for each location");
}

/* Gives 0 where there is a name for one that isn't there, and has said so. */
static int has_all_named(struct text *text, const struct names *names, enum named named,
                         int64_t count)
{
    char why[80];
    int64_t i;

    for (i = count; i >= 1 && i < MOST_NAMED; i++) {
        if (names->line[named][i] == 0)
            continue;
        text->line_number = names->line[named][i];
        snprintf(why, sizeof why, "it names %s %" PRId64 ", and there %s %" PRId64 ", from 0",
                 named_word[named], i, count == 1 ? "is" : "are", count);
        return fault(text, names->of[named][i], why);
    }
    return 1;
}

static int is_whole(struct text *text, const struct reading *reading)
{
    const struct exercise *exercise = reading->exercise;
    const struct lines *lines = reading->lines;

    if (lines->participants == 0)
        return missing(text, "participants", HOW_MANY);
    if (lines->locations == 0)
        return missing(text, "locations", HOW_MANY);
    return has_prices(text, lines, CONGESTION_PRICES) && has_prices(text, lines, LOSS_PRICES) &&
           has_all_named(text, &reading->names, PARTICIPANT, exercise->participants) &&
           has_all_named(text, &reading->names, LOCATION, exercise->locations);
}

int take_exercise_text(const char *name, const uint8_t *bytes, size_t len,
                       struct exercise *exercise, struct lines *lines, struct names *names)
{
    struct reading reading = {.exercise = exercise, .lines = lines, .other = names};
    struct text text = {.name = name, .bytes = bytes, .len = len};

    memset(exercise, 0, sizeof *exercise);
    memset(lines, 0, sizeof *lines);
    exercise->rows.width = WZ_ROW_NUMBERS;
    find_names(name, bytes, len, &reading.all);
    if (!take_text(&text, take_line, &reading) || !is_whole(&text, &reading))
        return 0;
    add_names(&reading.names, names);
    *names = reading.names;
    return 1;
}
