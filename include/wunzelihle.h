/*
 * wunzelihle.h: the C interface of Wunzelihle, an engine that settles one hour
 * of a practice power market: charges for congestion and losses, loss credits.
 *
 *   cc settle.c $(pkg-config --cflags --libs wunzelihle)            installed
 *   cc -Iinclude settle.c target/staticlib/libwunzelihle.a          in its tree
 *
 * It needs C99 or C++, the C library and nothing else. This file is the manual
 * of the boundary, and has all that a caller needs to know.
 *
 * A WHOLE PROGRAM
 *
 * settle.c prints what everybody in an exercise file pays, in cents, or where
 * the file is wrong. It reads one byte more than the longest file has, so that
 * a longer one is refused and not cut.
 *
 *     #include <inttypes.h>
 *     #include <stdio.h>
 *     #include "wunzelihle.h"
 *
 *     static void say_why(const uint8_t *file, size_t file_len)
 *     {
 *         uint8_t cause[WZ_NUMBER * WZ_CAUSE_NUMBERS];
 *         int64_t part, field;
 *
 *         wz_find_cause(file, file_len, cause, sizeof cause);
 *         part = wz_get(cause, WZ_CAUSE_PART);
 *         field = wz_get(cause, WZ_CAUSE_FIELD);
 *         printf("refused: %s\n",
 *                wz_sentence((uint32_t)wz_get(cause, WZ_CAUSE_REFUSAL)));
 *         printf("%s %" PRId64 ", %s: %" PRId64 ", which is not %" PRId64
 *                " to %" PRId64 "\n",
 *                wz_part_word(part), wz_get(cause, WZ_CAUSE_WHICH),
 *                wz_field_word(part, field), wz_get(cause, WZ_CAUSE_FOUND),
 *                wz_get(cause, WZ_CAUSE_LEAST), wz_get(cause, WZ_CAUSE_MOST));
 *     }
 *
 *     int main(int argc, char **argv)
 *     {
 *         static uint8_t file[WZ_LONGEST_FILE + 1];
 *         uint8_t congestion[WZ_NUMBER * WZ_MOST_PARTICIPANTS];
 *         uint8_t loss[sizeof congestion], credit[sizeof congestion];
 *         uint8_t net[sizeof congestion];
 *         FILE *stream = argc == 2 ? fopen(argv[1], "rb") : NULL;
 *         size_t file_len, len, i;
 *
 *         if (!stream) {
 *             fputs("usage: settle FILE\n", stderr);
 *             return 2;
 *         }
 *         file_len = fread(file, 1, sizeof file, stream);
 *         fclose(stream);
 *         len = WZ_NUMBER * wz_participants(file, file_len);
 *         if (wz_settle_hour(file, file_len, congestion, len, loss, len,
 *                            credit, len, net, len) != WZ_OK) {
 *             say_why(file, file_len);
 *             return 1;
 *         }
 *         for (i = 0; i < len / WZ_NUMBER; i++)
 *             printf("participant %zu: congestion %" PRId64 ", loss %" PRId64
 *                    ", credit %" PRId64 ", net %" PRId64 "\n", i,
 *                    wz_get(congestion, i), wz_get(loss, i),
 *                    wz_get(credit, i), wz_get(net, i));
 *         return 0;
 *     }
 *
 * NUMBERS AND LISTS
 *
 * A single number crosses as an int64_t. A list of numbers crosses as bytes,
 * eight for each number, two's complement, lowest byte first, whatever the
 * byte order of the machine. A list is a pointer and its length, and the
 * length is in bytes: 3 numbers are 24 bytes. The bytes need no alignment.
 * wz_get reads a number of a list, and wz_put writes one; wz_get_all and
 * wz_put_all do so with an array of int64_t.
 *
 * A list of length 0 may have any pointer, NULL included; otherwise the
 * pointer is to at least so many bytes. The lists of one call must not
 * overlap. Lists that are const are only read, and nothing outside the lengths
 * given is touched.
 *
 * ANSWERS
 *
 * Every call but two returns WZ_OK and has then written its whole result, or
 * returns one of the refusals below. A refused call changes nothing that it was
 * lent: every list holds what it held before. Every call takes any numbers, any
 * lengths and any bytes, and ends. Where there are several reasons to refuse,
 * the answer is the first in the order that stands with the call. wz_sentence
 * has the words of a refusal. The two are wz_version and wz_participants, which
 * answer a number and refuse nothing.
 *
 * OWNERSHIP, STATE AND THREADS
 *
 * All lists are the caller's, before a call and after it: a call keeps no
 * pointer and no state, and allocates nothing. Calls may run on any thread, and
 * at the same time on several, as long as no list written to by one is in use
 * by another.
 *
 * STACK
 *
 * A call takes at most the stack that stands with it, in KB of 1,024 bytes, its
 * arguments and the C library's memset and memcpy included; this is measured on
 * the archive for x86-64. Where these two are bound lazily, the first call that
 * uses them takes some 3 KB more, for the dynamic linker: link with -z now, or
 * leave room. The archive has no unwind tables, so that a backtrace ends at a
 * call of it.
 */
#ifndef WUNZELIHLE_H
#define WUNZELIHLE_H

#include <stddef.h>
#include <stdint.h>

#ifdef __cplusplus
extern "C" {
#endif

/*
 * The version that this header is of: major, minor and patch, as a number of
 * two digits each, 10000 times major plus 100 times minor plus patch, and as
 * text. The archive's is wz_version(). A program runs with any archive of the
 * same major version that isn't older than its header: where
 * WZ_RUNS_WITH(wz_version()) is 1.
 */
#define WZ_VERSION      20000u
#define WZ_VERSION_TEXT "2.0.0"
#define WZ_RUNS_WITH(version) \
    ((version) / 10000u == WZ_VERSION / 10000u && (version) >= WZ_VERSION)

/*
 * Sizes and limits: each is the most (or the least) that is accepted.
 */
#define WZ_NUMBER              8          /* bytes of a number in a list */

#define WZ_MOST_PARTIES        64         /* shares of a split */
#define WZ_MOST_SHARE          4000000000 /* one of them; the least is 0. In kW
                                             for the participants of an hour */
#define WZ_MOST_AMOUNT         1000000000 /* to be split, and as much below 0.
                                             In cents for an hour's surplus */

#define WZ_MOST_KW             20000000   /* of a load, a meter, a generator, a
                                             contract, a row, a transaction */
#define WZ_MOST_PARTICIPANTS   64         /* of an hour; a load assignment has
                                             always so many */

#define WZ_MOST_BUSES          64         /* of a load assignment */
#define WZ_MOST_METERS         64         /* tie meters */
#define WZ_MOST_GENERATORS     64
#define WZ_MOST_AREAS          16
#define WZ_WHOLE_AREA          1000000    /* what an area's parts total */
#define WZ_MOST_CONTRACTS      256
#define WZ_CONTRACT_NUMBERS    3          /* numbers of a contract in a list */
#define WZ_MOST_TRANCHES       10000      /* of one participant */

#define WZ_MOST_LOCATIONS      64         /* of an hour */
#define WZ_MOST_ROWS           2048
#define WZ_MOST_TRANSACTIONS   256
#define WZ_INTERVALS           12         /* of an hour in real time */
#define WZ_MOST_PRICE          5000000    /* mills per MWh; as much below 0 */
#define WZ_LOCATION_PRICES     26         /* prices of each location */
#define WZ_ROW_NUMBERS         6          /* numbers of a row in a list */
#define WZ_SHORTEST_FILE       83         /* bytes of an exercise file */
#define WZ_LONGEST_FILE        19077
#define WZ_COUNT_NUMBERS       5          /* numbers that wz_counts writes */
#define WZ_CAUSE_NUMBERS       7          /* numbers of a cause */

/*
 * The editions of an hour and its file. A transaction of edition 0 is a path
 * alone. One of edition 1 is also a sale: it names the seller, the buyer injects
 * at the sink and the seller withdraws at the source.
 */
#define WZ_EDITION_PATH_ONLY   0
#define WZ_EDITION_WITH_SELLER 1
#define WZ_LAST_EDITION        1

/*
 * How many numbers a transaction of an edition has in a list, and the most;
 * and how many bytes the file of so many locations, rows and transactions of an
 * edition has.
 */
#define WZ_TRANSACTION_NUMBERS(edition) \
    ((edition) == WZ_EDITION_WITH_SELLER ? 7 : 6)
#define WZ_MOST_TRANSACTION_NUMBERS 7
#define WZ_FILE_BYTES(locations, rows, transactions, edition) \
    (5 + 78 * (size_t)(locations) + 6 * (size_t)(rows) +                     \
     (size_t)WZ_TRANSACTION_NUMBERS(edition) * (size_t)(transactions))

/*
 * The markets, and the kinds of a row.
 */
#define WZ_DAY_AHEAD            0
#define WZ_REAL_TIME            1
#define WZ_KIND_LOAD            0
#define WZ_KIND_GENERATION      1
#define WZ_KIND_EXPORT          2
#define WZ_KIND_IMPORT          3
#define WZ_KIND_DECREMENT_BID   4 /* day-ahead only */
#define WZ_KIND_INCREMENT_OFFER 5 /* day-ahead only */

/*
 * The numbers of a row and of a transaction, by their places in a list; a list
 * of edition 1 has the seller after the participant, so that its transactions
 * have places of their own, WZ_SALE. The counts of a header, in the file's
 * order. A cause tells of a transaction of either edition by the same numbers,
 * those of WZ_TRANSACTION, where seller and spare bits come last.
 */
#define WZ_ROW_MARKET      0
#define WZ_ROW_KIND        1
#define WZ_ROW_INTERVAL    2
#define WZ_ROW_PARTICIPANT 3
#define WZ_ROW_LOCATION    4
#define WZ_ROW_KW          5
#define WZ_ROW_SPARE       6 /* of a cause alone */

#define WZ_TRANSACTION_MARKET      0
#define WZ_TRANSACTION_INTERVAL    1
#define WZ_TRANSACTION_PARTICIPANT 2
#define WZ_TRANSACTION_SOURCE      3
#define WZ_TRANSACTION_SINK        4
#define WZ_TRANSACTION_KW          5
#define WZ_TRANSACTION_SELLER      6 /* of a cause alone */
#define WZ_TRANSACTION_SPARE       7 /* of a cause alone */

#define WZ_SALE_MARKET      0
#define WZ_SALE_INTERVAL    1
#define WZ_SALE_PARTICIPANT 2
#define WZ_SALE_SELLER      3
#define WZ_SALE_SOURCE      4
#define WZ_SALE_SINK        5
#define WZ_SALE_KW          6

#define WZ_HEADER_PARTICIPANTS 0
#define WZ_HEADER_LOCATIONS    1
#define WZ_HEADER_ROWS         2
#define WZ_HEADER_TRANSACTIONS 3
#define WZ_HEADER_EDITION      4

/*
 * The numbers of a cause, by their places; wz_find_cause has what they are.
 */
#define WZ_CAUSE_REFUSAL 0
#define WZ_CAUSE_PART    1
#define WZ_CAUSE_WHICH   2
#define WZ_CAUSE_FIELD   3
#define WZ_CAUSE_FOUND   4
#define WZ_CAUSE_LEAST   5
#define WZ_CAUSE_MOST    6

/*
 * The parts that a cause tells of.
 */
#define WZ_PART_FILE        1
#define WZ_PART_HEADER      2
#define WZ_PART_PRICE       3
#define WZ_PART_ROW         4
#define WZ_PART_TRANSACTION 5
#define WZ_PART_SURPLUS     6
#define WZ_PART_SHARE       7
#define WZ_PART_LIST        8

/*
 * The answers. Each call says which of them it gives, and in which order it
 * looks for them.
 */
#define WZ_OK            0u /* done, the result is written */
#define WZ_LENGTH        1u /* a count is beyond its size, or a list has the
                               wrong length (also one that is no multiple of
                               eight bytes), or there is no room for a file */
#define WZ_RANGE         2u /* a number is outside its range */
#define WZ_IDENTITY      3u /* an identity names no participant, location or
                               area */
#define WZ_KIND          4u /* kind, market and interval don't fit together,
                               or one of them doesn't exist */
#define WZ_AREA_PARTS    5u /* an area's parts don't total 1,000,000 */
#define WZ_METERED_LOAD  6u /* metered load is below 0 or above 20,000,000 */
#define WZ_NO_SHARES     7u /* shares total 0 and the amount isn't 0 */
#define WZ_CONTRACTS     8u /* contracts at a bus exceed its load */
#define WZ_FILE          9u /* file of the wrong length or of an unknown
                               edition, or a spare bit set */
#define WZ_SURPLUS      10u /* surplus beyond 1,000,000,000 cents in size, or a
                               participant's share above 4,000,000,000 */

/*
 * wz_sentence: the words of a refusal, for people: those of document 01's
 * table, and of 9 also the edition. WZ_OK is "done", and a number that is no refusal "unknown refusal";
 * it is never NULL, and it is constant.
 *
 *   wz_sentence(WZ_CONTRACTS) is "contracts at a bus exceed its load".
 */
static inline const char *wz_sentence(uint32_t refusal)
{
    switch (refusal) {
    case WZ_OK:
        return "done";
    case WZ_LENGTH:
        return "a count is beyond its size, or a list has the wrong length";
    case WZ_RANGE:
        return "a number is outside its range";
    case WZ_IDENTITY:
        return "an identity names no participant, location or area";
    case WZ_KIND:
        return "kind, market and interval don't fit together, or one of them "
               "doesn't exist";
    case WZ_AREA_PARTS:
        return "an area's parts don't total 1,000,000";
    case WZ_METERED_LOAD:
        return "metered load is below 0 or above 20,000,000";
    case WZ_NO_SHARES:
        return "shares total 0 and the amount isn't 0";
    case WZ_CONTRACTS:
        return "contracts at a bus exceed its load";
    case WZ_FILE:
        return "file of the wrong length or of an unknown edition, or a spare "
               "bit set";
    case WZ_SURPLUS:
        return "surplus beyond 1,000,000,000 cents in size, or a participant's "
               "share above 4,000,000,000";
    default:
        return "unknown refusal";
    }
}

/*
 * wz_get: number i of a list, counted from 0. The list has at least 8 times
 * i + 1 bytes; this isn't tested.
 *
 *   Of the bytes fc ff ff ff ff ff ff ff number 0 is -4.
 */
static inline int64_t wz_get(const uint8_t *list, size_t i)
{
    uint64_t bits = 0;
    size_t k;

    for (k = WZ_NUMBER; k-- > 0;)
        bits = bits << 8 | list[WZ_NUMBER * i + k];
    /* A number below 0 by arithmetic: a cast of it would be the compiler's
       choice. */
    return bits >> 63 ? -1 - (int64_t)~bits : (int64_t)bits;
}

/*
 * wz_put: makes number i of a list, counted from 0, the number given. The list
 * has at least 8 times i + 1 bytes; this isn't tested.
 *
 *   uint8_t shares[3 * WZ_NUMBER];
 *   wz_put(shares, 2, 50); makes the last of three shares 50.
 */
static inline void wz_put(uint8_t *list, size_t i, int64_t number)
{
    uint64_t bits = (uint64_t)number;
    size_t k;

    for (k = 0; k < WZ_NUMBER; k++)
        list[WZ_NUMBER * i + k] = (uint8_t)(bits >> 8 * k & 0xff);
}

/*
 * wz_get_all, wz_put_all: the first `count` numbers of a list, to an array and
 * from one.
 */
static inline void wz_get_all(const uint8_t *list, int64_t *numbers,
                              size_t count)
{
    size_t i;

    for (i = 0; i < count; i++)
        numbers[i] = wz_get(list, i);
}

static inline void wz_put_all(uint8_t *list, const int64_t *numbers,
                              size_t count)
{
    size_t i;

    for (i = 0; i < count; i++)
        wz_put(list, i, numbers[i]);
}

/*
 * wz_part_word, wz_field_word: the words of a cause's part, and of its field in
 * that part, for people. "" where there is none; never NULL.
 *
 *   wz_field_word(WZ_PART_ROW, WZ_ROW_KW) is "kW".
 */
static inline const char *wz_part_word(int64_t part)
{
    static const char *const words[] = {
        "",            "file",    "header", "price", "row",
        "transaction", "surplus", "share",  "list"};

    return part >= 0 && part <= WZ_PART_LIST ? words[part] : "";
}

static inline const char *wz_field_word(int64_t part, int64_t field)
{
    static const char *const words[][8] = {
        {"", "", "", "", "", "", "", ""},
        {"length in bytes", "", "", "", "", "", "", ""},
        {"participants", "locations", "rows", "transactions", "edition", "", "",
         ""},
        {"mills per MWh", "", "", "", "", "", "", ""},
        {"market", "kind", "interval", "participant", "location", "kW",
         "spare bits", ""},
        {"market", "interval", "participant", "source", "sink", "kW", "seller",
         "spare bits"},
        {"cents", "", "", "", "", "", "", ""},
        {"kW", "", "", "", "", "", "", ""},
        {"length of prices in bytes", "length of rows in bytes",
         "length of transactions in bytes", "", "", "", "", ""}};

    if (part < 0 || part > WZ_PART_LIST || field < 0 || field > 7)
        return "";
    return words[part][field];
}

/*
 * wz_version: the version of the archive that is linked, as WZ_VERSION has that
 * of the header. It refuses nothing.
 *
 *   10203 is 1.2.3.
 *
 * Stack: at most 1 KB.
 */
uint32_t wz_version(void);

/*
 * wz_split: split an amount over parties by their shares.
 *
 *   amount  what is split, in whole units of any kind (kW, cents):
 *           -1,000,000,000 to 1,000,000,000
 *   shares  a number for each party, 0 to 4,000,000,000; 1 to 64 parties, so
 *           shares_len is 8 to 512
 *   parts   written: a number for each party in the same order, in the units
 *           of the amount; parts_len equals shares_len
 *
 * The split works on the amount's size. Each party gets size times share
 * divided by the total of shares, cut down; the units left go one each to the
 * parties with the largest remainders, the earlier one first where remainders
 * are equal; then the sign is put back. So the parts add up to the amount, a
 * zero share gets zero, and of two parties the larger share never gets the
 * smaller size. Where the shares total 0 and the amount is 0, every part is 0.
 *
 *   10 over 1, 1, 1 gives 4, 3, 3        -10 over 1, 1, 1 gives -4, -3, -3
 *   100 over 1, 2, 3 gives 17, 33, 50    5 over 0, 1 gives 0, 5
 *
 * Refusals, in their order:
 *
 *   WZ_LENGTH     shares_len or parts_len is no multiple of eight; there are
 *                 no shares or more than 64; or parts is shorter or longer
 *                 than shares
 *   WZ_RANGE      the amount is outside its range
 *   WZ_RANGE      a share is outside its range
 *   WZ_NO_SHARES  the shares total 0 and the amount isn't 0
 *
 * Stack: at most 2 KB.
 */
uint32_t wz_split(int64_t amount,
                  const uint8_t *shares, size_t shares_len,
                  uint8_t *parts, size_t parts_len);

/*
 * wz_assign_load: assign one distributor's load, bus by bus, to those who
 * supply it.
 *
 *   metered      1 where the distributor is metered, else 0
 *   distributor  the participant that it is, 0 to 63
 *   loads        a number for each bus: its State Estimator load in kW, 0 to
 *                20,000,000; 1 to 64 buses, so loads_len is 8 to 512
 *   imports      a number for each tie meter: its net import in kW,
 *                -20,000,000 to 20,000,000; 0 to 64 meters
 *   generation   a number for each generator: its kW, 0 to 20,000,000; 0 to 64
 *                generators
 *   areas        how many areas there are, 0 to 16
 *   area_parts   area by area, a number for each bus: its part of the area in
 *                millionths, 0 to 1,000,000, an area's totalling 1,000,000;
 *                areas times buses numbers
 *   contracts    three numbers for each contract: supplier (a participant, 0
 *                to 63), area (counted from 0) and kW (0 to 20,000,000); 0 to
 *                256 contracts, so contracts_len is a multiple of 24 up to
 *                6,144
 *   tranches     a number for each participant: tranches won, 0 to 10,000; 64
 *                numbers, so tranches_len is 512
 *   out          written: kW of each participant at each bus, participant by
 *                participant: number p times buses plus b is participant p's
 *                at bus b; 64 times buses numbers
 *
 * What a metered distributor has is the sum of its imports and generation,
 * split over the buses by their loads; for another the loads stand as they
 * are. Each contract is split over the buses by its area's parts, by itself,
 * and its kW there go to the supplier. What then remains at a bus is split
 * over the participants by tranches won; where there is no tranche at all it
 * stays with the distributor, who may hold contracts and tranches like others.
 * Every split is that of wz_split. So at each bus the kW of all participants
 * add up to what the distributor has there.
 *
 *   Metered, loads 100, 200, 300, imports 500, -40, generation 200: the buses
 *   have 110, 220, 330. A contract of 10 kW in an area of 500,000, 333,333,
 *   166,667 takes 5, 3, 2 of it; of the rest 3 tranches and 1 tranche take
 *   79, 163, 246 and 26, 54, 82.
 *
 * Refusals, in their order:
 *
 *   WZ_LENGTH        the length of a list is no multiple of eight; there are
 *                    no buses or more than 64, more than 64 tie meters, more
 *                    than 64 generators; areas is outside its range; there
 *                    are more than 256 contracts, or one of less than three
 *                    numbers; or area_parts, tranches or out is shorter or
 *                    longer than said above
 *   WZ_RANGE         metered is neither 0 nor 1
 *   WZ_RANGE         a number is outside its range, of loads, imports,
 *                    generation, area_parts, the kW of contracts or tranches
 *   WZ_IDENTITY      distributor is no participant
 *   WZ_IDENTITY      a contract's supplier is no participant, or its area is
 *                    none of those given
 *   WZ_AREA_PARTS    an area's parts don't total 1,000,000, whether a contract
 *                    names it or not
 *   WZ_METERED_LOAD  a metered distributor's imports and generation add up to
 *                    less than 0 or more than 20,000,000
 *   WZ_NO_SHARES     a metered distributor's imports and generation don't add
 *                    up to 0 and its loads do
 *   WZ_CONTRACTS     contracts have more kW at a bus than the distributor
 *
 * Stack: at most 59 KB.
 */
uint32_t wz_assign_load(int64_t metered, int64_t distributor,
                        const uint8_t *loads, size_t loads_len,
                        const uint8_t *imports, size_t imports_len,
                        const uint8_t *generation, size_t generation_len,
                        int64_t areas,
                        const uint8_t *area_parts, size_t area_parts_len,
                        const uint8_t *contracts, size_t contracts_len,
                        const uint8_t *tranches, size_t tranches_len,
                        uint8_t *out, size_t out_len);

/*
 * wz_settle_hour: settle one market hour from an exercise file.
 *
 *   file        the file as its own bytes, laid out below; file_len is 83 to
 *               19,077
 *   congestion  written: each participant's congestion charge
 *   loss        written: each participant's loss charge
 *   credit      written: each participant's credit from the loss surplus
 *   net         written: each participant's two charges less its credit
 *
 * The four lists are in cents and have a number for each participant of the
 * file, 1 to 64 (wz_participants tells how many), so each length is 8 to 512. A
 * charge below 0 is paid out, and a credit below 0 is taken.
 *
 * The file is packed, the most significant bit first, without gaps:
 *
 *   header       40 bits: participants less 1 (6), locations less 1 (6), rows
 *                (12), transactions (10), edition (6); up to 64, 64, 2,048 and
 *                256 of them; edition 0 or 1
 *   prices       24 bits each, two's complement, in mills per MWh, -5,000,000
 *                to 5,000,000: congestion day-ahead for each location, then
 *                congestion real time interval by interval, then loss the same
 *                way
 *   row          48 bits: market (1), kind (3), interval (4), participant (6),
 *                location (6), kW (25), spare (3)
 *   transaction  of edition 0, 48 bits: market (1), interval (4), participant
 *                (6), source (6), sink (6), kW (25)
 *                of edition 1, 56 bits: market (1), interval (4), participant
 *                (6), seller (6), source (6), sink (6), kW (25), spare (2)
 *
 * Spare bits are 0, kW are 0 to 20,000,000. Market 0 is day-ahead, where the
 * interval is 0; market 1 is real time, intervals 0 to 11. Kinds 0 (load), 2
 * (export) and 4 (decrement bid) withdraw, kinds 1 (generation), 3 (import)
 * and 5 (increment offer) inject; 4 and 5 are day-ahead only.
 *
 * Day-ahead a participant pays, at each location, its withdrawals less its
 * injections, times the day-ahead price. In real time it pays, at each location
 * and in each of the 12 intervals, [(A - B) - (D - E)] times C, over 12, where
 * A, D are its real-time and B, E its day-ahead withdrawals and injections and
 * C is the interval's price; the day-ahead kW stand in every interval, also
 * where no real-time row does. A transaction costs its kW times the price at
 * its sink less the price at its source; in real time, in each interval and at
 * its prices over 12, only the excess over the participant's own day-ahead kW
 * of the same path counts, and a shortfall is paid back. Rows alike add up, and
 * so do transactions. Congestion and loss use the same rule with different
 * prices. A participant's exact total of either is rounded once, to the nearest
 * cent, halves away from zero.
 *
 * In edition 1 a transaction is also a sale: besides its path, which the
 * participant (the buyer) pays, its kW are an injection of the participant at
 * the sink and a withdrawal of the seller at the source, in its own market and
 * interval; those of a day-ahead one stand in every interval, as B and E do.
 * Buyer and seller may be the same, and so may source and sink. To the exact
 * total of all participants such a transaction adds nothing.
 *
 * The surplus is the sum of all rounded loss charges. It is split, as wz_split
 * does, over the participants by the kW of their real-time load and exports
 * (rows of kinds 0 and 2), added up over the rows; a sale counts as neither. So
 * loss charges and credits total the same cents.
 *
 *   Document 01's exercise, of 2 participants, 2 locations and 3 rows, gives
 *   congestion 0, 0; loss 1000, 390; credit 927, 463; net 73, -73.
 *
 * Refusals, in their order; wz_find_cause tells which number of the file it is:
 *
 *   WZ_FILE       the file has less than 5 bytes
 *   WZ_FILE       its edition is neither 0 nor 1
 *   WZ_LENGTH     the header tells of more than 2,048 rows or 256 transactions
 *   WZ_FILE       the file is shorter or longer than its header tells
 *   WZ_LENGTH     congestion, loss, credit or net hasn't eight bytes for each
 *                 participant
 *   WZ_RANGE      a price is outside its range
 *
 *   then of each row in turn
 *   WZ_KIND       its kind is 6 or 7, or is 4 or 5 in real time; or its
 *                 interval isn't 0 day-ahead, or is above 11 in real time
 *   WZ_IDENTITY   its participant or location is none of the file's
 *   WZ_RANGE      its kW are above 20,000,000
 *   WZ_FILE       a spare bit of it is set
 *
 *   then of each transaction in turn
 *   WZ_KIND       its interval isn't 0 day-ahead, or is above 11 in real time
 *   WZ_IDENTITY   its participant, its seller (edition 1), its source or its
 *                 sink is none of the file's
 *   WZ_RANGE      its kW are above 20,000,000
 *   WZ_FILE       a spare bit of it is set (edition 1)
 *
 *   WZ_SURPLUS    the surplus is below -1,000,000,000 or above 1,000,000,000
 *                 cents; or a participant's real-time load and exports add up
 *                 to more than 4,000,000,000 kW, whatever the surplus
 *   WZ_NO_SHARES  the surplus isn't 0, and everybody's real-time load and
 *                 exports add up to 0
 *
 * Stack: at most 10 KB.
 */
uint32_t wz_settle_hour(const uint8_t *file, size_t file_len,
                        uint8_t *congestion, size_t congestion_len,
                        uint8_t *loss, size_t loss_len,
                        uint8_t *credit, size_t credit_len,
                        uint8_t *net, size_t net_len);

/*
 * wz_write_file: write the exercise file of an hour that is given in numbers.
 *
 *   participants, locations, rows, transactions
 *                     how many there are: 1 to 64, 1 to 64, 0 to 2,048 and 0
 *                     to 256. These are counts; the "less 1" of the file's
 *                     header is the call's business
 *   edition           0 or 1, whether there are transactions or not
 *   prices            26 numbers for each location, in mills per MWh,
 *                     -5,000,000 to 5,000,000, in the file's order: a stretch
 *                     of one price for each location, 26 times. Number
 *                     k times locations plus l is the price of location l:
 *                     with k = 0 congestion day-ahead, 1 to 12 congestion in
 *                     intervals 0 to 11, 13 loss day-ahead, 14 to 25 loss in
 *                     intervals 0 to 11; prices_len is 208 times locations
 *   row_list          six numbers for each row: market, kind, interval,
 *                     participant, location, kW; row_list_len is 48 times rows
 *   transaction_list  of edition 0 six numbers for each transaction: market,
 *                     interval, participant, source, sink, kW; of edition 1
 *                     seven: market, interval, participant, seller, source,
 *                     sink, kW; transaction_list_len is 48, or 56, times
 *                     transactions
 *   file              written: the file, from its first byte on. It has
 *                     WZ_FILE_BYTES(locations, rows, transactions, edition)
 *                     bytes, 19,077 at most, and file_len is at least that.
 *                     Bytes beyond the file stay as they are
 *
 * Participants and locations are counted from 0 in rows and transactions. The
 * layout of the file, and what markets, kinds and intervals are, stands with
 * wz_settle_hour. The file passes every test of wz_settle_hour up to the last
 * transaction; its surplus and shares may still be beyond their limits. Hand it
 * on with its own length, not with that of a longer buffer. wz_read_file gives
 * the three lists back, each number as it was.
 *
 *   2 participants, 1 location, prices all 0, no transactions, edition 0, and
 *   one row, 1, 0, 11, 1, 0, 600 (real-time load of participant 1 in interval
 *   11), give the 89 bytes 04 00 01 00 00, 78 times 00, 8b 04 00 00 12 c0.
 *   Of edition 1 with one transaction besides, 0, 0, 1, 0, 0, 0, 600
 *   (participant 1 buys 600 kW from participant 0, day-ahead), the 96 bytes
 *   04 00 01 00 41, 78 times 00, 8b 04 00 00 12 c0, 00 20 00 00 00 09 60.
 *
 * Refusals, in their order; wz_find_list_cause tells which number it is:
 *
 *   WZ_FILE       edition is neither 0 nor 1
 *   WZ_LENGTH     participants, locations, rows or transactions is outside its
 *                 range
 *   WZ_LENGTH     prices_len, row_list_len or transaction_list_len isn't what
 *                 stands above
 *   WZ_RANGE      a price is outside its range
 *
 *   then of each row in turn
 *   WZ_KIND       its market is neither 0 nor 1; its kind isn't 0 to 5, or is 4
 *                 or 5 in real time; or its interval isn't 0 day-ahead, or 0 to
 *                 11 in real time
 *   WZ_IDENTITY   its participant or location is none of the hour's
 *   WZ_RANGE      its kW are outside 0 to 20,000,000
 *
 *   then of each transaction in turn
 *   WZ_KIND       its market is neither 0 nor 1; or its interval isn't 0
 *                 day-ahead, or 0 to 11 in real time
 *   WZ_IDENTITY   its participant, its seller (edition 1), its source or its
 *                 sink is none of the hour's
 *   WZ_RANGE      its kW are outside 0 to 20,000,000
 *
 *   WZ_LENGTH     file_len is less than the file's bytes
 *
 * Stack: at most 1 KB.
 */
uint32_t wz_write_file(int64_t participants, int64_t locations, int64_t rows,
                       int64_t transactions, int64_t edition,
                       const uint8_t *prices, size_t prices_len,
                       const uint8_t *row_list, size_t row_list_len,
                       const uint8_t *transaction_list,
                       size_t transaction_list_len,
                       uint8_t *file, size_t file_len);

/*
 * wz_read_file: read an exercise file as lists of numbers, those that
 * wz_write_file would write it from.
 *
 *   file              the file as its own bytes; file_len is 83 to 19,077
 *   prices            written: 26 numbers for each location
 *   row_list          written: six numbers for each row
 *   transaction_list  written: six numbers for each transaction, of edition 1
 *                     seven
 *
 * The lists are those of wz_write_file, and as long. wz_counts gives how many
 * there are of each, and the edition. Together with these the lists make
 * wz_write_file write the same bytes again. What the hour comes to is not
 * worked out: a file whose surplus or shares are beyond their limits is read as
 * well.
 *
 * Refusals: those of wz_settle_hour in their order, to the last transaction;
 * in the place of the output lists
 *
 *   WZ_LENGTH     prices_len isn't 208 for each location, row_list_len 48 for
 *                 each row, or transaction_list_len 48 (of edition 1 56) for
 *                 each transaction
 *
 * Stack: at most 1 KB.
 */
uint32_t wz_read_file(const uint8_t *file, size_t file_len,
                      uint8_t *prices, size_t prices_len,
                      uint8_t *row_list, size_t row_list_len,
                      uint8_t *transaction_list, size_t transaction_list_len);

/*
 * wz_participants: how many participants an exercise file has, 1 to 64: so many
 * numbers has each list that wz_settle_hour writes. Of a file of less than 5
 * bytes the answer is 0.
 *
 *   file  the file as its own bytes, of any length; only its first six bits are
 *         looked at, the participants less 1
 *
 * It refuses nothing. What is wrong with the file wz_settle_hour says, given
 * lists of that length.
 *
 *   A file that begins with 04 10 03 00 00 has 2.
 *
 * Stack: at most 1 KB.
 */
uint32_t wz_participants(const uint8_t *file, size_t file_len);

/*
 * wz_counts: the counts of an exercise file, and its edition.
 *
 *   file    the file as its own bytes; an accepted one has 83 to 19,077
 *   counts  written: participants, locations, rows, transactions, edition; five
 *           numbers, so counts_len is 40
 *
 * They give the lengths of wz_read_file's lists: 26 numbers for each location,
 * six for each row and WZ_TRANSACTION_NUMBERS(edition) for each transaction.
 * Prices, rows and transactions aren't looked at.
 *
 *   Document 01's exercise has 2, 2, 3, 0, 0.
 *
 * Refusals, in their order:
 *
 *   WZ_FILE       the file has less than 5 bytes
 *   WZ_FILE       its edition is neither 0 nor 1
 *   WZ_LENGTH     the header tells of more than 2,048 rows or 256 transactions
 *   WZ_FILE       the file is shorter or longer than its header tells
 *   WZ_LENGTH     counts_len isn't 40
 *
 * Stack: at most 1 KB.
 */
uint32_t wz_counts(const uint8_t *file, size_t file_len,
                   uint8_t *counts, size_t counts_len);

/*
 * wz_find_cause: where an exercise file is wrong, and what may stand there: the
 * first number of it, or of what it comes to, that is outside its range.
 *
 *   file   the file as its own bytes, of any length
 *   cause  written: seven numbers, so cause_len is 56
 *
 * The seven numbers, by their places:
 *
 *   WZ_CAUSE_REFUSAL  the refusal that the file gets from wz_settle_hour, its
 *                     lists as long as they have to be; WZ_OK where the file is
 *                     accepted, and then all seven are 0
 *   WZ_CAUSE_PART     what is wrong, a WZ_PART of the table below
 *   WZ_CAUSE_WHICH    which one, counted from 0, of the prices in the file's
 *                     order, of the rows or of the transactions; of shares the
 *                     participant; else 0
 *   WZ_CAUSE_FIELD    which number of it, as the table below has them
 *   WZ_CAUSE_FOUND    the number that stands there
 *   WZ_CAUSE_LEAST    the least that may stand there
 *   WZ_CAUSE_MOST     the most that may stand there
 *
 * The tests are those of wz_settle_hour in their order, output lists aside. Of
 * each the part, the field, the least and the most, and the refusal:
 *
 *   WZ_PART_FILE    0  the length in bytes, under 5: 83 to 19077   WZ_FILE
 *   WZ_PART_HEADER  4  edition: 0 to 1                             WZ_FILE
 *                   2  rows: 0 to 2048                             WZ_LENGTH
 *                   3  transactions: 0 to 256                      WZ_LENGTH
 *   WZ_PART_FILE    0  the length in bytes: that which the header  WZ_FILE
 *                      tells, as the least and as the most
 *   WZ_PART_PRICE   0  the price: -5000000 to 5000000              WZ_RANGE
 *
 *   then of each row in turn
 *   WZ_PART_ROW     1  kind: 0 to 5 day-ahead, 0 to 3 in real time WZ_KIND
 *                   2  interval: 0 to 0 day-ahead, 0 to 11 in real WZ_KIND
 *                      time
 *                   3  participant: 0 to participants less 1       WZ_IDENTITY
 *                   4  location: 0 to locations less 1             WZ_IDENTITY
 *                   5  kW: 0 to 20000000                           WZ_RANGE
 *                   6  the spare bits as a number: 0 to 0          WZ_FILE
 *
 *   then of each transaction in turn
 *   WZ_PART_TRANSACTION
 *                   1  interval, as of a row                       WZ_KIND
 *                   2  participant, as of a row                    WZ_IDENTITY
 *                   6  seller, in edition 1: 0 to participants     WZ_IDENTITY
 *                      less 1
 *                   3  source: 0 to locations less 1               WZ_IDENTITY
 *                   4  sink: 0 to locations less 1                 WZ_IDENTITY
 *                   5  kW: 0 to 20000000                           WZ_RANGE
 *                   7  the spare bits as a number, in edition 1: 0 WZ_FILE
 *                      to 0
 *
 *   WZ_PART_SURPLUS 0  cents: -1000000000 to 1000000000            WZ_SURPLUS
 *   WZ_PART_SHARE   0  each participant's real-time load and       WZ_SURPLUS
 *                      exports in kW: 0 to 4000000000
 *   WZ_PART_SURPLUS 0  cents, where all shares are 0: 0 to 0       WZ_NO_SHARES
 *
 * Fields 0 and 1 of the header, and field 0 of a row or a transaction, its
 * market, are always right in a file. Where the file has L locations, price n
 * is that of location n % L, in stretch n / L: 0 is congestion day-ahead, 1 to
 * 12 congestion in intervals 0 to 11, 13 loss day-ahead, 14 to 25 loss in
 * intervals 0 to 11.
 *
 *   Document 01's exercise with 3 as the location of its last row gives
 *   WZ_IDENTITY, WZ_PART_ROW, 2, 4, 3, 0, 1: of row 2 the location is 3, and 0
 *   to 1 may stand there.
 *
 * Refusals: it takes every file, and refuses one thing:
 *
 *   WZ_LENGTH     cause_len isn't 56
 *
 * Stack: at most 9 KB.
 */
uint32_t wz_find_cause(const uint8_t *file, size_t file_len,
                       uint8_t *cause, size_t cause_len);

/*
 * wz_find_list_cause: where an hour that is given in numbers is wrong: the
 * first number of it that keeps wz_write_file from writing it.
 *
 *   participants, locations, rows, transactions, edition, prices, row_list,
 *   transaction_list  those of wz_write_file, of any numbers and lengths
 *   cause             written: seven numbers, so cause_len is 56
 *
 * The seven numbers are those of wz_find_cause, the refusal being what
 * wz_write_file answers where its buffer is long enough. The tests are those of
 * wz_write_file in their order:
 *
 *   WZ_PART_HEADER  4  edition: 0 to 1                             WZ_FILE
 *                   0  participants: 1 to 64                       WZ_LENGTH
 *                   1  locations: 1 to 64                          WZ_LENGTH
 *                   2  rows: 0 to 2048                             WZ_LENGTH
 *                   3  transactions: 0 to 256                      WZ_LENGTH
 *   WZ_PART_LIST    0  prices_len, with the length that it has to  WZ_LENGTH
 *                      have as the least and as the most
 *                   1  row_list_len, likewise                      WZ_LENGTH
 *                   2  transaction_list_len, likewise              WZ_LENGTH
 *   WZ_PART_PRICE   0  the price: -5000000 to 5000000              WZ_RANGE
 *
 *   then of each row in turn
 *   WZ_PART_ROW     0  market: 0 to 1                              WZ_KIND
 *                   1 to 5  as wz_find_cause has them
 *
 *   then of each transaction in turn
 *   WZ_PART_TRANSACTION
 *                   0  market: 0 to 1                              WZ_KIND
 *                   1 to 6  as wz_find_cause has them
 *
 * A number below 0 is told as it is, and a length that no int64_t holds as a
 * number below 0. Where wz_write_file refuses for its buffer alone, there is no
 * cause: all seven are 0. What the hour comes to is not worked out: its surplus
 * and shares may still be beyond their limits.
 *
 *   The hour of wz_write_file's example with interval 12 in place of 11 gives
 *   WZ_KIND, WZ_PART_ROW, 0, 2, 12, 0, 11.
 *
 * Refusals: it takes every hour, and refuses one thing:
 *
 *   WZ_LENGTH     cause_len isn't 56
 *
 * Stack: at most 2 KB.
 */
uint32_t wz_find_list_cause(int64_t participants, int64_t locations,
                            int64_t rows, int64_t transactions,
                            int64_t edition,
                            const uint8_t *prices, size_t prices_len,
                            const uint8_t *row_list, size_t row_list_len,
                            const uint8_t *transaction_list,
                            size_t transaction_list_len,
                            uint8_t *cause, size_t cause_len);

#ifdef __cplusplus
}
#endif

#endif
