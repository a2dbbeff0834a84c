/*
 * How inputs of the hour change. Bytes changed at random would nearly all get
 * refusal 9, so a file is first mended: its length is what its header tells,
 * and all in it is within its range. Then some of it is changed to other sound
 * things, and in one of a few files something is spoilt again.
 */
#include "target.h"

#include <string.h>

#define MOST_ROWS 2048
#define MOST_TRANSACTIONS 256
#define MOST_PRICE 5000000
#define MOST_KW 20000000
#define INTERVALS 12

#define HEADER_BYTES 5
#define PRICE_BYTES 3
#define STRETCHES 26 /* of prices, one for each location in each */
#define LONGEST WZ_LONGEST_FILE
#define MOST_EXCESS 7

struct draft {
    uint8_t *file;
    size_t len;
    size_t participants, locations;
    size_t entries[2]; /* rows, transactions */
    size_t edition;
};
enum { ROWS, TRANSACTIONS };

/* The fields of a row, a path and a sale, by the place of their lowest bit. */
struct bits {
    unsigned shift, count;
};
enum { MARKET, INTERVAL, PARTICIPANT, SELLER, LOCATION, KW, KIND, SINK, SPARE, FIELDS };
struct layout {
    size_t bytes;
    struct bits fields[FIELDS];
};
static const struct layout
    row = {6, {{47, 1}, {40, 4}, {34, 6}, {0, 0}, {28, 6}, {3, 25}, {44, 3}, {0, 0}, {0, 3}}},
    path = {6, {{47, 1}, {43, 4}, {37, 6}, {0, 0}, {31, 6}, {0, 25}, {0, 0}, {25, 6}, {0, 0}}},
    sale = {7, {{55, 1}, {51, 4}, {45, 6}, {39, 6}, {33, 6}, {2, 25}, {0, 0}, {27, 6}, {0, 2}}};
static const size_t most_entries[2] = {MOST_ROWS, MOST_TRANSACTIONS};

static const struct layout *layout_of(const struct draft *draft, int kind)
{
    return kind == ROWS ? &row : draft->edition == WZ_EDITION_PATH_ONLY ? &path : &sale;
}

/* ---- chance */

static uint64_t state;

/* A number below `count`. */
static size_t below(size_t count)
{
    state ^= state << 13;
    state ^= state >> 7;
    state ^= state << 17;
    return (size_t)((state >> 11) % count);
}

static int once_in(size_t count)
{
    return below(count) == 0;
}

/* A number up to `most`: a limit, a small one, a round one or any. */
static int64_t draw_size(int64_t most)
{
    static const int64_t round[] = {1, 12, 60, 100, 600, 1000, 60000, 120000, 4000000};
    static const size_t rounds = sizeof round / sizeof *round;

    switch (below(8)) {
    case 0: return 0;
    case 1: return most;
    case 2: return (int64_t)below(16);
    case 3: return (int64_t)below(1000);
    case 4: return most - (int64_t)below(3);
    case 5: return (int64_t)below((size_t)most + 1);
    default: return round[below(rounds)];
    }
}

static int64_t draw_price(void)
{
    int64_t size = draw_size(MOST_PRICE);

    return once_in(2) ? size : -size;
}

/* ---- bytes, the most significant first */

static uint64_t get(const uint8_t *bytes, size_t count)
{
    uint64_t number = 0;

    for (; count > 0; count--)
        number = number << 8 | *bytes++;
    return number;
}

static void put(uint8_t *bytes, size_t count, uint64_t number)
{
    for (; count > 0; number >>= 8)
        bytes[--count] = (uint8_t)number;
}

static uint8_t *price_of(const struct draft *draft, size_t at)
{
    return draft->file + HEADER_BYTES + PRICE_BYTES * at;
}

static uint8_t *entry_of(const struct draft *draft, int kind, size_t at)
{
    uint8_t *rows = price_of(draft, STRETCHES * draft->locations);

    if (kind == ROWS)
        return rows + row.bytes * at;
    return rows + row.bytes * draft->entries[ROWS] + layout_of(draft, kind)->bytes * at;
}

static size_t length_of(const struct draft *draft)
{
    return (size_t)(entry_of(draft, TRANSACTIONS, draft->entries[TRANSACTIONS]) - draft->file);
}

static uint64_t field_of(const uint8_t *entry, const struct layout *layout, int field)
{
    struct bits bits = layout->fields[field];

    return get(entry, layout->bytes) >> bits.shift & ((UINT64_C(1) << bits.count) - 1);
}

static void put_field(uint8_t *entry, const struct layout *layout, int field, uint64_t number)
{
    struct bits bits = layout->fields[field];
    uint64_t mask = ((UINT64_C(1) << bits.count) - 1) << bits.shift;

    put(entry, layout->bytes,
        (get(entry, layout->bytes) & ~mask) | (number << bits.shift & mask));
}

static void read_header(struct draft *draft)
{
    uint64_t header = get(draft->file, HEADER_BYTES);

    draft->participants = (header >> 34) + 1;
    draft->locations = (header >> 28 & 63) + 1;
    draft->entries[ROWS] = header >> 16 & 4095;
    draft->entries[TRANSACTIONS] = header >> 6 & 1023;
    draft->edition = header & 63;
}

static void write_header(const struct draft *draft)
{
    put(draft->file, HEADER_BYTES,
        (uint64_t)(draft->participants - 1) << 34 | (uint64_t)(draft->locations - 1) << 28 |
            (uint64_t)draft->entries[ROWS] << 16 | (uint64_t)draft->entries[TRANSACTIONS] << 6 |
            (uint64_t)draft->edition);
}

/* ---- mending */

static void put_price(uint8_t *price, int64_t mills)
{
    put(price, PRICE_BYTES, (uint64_t)mills);
}

static void mend_price(uint8_t *price)
{
    uint64_t bits = get(price, PRICE_BYTES);
    int64_t mills = bits < 1 << 23 ? (int64_t)bits : (int64_t)bits - (1 << 24);

    if (mills < -MOST_PRICE || mills > MOST_PRICE)
        put_price(price, mills % MOST_PRICE);
}

/* How many values a field may have in this entry, from 0. */
static uint64_t values_of(const struct draft *draft, int kind, const uint8_t *entry, int field)
{
    uint64_t market = field_of(entry, layout_of(draft, kind), MARKET);

    switch (field) {
    case MARKET: return 2;
    case INTERVAL: return market ? INTERVALS : 1;
    case PARTICIPANT:
    case SELLER: return draft->participants;
    case SPARE: return 1;
    case KW: return MOST_KW + 1;
    case KIND: return market ? 4 : 6;
    default: return draft->locations;
    }
}

static void mend_entry(const struct draft *draft, int kind, uint8_t *entry)
{
    const struct layout *layout = layout_of(draft, kind);
    int field;

    for (field = 0; field < FIELDS; field++)
        put_field(entry, layout, field,
                  field_of(entry, layout, field) % values_of(draft, kind, entry, field));
}

static void mend_entries(const struct draft *draft)
{
    int kind;
    size_t i;

    for (kind = ROWS; kind <= TRANSACTIONS; kind++)
        for (i = 0; i < draft->entries[kind]; i++)
            mend_entry(draft, kind, entry_of(draft, kind, i));
}

static void mend(struct draft *draft)
{
    size_t i;

    if (draft->len < LONGEST)
        memset(draft->file + draft->len, 0, LONGEST - draft->len);
    read_header(draft);
    for (i = ROWS; i <= TRANSACTIONS; i++)
        if (draft->entries[i] > most_entries[i])
            draft->entries[i] %= most_entries[i];
    draft->edition %= WZ_LAST_EDITION + 1;
    for (i = 0; i < STRETCHES * draft->locations; i++)
        mend_price(price_of(draft, i));
    mend_entries(draft);
}

/* ---- changes to other sound files; the header is written behind them */

static void change_prices(struct draft *draft)
{
    size_t count = STRETCHES * draft->locations;
    size_t first = below(count), many = once_in(3) ? 1 + below(count - first) : 1;
    size_t step = once_in(2) ? 1 : draft->locations, i;
    int64_t mills = draw_price();

    for (i = first; i < first + many; i += step)
        put_price(price_of(draft, i), mills);
}

static void redraw(const struct draft *draft, int kind, uint8_t *entry, int field)
{
    uint64_t value = field == KW ? (uint64_t)draw_size(MOST_KW)
                                 : below(values_of(draft, kind, entry, field));

    put_field(entry, layout_of(draft, kind), field, value);
    mend_entry(draft, kind, entry);
}

static int some_kind(void)
{
    return once_in(3) ? TRANSACTIONS : ROWS;
}

static void change_entry(struct draft *draft)
{
    int kind = some_kind();

    if (draft->entries[kind] > 0)
        redraw(draft, kind, entry_of(draft, kind, below(draft->entries[kind])), (int)below(FIELDS));
}

/* Makes room for entries at a place, and gives the first of them. */
static uint8_t *open_gap(struct draft *draft, int kind, size_t at, size_t count)
{
    uint8_t *gap = entry_of(draft, kind, at);
    size_t behind = length_of(draft) - (size_t)(gap - draft->file);

    memmove(gap + layout_of(draft, kind)->bytes * count, gap, behind);
    draft->entries[kind] += count;
    return gap;
}

static void add_entry(struct draft *draft)
{
    int kind = some_kind(), field;
    size_t count = draft->entries[kind], like = below(count + 1);
    size_t bytes = layout_of(draft, kind)->bytes;
    uint8_t *entry;

    if (count == most_entries[kind])
        return;
    entry = open_gap(draft, kind, count, 1);
    memset(entry, 0, bytes);
    if (like < count && once_in(2))
        memcpy(entry, entry_of(draft, kind, like), bytes);
    else
        for (field = 0; field < FIELDS; field++)
            redraw(draft, kind, entry, field);
}

/* A row's opposite by some participant, so that large charges make a small surplus. */
static void mirror_row(struct draft *draft)
{
    size_t count = draft->entries[ROWS];
    uint8_t *entry;

    if (count == 0 || count == MOST_ROWS)
        return;
    entry = open_gap(draft, ROWS, count, 1);
    memcpy(entry, entry_of(draft, ROWS, below(count)), row.bytes);
    put_field(entry, &row, KIND, field_of(entry, &row, KIND) ^ 1);
    redraw(draft, ROWS, entry, PARTICIPANT);
}

/* The entries again and again, up to the most that there may be or to fewer. */
static void repeat_entries(struct draft *draft)
{
    int kind = some_kind();
    size_t count = draft->entries[kind], more = most_entries[kind] - count, i;
    size_t bytes = layout_of(draft, kind)->bytes;
    uint8_t *entry;

    if (count == 0 || more == 0)
        return;
    more = once_in(2) ? more : 1 + below(more);
    entry = open_gap(draft, kind, count, more);
    for (i = 0; i < more; i++, entry += bytes)
        memcpy(entry, entry_of(draft, kind, i % count), bytes);
}

static void remove_entries(struct draft *draft)
{
    int kind = some_kind();
    size_t count = draft->entries[kind], first = below(count + 1);
    size_t many = once_in(4) ? count - first : first < count;
    uint8_t *start = entry_of(draft, kind, first);
    uint8_t *end = entry_of(draft, kind, first + many);

    memmove(start, end, length_of(draft) - (size_t)(end - draft->file));
    draft->entries[kind] -= many;
}

static void change_participants(struct draft *draft)
{
    draft->participants = 1 + below(once_in(2) ? 64 : 4);
    mend_entries(draft);
}

/* A location has its prices in each stretch; one that is new has other prices. */
static void change_locations(struct draft *draft)
{
    static uint8_t old[LONGEST];
    struct draft before = *draft;
    size_t len = length_of(draft), stretch, l;

    memcpy(old, draft->file, len);
    before.file = old;
    draft->locations = 1 + below(once_in(4) ? 64 : 4);
    for (stretch = 0; stretch < STRETCHES; stretch++)
        for (l = 0; l < draft->locations; l++) {
            uint8_t *price = price_of(draft, stretch * draft->locations + l);

            if (l < before.locations)
                memcpy(price, price_of(&before, stretch * before.locations + l), PRICE_BYTES);
            else
                put_price(price, draw_price());
        }
    memcpy(entry_of(draft, ROWS, 0), entry_of(&before, ROWS, 0),
           len - (size_t)(entry_of(&before, ROWS, 0) - old));
    mend_entries(draft);
}

/* Each transaction gets a seller, or loses it; or the bytes are read anew. */
static void change_edition(struct draft *draft)
{
    static uint8_t old[LONGEST];
    struct draft before = *draft;
    size_t i;
    int field;

    draft->edition = draft->edition == 0;
    if (once_in(4)) {
        mend_entries(draft);
        return;
    }
    memcpy(old, draft->file, length_of(&before));
    before.file = old;
    for (i = 0; i < draft->entries[TRANSACTIONS]; i++) {
        const struct layout *from = layout_of(&before, TRANSACTIONS);
        uint8_t *entry = entry_of(draft, TRANSACTIONS, i);

        memset(entry, 0, layout_of(draft, TRANSACTIONS)->bytes);
        for (field = 0; field < FIELDS; field++)
            put_field(entry, layout_of(draft, TRANSACTIONS), field,
                      field_of(entry_of(&before, TRANSACTIONS, i), from, field));
        redraw(draft, TRANSACTIONS, entry, SELLER);
    }
}

static void change(struct draft *draft)
{
    static void (*const changes[])(struct draft *) = {
        change_prices, change_prices,  change_prices,  change_entry,        change_entry,
        change_entry,  change_entry,   add_entry,      add_entry,           mirror_row,
        mirror_row,    remove_entries, repeat_entries, change_participants, change_locations,
        change_edition,
    };

    changes[below(sizeof changes / sizeof *changes)](draft);
}

/* ---- spoiling */

static void turn_bit(uint8_t *bytes, size_t len)
{
    size_t bit = below(8 * len);

    bytes[bit / 8] ^= (uint8_t)(1 << bit % 8);
}

/* A bit of the header, of a price, or of a row or transaction. */
static void spoil_bit(struct draft *draft)
{
    int kind = some_kind();

    switch (below(4)) {
    case 0: turn_bit(draft->file, HEADER_BYTES); break;
    case 1: turn_bit(price_of(draft, below(STRETCHES * draft->locations)), 1); break;
    default:
        if (draft->entries[kind] > 0)
            turn_bit(entry_of(draft, kind, below(draft->entries[kind])),
                     layout_of(draft, kind)->bytes);
    }
}

static void spoil_length(struct draft *draft)
{
    size_t by = 1 + below(MOST_EXCESS);

    if (once_in(8))
        draft->len = below(draft->len);
    else if (once_in(2))
        draft->len -= by;
    else {
        memset(draft->file + draft->len, 0, by);
        draft->len += by;
    }
}

/* Gives the byte about the output lists. */
static uint8_t spoil(struct draft *draft)
{
    switch (below(8)) {
    case 0:
        if (once_in(2))
            spoil_bit(draft);
        return (uint8_t)below(64);
    case 1: spoil_length(draft); return 0;
    case 2: spoil_bit(draft); /* fall through */
    default: spoil_bit(draft); return 0;
    }
}

size_t LLVMFuzzerCustomMutator(uint8_t *bytes, size_t len, size_t most, unsigned seed)
{
    struct draft draft = {.file = bytes + 1};
    size_t changes;

    state = (seed + UINT64_C(1)) * UINT64_C(0x9e3779b97f4a7c15);
    if (most < 1 + LONGEST + MOST_EXCESS || once_in(32))
        return LLVMFuzzerMutate(bytes, len, most);
    draft.len = len > 0 ? len - 1 : 0;
    mend(&draft);
    for (changes = 1 + below(4); changes > 0; changes--)
        change(&draft);
    write_header(&draft);
    draft.len = length_of(&draft);
    bytes[0] = once_in(6) ? spoil(&draft) : 0;
    return 1 + draft.len;
}
