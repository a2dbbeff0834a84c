/* wz_assign_load held against the judge on calls made from the fuzzer's bytes. */
#include "fuzz.h"
#include "target.h"

#define PARTICIPANTS 64
#define MOST_BUSES 64
#define MOST_METERS 64
#define MOST_AREAS 16
#define MOST_CONTRACTS 256
#define MOST_KW 20000000
#define MOST_TRANCHES 10000
#define WHOLE 1000000

enum { LOADS, IMPORTS, GENERATION, AREA_PARTS, CONTRACTS, TRANCHES, OUT, LISTS };

static struct list list[LISTS] = {
    {.name = "loads"},     {.name = "imports"},  {.name = "generation"}, {.name = "area_parts"},
    {.name = "contracts"}, {.name = "tranches"}, {.name = "out"},
};
static int64_t metered, distributor, areas;

static uint32_t engine(const struct list *lent)
{
    return wz_assign_load(metered, distributor, LENT(lent[LOADS]), LENT(lent[IMPORTS]),
                          LENT(lent[GENERATION]), areas, LENT(lent[AREA_PARTS]),
                          LENT(lent[CONTRACTS]), LENT(lent[TRANCHES]), LENT(lent[OUT]));
}

static uint32_t judge(const struct list *lent)
{
    return judge_assign_load(metered, distributor, LENT(lent[LOADS]), LENT(lent[IMPORTS]),
                             LENT(lent[GENERATION]), areas, LENT(lent[AREA_PARTS]),
                             LENT(lent[CONTRACTS]), LENT(lent[TRANCHES]), LENT(lent[OUT]));
}

/* A count, seldom the most or one more than that. */
static size_t take_count(struct source *source, size_t most)
{
    uint8_t byte = take(source);

    return byte < 0xfe ? byte % (most + 1) : most + (byte == 0xff);
}

/* An area's parts from the number `at` on: all at one bus, or each of what is left. */
static void take_area(struct source *source, size_t at, size_t buses)
{
    uint8_t how = take(source);
    int64_t left = WHOLE;
    size_t b;

    for (b = 0; b < buses; b++)
        put_at(&list[AREA_PARTS], at + b, 0);
    for (b = 0; how >= 0x40 && b + 1 < buses; b++) {
        int64_t part = take_number(source, 0, how < 0x80 ? left : WHOLE / (int64_t)buses);

        put_at(&list[AREA_PARTS], at + b, part);
        left = part < 0 || part > left ? 0 : left - part;
    }
    b = how < 0x40 ? how % buses : buses - 1;
    put_at(&list[AREA_PARTS], at + b, how < 0xfc ? left : take_number(source, 0, WHOLE));
}

static void take_areas(struct source *source, size_t buses)
{
    size_t count = areas < 0 ? 0 : areas > MOST_AREAS ? MOST_AREAS + 1 : (size_t)areas;
    size_t i;

    for (i = 0; buses > 0 && i < count; i++)
        take_area(source, i * buses, buses);
    list[AREA_PARTS].len = 8 * count * buses;
}

static void take_contracts(struct source *source, size_t count)
{
    static const int64_t sizes[] = {10, 1000, 100000, MOST_KW};
    int64_t most = sizes[take(source) % 4];
    size_t period = 3 * take_period(source, count), i;

    for (i = 0; i < 3 * count && i < period; i += 3) {
        put_at(&list[CONTRACTS], i, take_choice(source, PARTICIPANTS));
        put_at(&list[CONTRACTS], i + 1, take_choice(source, areas));
        put_at(&list[CONTRACTS], i + 2, take_number(source, 0, most));
    }
    for (; i < 3 * count; i++)
        put_at(&list[CONTRACTS], i, number_at(&list[CONTRACTS], i - period));
    list[CONTRACTS].len = 24 * count;
}

int LLVMFuzzerTestOneInput(const uint8_t *bytes, size_t len)
{
    static const struct field given[] = {
        {.number = &metered},        {.number = &distributor},    {.list = &list[LOADS]},
        {.list = &list[IMPORTS]},    {.list = &list[GENERATION]}, {.number = &areas},
        {.list = &list[AREA_PARTS]}, {.list = &list[CONTRACTS]},  {.list = &list[TRANCHES]},
        {.list = &list[OUT]},
    };
    static const struct call load = {
        .name = "wz_assign_load",
        .list = list,
        .lists = LISTS,
        .outputs = 1,
        .engine = engine,
        .judge = judge,
        .given = given,
        .fields = COUNT(given),
    };
    struct source source = {.bytes = bytes, .left = len};
    struct fault fault = take_fault(&source);
    size_t buses = take_count(&source, MOST_BUSES);
    size_t imports = take_count(&source, MOST_METERS);
    size_t generators = take_count(&source, MOST_METERS);
    size_t contracts = take_count(&source, MOST_CONTRACTS);

    metered = take_choice(&source, 2);
    distributor = take_choice(&source, PARTICIPANTS);
    areas = take_choice(&source, MOST_AREAS + 1);
    take_list(&source, &list[LOADS], buses, 0, MOST_KW);
    take_list(&source, &list[IMPORTS], imports, -MOST_KW, MOST_KW);
    take_list(&source, &list[GENERATION], generators, 0, MOST_KW);
    take_areas(&source, buses);
    take_contracts(&source, contracts);
    take_list(&source, &list[TRANCHES], PARTICIPANTS, 0, MOST_TRANCHES);
    fill(&list[OUT], 8 * PARTICIPANTS * buses);
    spoil_length(fault, list, LISTS);
    hold_to_judge(&load);
    return 0;
}
