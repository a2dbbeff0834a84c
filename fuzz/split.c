/* wz_split held against the judge on calls made from the fuzzer's bytes. */
#include "fuzz.h"
#include "target.h"

#define MOST_PARTIES 64
#define MOST_AMOUNT 1000000000
#define MOST_SHARE 4000000000

enum { SHARES, PARTS, LISTS };

static struct list list[LISTS] = {{.name = "shares"}, {.name = "parts"}};
static int64_t amount;

static uint32_t engine(const struct list *lent)
{
    return wz_split(amount, LENT(lent[SHARES]), LENT(lent[PARTS]));
}

static uint32_t judge(const struct list *lent)
{
    return judge_split(amount, LENT(lent[SHARES]), LENT(lent[PARTS]));
}

int LLVMFuzzerTestOneInput(const uint8_t *bytes, size_t len)
{
    static const struct field given[] = {
        {.number = &amount},
        {.list = &list[SHARES]},
        {.list = &list[PARTS]},
    };
    static const struct call split = {
        .name = "wz_split",
        .list = list,
        .lists = LISTS,
        .outputs = 1,
        .engine = engine,
        .judge = judge,
        .given = given,
        .fields = COUNT(given),
    };
    struct source source = {.bytes = bytes, .left = len};
    struct fault fault = take_fault(&source);
    size_t parties = take(&source) % (MOST_PARTIES + 2);

    amount = take_number(&source, -MOST_AMOUNT, MOST_AMOUNT);
    take_list(&source, &list[SHARES], parties, 0, MOST_SHARE);
    fill(&list[PARTS], 8 * parties);
    spoil_length(fault, list, LISTS);
    hold_to_judge(&split);
    return 0;
}
