/*
 * wz_settle_hour held against the judge. An input is a byte about the output
 * lists, 0 where each is as long as it must be, and then the exercise file.
 */
#include "fuzz.h"
#include "target.h"

#include <string.h>

enum { FILE_BYTES, CONGESTION, LOSS, CREDIT, NET, LISTS };

static struct list list[LISTS] = {
    {.name = "file"},   {.name = "congestion"}, {.name = "loss"},
    {.name = "credit"}, {.name = "net"},
};

static uint32_t engine(const struct list *lent)
{
    return wz_settle_hour(LENT(lent[FILE_BYTES]), LENT(lent[CONGESTION]), LENT(lent[LOSS]),
                          LENT(lent[CREDIT]), LENT(lent[NET]));
}

static uint32_t judge(const struct list *lent)
{
    return judge_settle_hour(LENT(lent[FILE_BYTES]), LENT(lent[CONGESTION]), LENT(lent[LOSS]),
                             LENT(lent[CREDIT]), LENT(lent[NET]));
}

/* Two bits name a list and three how its length is wrong; with the next bit all are. */
static void take_lists(uint8_t about, size_t participants)
{
    size_t right = 8 * participants;
    size_t lens[] = {right, right + 8, right - 8, right + 1, right - 1, 0, 512, 520};
    size_t i;

    for (i = CONGESTION; i <= NET; i++) {
        int wrong = about & 0x20 || i - CONGESTION == (about & 3);

        fill(&list[i], wrong ? lens[about >> 2 & 7] : right);
    }
}

int LLVMFuzzerTestOneInput(const uint8_t *bytes, size_t len)
{
    static const struct field given[] = {
        {.list = &list[FILE_BYTES]}, {.list = &list[CONGESTION]}, {.list = &list[LOSS]},
        {.list = &list[CREDIT]},     {.list = &list[NET]},
    };
    static const struct call hour = {
        .name = "wz_settle_hour",
        .list = list,
        .lists = LISTS,
        .outputs = 4,
        .engine = engine,
        .judge = judge,
        .given = given,
        .fields = COUNT(given),
    };

    if (len < 1 || len > MOST_LIST_BYTES / 2)
        return 0;
    list[FILE_BYTES].len = len - 1;
    memcpy(list[FILE_BYTES].before, bytes + 1, len - 1);
    take_lists(bytes[0], len > 1 ? (bytes[1] >> 2) + 1u : 1);
    hold_to_judge(&hour);
    return 0;
}
