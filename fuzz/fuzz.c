#define _DEFAULT_SOURCE /* for MAP_ANONYMOUS */

#include "fuzz.h"

#include <inttypes.h>
#include <stdio.h>
#include <stdlib.h>
#include <string.h>
#include <sys/mman.h>
#include <unistd.h>

#define PASSES 2
#define GUARD 64
#define GUARD_BYTE 0x5a
#define ANSWERS 11

static uint64_t answered[ANSWERS];

static void print_answers(void)
{
    size_t answer;

    fprintf(stderr, "answers");
    for (answer = 0; answer < ANSWERS; answer++)
        if (answered[answer])
            fprintf(stderr, " %zu: %" PRIu64, answer, answered[answer]);
    fprintf(stderr, "\n");
}

static void count_answer(uint32_t answer)
{
    static int registered;

    if (!registered)
        registered = atexit(print_answers) == 0;
    if (answer < ANSWERS)
        answered[answer]++;
}

/* Memory for a list, with a page before it and one behind that nobody may touch. */
static uint8_t *bounded_pages(void)
{
    size_t page = (size_t)sysconf(_SC_PAGESIZE);
    uint8_t *block = mmap(NULL, MOST_LIST_BYTES + 2 * page, PROT_READ | PROT_WRITE,
                          MAP_PRIVATE | MAP_ANONYMOUS, -1, 0);

    if (block == MAP_FAILED || mprotect(block, page, PROT_NONE) != 0 ||
        mprotect(block + page + MOST_LIST_BYTES, page, PROT_NONE) != 0) {
        perror("no pages");
        exit(2);
    }
    return block + page;
}

/* Where the guard bytes are: on the side of the list where its pages go on. */
static uint8_t *guard_of(const struct list *list, int pass)
{
    if (pass == 0)
        return list->pages + MOST_LIST_BYTES - list->len - GUARD;
    return list->pages + list->len;
}

static void lend(struct list *list, int pass)
{
    if (!list->pages)
        list->pages = bounded_pages();
    list->lent = list->pages + (pass == 0 ? MOST_LIST_BYTES - list->len : 0);
    memcpy(list->lent, list->before, list->len);
    memset(guard_of(list, pass), GUARD_BYTE, GUARD);
    if (pass > 0 && list->len == 0)
        list->lent = NULL;
}

static void lend_to_judge(struct list *list)
{
    memcpy(list->after, list->before, list->len);
    list->lent = list->after;
}

int is_same(const char *name, const uint8_t *bytes, const uint8_t *wanted, size_t len)
{
    size_t i;

    for (i = 0; i < len; i++)
        if (bytes[i] != wanted[i]) {
            fprintf(stderr, "%s (%zu bytes) has %02x at byte %zu, not %02x\n", name, len, bytes[i],
                    i, wanted[i]);
            return 0;
        }
    return 1;
}

static int guard_holds(const struct list *list, int pass)
{
    const uint8_t *guard = guard_of(list, pass);
    size_t i;

    for (i = 0; i < GUARD; i++)
        if (guard[i] != GUARD_BYTE) {
            fprintf(stderr, "%s (%zu bytes) was written outside\n", list->name, list->len);
            return 0;
        }
    return 1;
}

static void print_list(const uint8_t *bytes, size_t len, const char *end)
{
    size_t i;

    for (i = 0; i < len; i++)
        printf("%02x", bytes[i]);
    printf("%s", end);
}

static void print_case(const struct call *call, uint32_t judged)
{
    size_t i;

    for (i = 0; i < call->fields; i++) {
        const struct field *field = &call->given[i];

        if (field->list)
            print_list(field->list->before, field->list->len, "\t");
        else
            printf("%" PRId64 "\t", *field->number);
    }
    printf("%" PRIu32 "\t", judged);
    for (i = call->lists - call->outputs; i < call->lists; i++)
        print_list(call->list[i].after, call->list[i].len, i + 1 < call->lists ? "\t" : "\n");
    fflush(stdout);
}

int answers(const char *name, uint32_t answer, uint32_t wanted)
{
    if (answer == wanted)
        return 1;
    fprintf(stderr, "%s answers %" PRIu32 ", not %" PRIu32 "\n", name, answer, wanted);
    return 0;
}

uint32_t hold_to_judge(const struct call *call)
{
    uint32_t judged;
    int pass, right = 1;
    size_t i;

    for (i = 0; i < call->lists; i++)
        lend_to_judge(&call->list[i]);
    judged = call->judge(call->list);
    count_answer(judged);
    if (getenv("PRINT_CASE"))
        print_case(call, judged);
    for (pass = 0; pass < PASSES; pass++) {
        for (i = 0; i < call->lists; i++)
            lend(&call->list[i], pass);
        right &= answers(call->name, call->engine(call->list), judged);
        for (i = 0; i < call->lists; i++) {
            const struct list *list = &call->list[i];

            right &= is_same(list->name, list->lent, list->after, list->len) &
                     guard_holds(list, pass);
        }
        if (!right)
            abort();
    }
    return judged;
}

int64_t number_at(const struct list *list, size_t i)
{
    uint64_t number = 0;
    size_t k;

    for (k = 8; k-- > 0;)
        number = number << 8 | list->before[8 * i + k];
    return (int64_t)number;
}

void put_at(struct list *list, size_t i, int64_t number)
{
    size_t k;

    for (k = 0; k < 8; k++)
        list->before[8 * i + k] = (uint8_t)((uint64_t)number >> 8 * k);
}

uint8_t take(struct source *source)
{
    if (source->left == 0)
        return 0;
    source->left--;
    return *source->bytes++;
}

/* A number of so many bytes. */
static int64_t take_bytes(struct source *source, size_t count)
{
    uint64_t number = 0;

    for (; count > 0; count--)
        number = number << 8 | take(source);
    return (int64_t)number;
}

/* The number that was made so many numbers ago, none counting as 0. */
static int64_t earlier(const struct source *source, size_t ago)
{
    size_t room = COUNT(source->made);

    if (ago >= source->count || ago >= room)
        return 0;
    return source->made[(source->count - 1 - ago) % room];
}

static int64_t clamp(int64_t number, int64_t low, int64_t high)
{
    return number < low ? low : number > high ? high : number;
}

/* What `how` makes of the next bytes. */
static int64_t any_number(struct source *source, uint8_t how, int64_t low, int64_t high)
{
    int64_t sign = how & 0x80 && low < 0 ? -1 : 1;

    switch (how % 7) {
    case 0: return sign * take(source);
    case 1: return sign * take_bytes(source, 2);
    case 2: return low + take_bytes(source, 5) % (high - low + 1);
    case 3: return high - take(source);
    case 4: return low + take(source);
    case 5: return earlier(source, take(source));
    default: return earlier(source, 0);
    }
}

int64_t take_number(struct source *source, int64_t low, int64_t high)
{
    size_t room = COUNT(source->made);
    uint8_t how = take(source);
    int64_t number;

    switch (how) {
    case 0xff: number = take_bytes(source, 8); break;
    case 0xfe: number = high + 1 + take(source); break;
    case 0xfd: number = low - 1 - take(source); break;
    default: number = clamp(any_number(source, how, low, high), low, high);
    }
    source->made[source->count++ % room] = number;
    return number;
}

int64_t take_choice(struct source *source, int64_t count)
{
    uint8_t byte = take(source);

    switch (byte) {
    case 0xff: return take_bytes(source, 8);
    case 0xfe: return (int64_t)((uint64_t)count + take(source));
    case 0xfd: return -1 - (int64_t)take(source);
    default: return count > 0 ? byte % count : byte;
    }
}

size_t take_period(struct source *source, size_t count)
{
    uint8_t byte = take(source);

    return byte < 0x80 ? count : byte % 16 + 1u;
}

void take_list(struct source *source, struct list *list, size_t count, int64_t low, int64_t high)
{
    size_t period = take_period(source, count), i;

    for (i = 0; i < count; i++)
        put_at(list, i, i < period ? take_number(source, low, high) : number_at(list, i - period));
    list->len = 8 * count;
}

void fill(struct list *list, size_t len)
{
    size_t i;

    for (i = 0; i < len; i++)
        list->before[i] = (uint8_t)(0xa5 + 37 * i);
    list->len = len;
}

struct fault take_fault(struct source *source)
{
    struct fault fault;

    fault.whether = take(source);
    fault.what = take(source);
    return fault;
}

/* The length that a list gets in place of its own: one of a few, or a little more or less. */
static size_t wrong_length(size_t len, size_t kind)
{
    static const size_t lens[] = {0, 8, 24, 520};
    static const int excess[] = {-8, 8, -1, 1, 4, -24, 24, -512, 512};

    kind %= COUNT(lens) + COUNT(excess);
    if (kind < COUNT(lens))
        return lens[kind];
    return (size_t)clamp((int64_t)len + excess[kind - COUNT(lens)], 0, MOST_LIST_BYTES - GUARD);
}

void spoil_length(struct fault fault, struct list *list, size_t lists)
{
    size_t old;

    if (fault.whether < 0xe0)
        return;
    list += fault.what % lists;
    old = list->len;
    list->len = wrong_length(old, fault.what / lists);
    if (list->len > old)
        memset(list->before + old, fault.whether, list->len - old);
}
