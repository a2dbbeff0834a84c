#include "refusals.h"

#include "files.h"
#include "place.h"

#include <inttypes.h>

enum status say_refusal(const char *name, uint32_t refusal, const char *place)
{
    begin_message(called(name));
    if (*place)
        fprintf(stderr, "%s (refusal %" PRIu32 ": %s)\n", place, refusal, wz_sentence(refusal));
    else
        fprintf(stderr, "refusal %" PRIu32 ": %s\n", refusal, wz_sentence(refusal));
    return STATUS_REFUSED;
}

enum status refuse(struct answer *answer, const char *name, uint32_t refusal, const char *place)
{
    enum status status;

    print_refusal(answer, refusal, place);
    status = flushed(STATUS_REFUSED); /* the answer stands before the sentence */
    return worse(status, say_refusal(name, refusal, place));
}

enum status refuse_hour(struct answer *answer, const struct hour *hour, uint32_t refusal)
{
    char place[PLACE_LEN];

    find_place(hour, refusal, place);
    return refuse(answer, hour->name, refusal, place);
}
