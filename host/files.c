#include "files.h"

#include "say.h"

#include <errno.h>
#include <stdio.h>
#include <string.h>

int is_standard(const char *name)
{
    return strcmp(name, "-") == 0;
}

const char *called(const char *name)
{
    return is_standard(name) ? "standard input" : name;
}

/* Says what went wrong with a file, and what to do; gives 0. */
static int complain_of(const char *name, int reason, const char *what_to_do)
{
    char why[256];

    snprintf(why, sizeof why, "%s; %s", strerror(reason), what_to_do);
    complain(name, why);
    return 0;
}

static int unreadable(const char *name, int reason)
{
    return complain_of(called(name), reason, "give the name of a file that can be read");
}

/* Opens a file to be read, NULL where it can't be; it has then said why. */
static FILE *open_file(const char *name)
{
    FILE *file = is_standard(name) ? stdin : fopen(name, "rb");

    if (!file)
        unreadable(name, errno);
    return file;
}

/* Closes a file after the last read; gives 0 where one failed, and has said why. */
static int close_file(FILE *file, const char *name)
{
    int failed = ferror(file), reason = errno;

    if (!is_standard(name))
        fclose(file);
    return !failed || unreadable(name, reason);
}

int read_file(const char *name, uint8_t *bytes, size_t room, size_t *len)
{
    FILE *file = open_file(name);

    if (!file)
        return 0;
    *len = fread(bytes, 1, room, file);
    return close_file(file, name);
}

/* Writes and closes the file; gives 0, or the reason why it can't be written. */
static int write_out(FILE *file, const uint8_t *bytes, size_t len)
{
    int reason = 0;

    errno = 0;
    if (fwrite(bytes, 1, len, file) != len)
        reason = errno ? errno : EIO;
    if (fclose(file) != 0 && reason == 0)
        reason = errno ? errno : EIO;
    return reason;
}

int write_file(const char *name, const uint8_t *bytes, size_t len)
{
    FILE *file;
    int reason;

    if (is_standard(name)) {
        fwrite(bytes, 1, len, stdout);
        return flushed(STATUS_DONE) == STATUS_DONE;
    }
    file = fopen(name, "wb");
    if (!file)
        return complain_of(name, errno, "give the name of a file that can be written");
    reason = write_out(file, bytes, len);
    if (reason == 0)
        return 1;
    file = fopen(name, "wb"); /* which empties it */
    if (file)
        fclose(file);
    return complain_of(name, reason, "it is empty now; make room for it and try again");
}
