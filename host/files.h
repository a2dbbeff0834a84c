/*
 * Files by their names.
 */
#ifndef FILES_H
#define FILES_H

#include <stddef.h>
#include <stdint.h>

/* Whether a name is "-", standard input or output. */
int is_standard(const char *name);

/* What a file that is read is called in messages: "-" is standard input. */
const char *called(const char *name);

/*
 * Reads the file's bytes, up to the room that there is for them. Gives 1, or 0
 * where it can't be read; it has then said why.
 */
int read_file(const char *name, uint8_t *bytes, size_t room, size_t *len);

/*
 * Writes a file of these bytes; "-" is standard output. Gives 1, or 0 where the
 * file can't be written; it has then said why, and left nothing of the bytes in
 * it.
 */
int write_file(const char *name, const uint8_t *bytes, size_t len);

#endif
