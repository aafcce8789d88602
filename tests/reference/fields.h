/*
 * A record that is read from its front, field by field, and what may be
 * wrong with it: document 02, request 2. Both kinds of broadcast read so.
 */

#ifndef FIELDS_H
#define FIELDS_H

#include <stdbool.h>
#include <stddef.h>
#include <stdint.h>

enum { CUT_OFF = 20, NO_KIND = 21, ROOT_COUNT = 22, PATH_COUNT = 23, FRAGMENT_COUNT = 24, NOTICE_COUNT = 24, LEFT_OVER = 25 };

/* Where the last field began, and what comes after that field. */
typedef struct {
    const uint8_t *start, *field, *next;
    size_t left;
} reading;

/* Takes the next field, of so many bytes. Says no if it is not all there. */
static inline bool take(reading *in, size_t bytes)
{
    in->field = in->next;
    if (in->left < bytes)
        return false;
    in->next += bytes;
    in->left -= bytes;
    return true;
}

/* Takes a field that is a number, of one byte or of two. */
static inline bool take_number(reading *in, size_t bytes, uint32_t *number)
{
    if (!take(in, bytes))
        return false;
    *number = 0;
    for (size_t i = 0; i < bytes; i++)
        *number = *number * 256 + in->field[i];
    return true;
}

/* Is nothing left? What is left counts as a field. */
static inline bool at_the_end(reading *in)
{
    in->field = in->next;
    return in->left == 0;
}

/* Where the last field began, counted from the record's front. */
static inline uint32_t offset_of(const reading *in)
{
    return (uint32_t)(in->field - in->start);
}

#endif
