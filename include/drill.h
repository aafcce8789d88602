/*
 * The drill of a line of boards: a script of steps is read, run through the
 * boards' own code, and each step's answer is printed.
 *
 * Link with libdrill.a (`make drill` builds it). What include/tumbeliko.h
 * says of buffers holds here too.
 */

#ifndef DRILL_H
#define DRILL_H

#include <stddef.h>
#include <stdint.h>

#ifdef __cplusplus
extern "C" {
#endif

/* The bytes that the lent buffers need. */
#define DRILL_MESSAGE   64
#define DRILL_STATES    35588       /* 7 states of 5,084 bytes */
#define DRILL_KEPT      14336       /* an echo and a vote of 7 boards, 1,024 bytes each */
#define DRILL_HANDED    16619
#define DRILL_OUT       16619
#define DRILL_DELIVERY  64
#define DRILL_TEXT      154051      /* the heading, 1,000 lines of at most 154 bytes, a bad line */

/* The first so many bytes of an input say all that is printed: 1,004 lines
 * of 1,024 characters with their ends, and one byte more. */
#define DRILL_INPUT     1029101

/* The refusal's number, or 0; how many bytes are printed. */
typedef struct {
    uint32_t number;
    uint32_t length;
} tumbeliko_drilled;

/* What the drill prints for this input goes to the start of `text`. The
 * input may be any bytes. The other buffers are room to work in; what they
 * held plays no part, and as far as they are needed they hold zeros
 * afterwards.
 *
 * Refusals: 2, a lent buffer shorter than needed. */
tumbeliko_drilled tumbeliko_drill(const uint8_t *input, size_t input_len, uint8_t *message, size_t message_len,
                                  uint8_t *states, size_t states_len, uint8_t *kept, size_t kept_len,
                                  uint8_t *handed, size_t handed_len, uint8_t *out, size_t out_len,
                                  uint8_t *delivery, size_t delivery_len, uint8_t *text, size_t text_len);

#ifdef __cplusplus
}
#endif

#endif
