/* The drill: a text drawn whole, or one whose lines are mostly right. */

#include <stdio.h>
#include <string.h>
#include "fuzz.h"
#ifdef WITH_LIBRARY
#include "drill.h"
#endif

#define MOST 8192

static char text[MOST + 200];
static size_t length;

static void say(const char *words)
{
    size_t len = strlen(words);

    if (length + len < MOST) {
        memcpy(text + length, words, len);
        length += len;
    }
}

static void say_numbers(const char *form, unsigned a, unsigned b, unsigned c, unsigned d)
{
    char line[80];

    snprintf(line, sizeof line, form, a, b, c, d);
    say(line);
}

/* A table, no rule-breaker or one, a message of a few bytes; then steps as long as there are bytes. */
static void say_drill(void)
{
    unsigned n = 1 + random_below(7), t = random_below((n + 2) / 3), count = random_below(60);
    bool breaks = t > 0 && draw_byte() % 2 == 0;

    say_numbers("%u %u %u %u\n", n, t, 1 + random_below(n), 2 + random_below(63));
    say_numbers(breaks ? "1 %u\n" : "0\n", n, 0, 0, 0);
    say_numbers("2 %02x%02x\n", draw_byte(), draw_byte(), 0, 0);
    say_numbers("%u\n", count, 0, 0, 0);
    for (unsigned i = 0; i < count && more(); i++) {
        unsigned from = 1 + random_below(n), to = 1 + random_below(n);

        say_numbers(draw_byte() % 3 == 0 ? "s %u %u\n" : draw_byte() % 2 == 0 ? "e %u %u\n" : "v %u %u\n", from, to, 0, 0);
        if (breaks && draw_byte() % 4 == 0)
            say_numbers("r %u %u %02x%02x\n", n, to, draw_byte() % 4, draw_byte());
    }
}

void try_drill(void)
{
    static char right[REF_TEXT];
    size_t right_len;

    length = 0;
    if (draw_byte() % 2 == 0) {
        say_drill();
        if (draw_byte() % 3 == 0 && length > 0)
            text[random_below((uint32_t)length)] = (char)draw_byte();
    } else {
        length = draw_rest((uint8_t *)text, 1024);
    }
    right_len = ref_drill(text, length, right);
    note(0);
#ifdef WITH_LIBRARY
    static uint8_t message[DRILL_MESSAGE], states[DRILL_STATES], kept[DRILL_KEPT], handed[DRILL_HANDED], out[DRILL_OUT],
                   delivery[DRILL_DELIVERY], printed[DRILL_TEXT];
    tumbeliko_drilled got = tumbeliko_drill((const uint8_t *)text, length, message, sizeof message, states, sizeof states,
                                            kept, sizeof kept, handed, sizeof handed, out, sizeof out,
                                            delivery, sizeof delivery, printed, sizeof printed);

    SAME(got.number == 0);
    SAME(got.length == right_len && memcmp(printed, right, right_len) == 0);
#else
    (void)right_len;
#endif
}
