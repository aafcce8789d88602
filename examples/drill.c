/* The drill program: reads standard input, prints what the drill prints. */

#include <stdio.h>
#include "drill.h"

static uint8_t input[DRILL_INPUT], message[DRILL_MESSAGE], states[DRILL_STATES], kept[DRILL_KEPT], handed[DRILL_HANDED],
               out[DRILL_OUT], delivery[DRILL_DELIVERY], text[DRILL_TEXT];

int main(void)
{
    size_t length = fread(input, 1, sizeof input, stdin);
    tumbeliko_drilled printed = tumbeliko_drill(input, length, message, sizeof message, states, sizeof states,
                                                kept, sizeof kept, handed, sizeof handed, out, sizeof out,
                                                delivery, sizeof delivery, text, sizeof text);

    return fwrite(text, 1, printed.length, stdout) == printed.length && fflush(stdout) == 0 ? 0 : 1;
}
