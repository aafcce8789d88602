/* The records of the picture as arrows, the marks on the boards' lines, and the legend of both. */

#include <stdio.h>
#include "picture.h"

/* ---- records */

static const char *kind_class(const letter *one)
{
    static const char *const classes[] = { "l", "s", "e", "v" };

    if (play.behaves[one->from - 1] >= LIES)
        return "l";
    return classes[sort_of(one->bytes, one->len)];
}

static void tell_notice(const letter *one)
{
    tumbeliko_notice read = tumbeliko_read_notice(one->bytes, one->len);

    if (read.number != TUMBELIKO_OK)
        return;
    fprintf(to, "notice \"");
    write_text(one->bytes + TUMBELIKO_RECORD_NOTICE, read.length);
    fprintf(to, "\", ");
}

static void tell_record(const letter *one)
{
    static const char *const kinds[] = { "bytes", "send", "echo", "vote" };
    static const char *const ends[] = { "on its way", "accepted", "refused", "lost", "not taken through a step" };

    fprintf(to, "<title>%s from board %u to board %u, %zu bytes, ",
            kinds[sort_of(one->bytes, one->len)], one->from, one->to, one->len);
    if (play.notice)
        tell_notice(one);
    else if (one->len >= TUMBELIKO_RECORD_PATH)
        fprintf(to, "root %02x%02x.., ", one->bytes[TUMBELIKO_RECORD_ROOT], one->bytes[TUMBELIKO_RECORD_ROOT + 1]);
    fprintf(to, "%s", ends[one->fate]);
    if (one->fate == REFUSED)
        fprintf(to, " with %u", one->answer);
    fprintf(to, "%s</title>", one->again ? "; not for the first time" : "");
}

void draw_record(const letter *one)
{
    static const char *const fates[] = { "", "", " refused", " lost", " unheard" };
    double x1 = x_of(one->put_out), y1 = y_of(one->from), x2 = x_of(one->due), y2 = y_of(one->to);
    const char *class = kind_class(one);

    if (one->fate == LOST) {
        x2 = x1 + (x2 - x1) * 0.6;
        y2 = y1 + (y2 - y1) * 0.6;
    }
    fprintf(to, "<path class=\"a %s%s\" d=\"M%.1f %.1f", class, fates[one->fate], x1, y1);
    if (one->from == one->to)
        fprintf(to, "Q%.1f %.1f %.1f %.1f\"", (x1 + x2) / 2, y1 - row / 3, x2, y2 - 1);
    else
        fprintf(to, "L%.1f %.1f\"", x2, y2);
    if (one->fate != LOST && roomy())
        fprintf(to, " marker-end=\"url(#%s)\"", class);
    fprintf(to, ">");
    tell_record(one);
    fprintf(to, "</path>\n");
    if (one->fate == LOST)
        fprintf(to, "<path class=\"a %s\" d=\"M%.1f %.1fl6 6m0 -6l-6 6\"/>\n", class, x2 - 3, y2 - 3);
}

/* ---- marks */

static void draw_vote(double x, double y)
{
    fprintf(to, "<path d=\"M%.1f %.1fl7 7l-7 7l-7 -7z\" fill=\"#8a45c2\" stroke=\"#fff\" stroke-width=\"1.5\"/>\n",
            x, y - 7);
}

static void draw_echo(double x, double y)
{
    fprintf(to, "<path d=\"M%.1f %.1fl5 5l-5 5l-5 -5z\" fill=\"#12927f\" stroke=\"#fff\" stroke-width=\"1.2\"/>\n",
            x, y - 5);
}

static void draw_delivery(double x, double y, bool is_void, double size)
{
    fprintf(to, "<circle cx=\"%.1f\" cy=\"%.1f\" r=\"%.1f\" fill=\"%s\" stroke=\"#fff\" stroke-width=\"2\"/>\n", x, y, size,
            is_void ? "#d98a1f" : "#2a9d4f");
    if (is_void)
        fprintf(to, "<path d=\"M%.1f %.1fl%.1f %.1fm0 %.1fl%.1f %.1f\" stroke=\"#fff\" stroke-width=\"2\" fill=\"none\"/>\n",
                x - 0.4 * size, y - 0.4 * size, 0.8 * size, 0.8 * size, -0.8 * size, -0.8 * size, 0.8 * size);
    else
        fprintf(to, "<path d=\"M%.1f %.1fl%.1f %.1fl%.1f %.1f\" stroke=\"#fff\" stroke-width=\"2\" fill=\"none\"/>\n",
                x - 0.5 * size, y, 0.35 * size, 0.4 * size, 0.6 * size, -0.75 * size);
}

static void draw_stop(double x, double y)
{
    fprintf(to, "<path d=\"M%.1f %.1fl14 14m0 -14l-14 14\" stroke=\"#fff\" stroke-width=\"6\"/>"
            "<path d=\"M%.1f %.1fl14 14m0 -14l-14 14\" stroke=\"#c62a2f\" stroke-width=\"3\"/>\n",
            x - 7, y - 7, x - 7, y - 7);
}

static void draw_word(const char *word, double x, double y)
{
    if (roomy())
        fprintf(to, "<text class=\"small halo\" text-anchor=\"middle\" x=\"%.1f\" y=\"%.1f\">%s</text>\n", x, y, word);
}

void draw_marks(uint32_t own)
{
    const board *one = &line[own - 1];
    double y = y_of(own), size = roomy() ? 10 : row * 0.4;

    if (one->echoed_at != NEVER)
        draw_echo(x_of(one->echoed_at), y);
    if (one->voted_at != NEVER) {
        fprintf(to, "<g><title>board %u votes</title>\n", own);
        draw_vote(x_of(one->voted_at), y);
        fprintf(to, "</g>\n");
        draw_word("votes", x_of(one->voted_at), y - 13);
    }
    if (one->delivered_at != NEVER) {
        bool is_void = one->delivery == TUMBELIKO_DELIVERY_VOID;

        fprintf(to, "<g><title>board %u delivers %s at step %u</title>\n", own, outcome_name(one), one->delivered_step);
        draw_delivery(x_of(one->delivered_at), y, is_void, size);
        fprintf(to, "</g>\n");
        draw_word(is_void ? "delivers void" : "delivers", x_of(one->delivered_at), y + 25);
    }
    if (one->stops_at != NEVER) {
        draw_stop(x_of(one->stops_at), y);
        draw_word("stops for good", x_of(one->stops_at), y - 14);
    }
}

/* ---- the legend */

static void draw_sample(double x, double y, const char *class, const char *more, const char *what)
{
    fprintf(to, "<path class=\"a %s %s\" style=\"stroke-width:1.8;opacity:%s\" d=\"M%.1f %.1fh38\" marker-end=\"url(#%s)\"/>"
            "<text class=\"small\" x=\"%.1f\" y=\"%.1f\">%s</text>\n", class, more, more[0] ? ".5" : ".9", x, y, class,
            x + 48, y + 4, what);
}

void draw_legend(double y)
{
    draw_sample(24, y, "s", "", "send");
    draw_sample(24, y + 22, "e", "", "echo");
    draw_sample(24, y + 44, "v", "", "vote");
    draw_sample(24, y + 66, "l", "", "from a board that lies");
    draw_sample(24, y + 88, "e", "refused", "refused by the receiver");
    draw_echo(264, y);
    draw_vote(264, y + 22);
    draw_delivery(264, y + 44, false, 8);
    if (!play.notice)
        draw_delivery(264, y + 66, true, 8);
    draw_stop(264, y + (play.notice ? 66 : 88));
    fprintf(to, "<text class=\"small\"><tspan x=\"284\" y=\"%.1f\">puts out its echo</tspan>"
            "<tspan x=\"284\" dy=\"22\">votes</tspan><tspan x=\"284\" dy=\"22\">delivers a %s</tspan>%s"
            "<tspan x=\"284\" dy=\"22\">stops for good</tspan></text>\n", y + 4, what_is_spread(),
            play.notice ? "" : "<tspan x=\"284\" dy=\"22\">delivers void</tspan>");
    fprintf(to, "<text class=\"small\" x=\"24\" y=\"%.1f\">Arrows that end in a cross: lost on the way. Very pale ones: "
            "to a board that lies, is silent or has stopped.</text>\n", y + 118);
}
