/*
 * What is drawn: time from left to right, a line for each board, an arrow
 * for each record, marks where a board votes, delivers or stops. Hovering
 * over an arrow or a mark in a browser tells more.
 */

#include <stdio.h>
#include <string.h>
#include "picture.h"

#define LEFT    150     /* the boards' names stand left of this */
#define WIDTH   1100    /* of the time drawn */
#define RIGHT   190     /* what was delivered stands right of the lines */
#define TOP     128
#define BOTTOM  190

FILE *to;
double row;
static double scale;            /* for a microsecond */

double x_of(uint64_t when)
{
    return LEFT + (double)when * scale;
}

double y_of(uint32_t number)
{
    return TOP + ((double)number - 0.5) * row;
}

bool roomy(void)
{
    return row >= 40;
}

/* Text for XML: what is not plain ASCII becomes a question mark. */
void write_text(const uint8_t *bytes, size_t len)
{
    for (size_t i = 0; i < len; i++)
        switch (bytes[i]) {
        case '&':   fputs("&amp;", to); break;
        case '<':   fputs("&lt;", to); break;
        case '>':   fputs("&gt;", to); break;
        default:    fputc(bytes[i] >= ' ' && bytes[i] <= '~' ? bytes[i] : '?', to);
        }
}

const char *outcome_name(const board *one)
{
    if (one->delivery == TUMBELIKO_DELIVERY_VOID)
        return "void";
    if (play.notice)
        return same_as_file(one) ? "the notice" : "another notice";
    return same_as_file(one) ? "the file" : "another file";
}

/* ---- the frame */

static const char style[] =
    "<style>\n"
    "text { font-family: 'DejaVu Sans', Verdana, sans-serif; font-size: 13px; fill: #26323d }\n"
    ".title { font-size: 20px; font-weight: bold }\n"
    ".small { font-size: 11.5px; fill: #5b6975 }\n"
    ".band { font-size: 12px; fill: #6d7b87; letter-spacing: 1px }\n"
    ".halo { paint-order: stroke; stroke: #fff; stroke-width: 4px; stroke-linejoin: round }\n"
    ".b { stroke: #8796a3; stroke-width: 1.5; fill: none }\n"
    ".gone { stroke: #c9d1d8; stroke-width: 1.5; stroke-dasharray: 2 5; fill: none }\n"
    ".a { fill: none; opacity: .6 }\n"
    ".s { stroke: #1f6fc4 } .e { stroke: #12927f } .v { stroke: #8a45c2 } .l { stroke: #d42f34 }\n"
    ".refused { stroke-dasharray: 4 4; opacity: .28 }\n"
    ".unheard { opacity: .13 }\n"
    ".lost { opacity: .45 }\n"
    ".a:hover { stroke-width: 3.5; opacity: 1 }\n"
    "</style>\n";

/* The more boards, the thinner: there are about 2n^2 records. */
static double thickness(void)
{
    return play.n <= 8 ? 1.2 : roomy() ? 0.8 : 0.3;
}

static void draw_head(const char *id, const char *colour)
{
    fprintf(to, "<marker id=\"%s\" viewBox=\"0 0 10 10\" refX=\"9\" refY=\"5\" markerWidth=\"7\" markerHeight=\"7\" "
            "markerUnits=\"userSpaceOnUse\" orient=\"auto\"><path d=\"M0 1L10 5L0 9z\" fill=\"%s\"/></marker>\n",
            id, colour);
}

static void draw_title(void)
{
    static const char *const deeds[] = {
        "", "fails halfway", "is silent", "lies", "sends fragments of no block", "sends two different "
    };
    bool first = true;

    fprintf(to, "<text class=\"title\" x=\"24\" y=\"38\">");
    if (play.notice)
        fprintf(to, "the notice \"");
    write_text(play.notice ? play.file : (const uint8_t *)play.name, play.notice ? play.file_len : strlen(play.name));
    fprintf(to, "%s, from board %d to %u boards</text>\n", play.notice ? "\"" : "", SENDER, play.n);
    fprintf(to, "<text x=\"24\" y=\"62\">%zu bytes; at most %u of the boards break the rules", play.file_len, play.t);
    for (uint32_t own = 1; own <= play.n; own++)
        if (!keeps(own)) {
            fprintf(to, "%s board %u%s %s", first ? ":" : ",", own, own == SENDER ? ", the sender," : "",
                    deeds[play.behaves[own - 1]]);
            if (play.behaves[own - 1] == SPLITS)
                fprintf(to, "%ss", what_is_spread());
            first = false;
        }
    fprintf(to, "%s</text>\n", first ? ", none does" : "");
}

/* ---- what happened when */

static uint64_t earliest(uint64_t a, uint64_t b)
{
    return a < b ? a : b;
}

static uint64_t end_of_run(void)
{
    uint64_t end = 1;

    for (size_t i = 0; i < posted; i++)
        if (post[i].fate != UNHEARD && post[i].due > end)
            end = post[i].due;
    return end;
}

static void draw_band(const char *name, uint64_t from, uint64_t until, const char *colour)
{
    double x = x_of(from), wide = x_of(until) - x;

    if (from == NEVER || until <= from)
        return;
    fprintf(to, "<rect x=\"%.1f\" y=\"%d\" width=\"%.1f\" height=\"%.1f\" fill=\"%s\"/>\n", x, TOP - 34, wide,
            row * play.n + 40, colour);
    if (wide > 9 * (double)strlen(name))
        fprintf(to, "<text class=\"band\" x=\"%.1f\" y=\"%d\">%s</text>\n", x + 8, TOP - 17, name);
}

static void draw_bands(uint64_t end)
{
    uint64_t echo = end, vote = end, delivery = end, last = 0;

    for (uint32_t own = 1; own <= play.n; own++) {
        const board *one = &line[own - 1];

        echo = earliest(echo, keeps(own) ? one->echoed_at : end);
        vote = earliest(vote, one->voted_at);
        delivery = earliest(delivery, one->delivered_at);
        if (one->delivered_at != NEVER && one->delivered_at > last)
            last = one->delivered_at;
    }
    last = last == 0 ? end : last;
    draw_band("sends", 0, earliest(echo, vote), "#f1f6fc");
    draw_band("echoes", echo, earliest(vote, delivery), "#edf7f4");
    draw_band("votes", vote, delivery, "#f6f0fb");
    draw_band("deliveries", delivery, last, "#fbf7e8");
    draw_band("late records", last, end, "#f5f6f7");
}

/* ---- the boards */

static void draw_outcome(uint32_t own, double x, double y)
{
    const board *one = &line[own - 1];

    if (one->delivery == TUMBELIKO_DELIVERY_MESSAGE)
        fprintf(to, "<text x=\"%.1f\" y=\"%.1f\" font-weight=\"bold\" style=\"fill:#1d7a3c\">%s</text>\n", x, y + 4,
                outcome_name(one));
    else if (one->delivery == TUMBELIKO_DELIVERY_VOID)
        fprintf(to, "<text x=\"%.1f\" y=\"%.1f\" font-weight=\"bold\" style=\"fill:#b5690b\">void</text>\n", x, y + 4);
    else if (play.behaves[own - 1] <= FAILS)
        fprintf(to, "<text x=\"%.1f\" y=\"%.1f\" style=\"fill:#8796a3\">nothing</text>\n", x, y + 4);
    if (roomy() && one->delivery != TUMBELIKO_DELIVERY_NONE)
        fprintf(to, "<text class=\"small\" x=\"%.1f\" y=\"%.1f\">at step %u%s</text>\n", x, y + 20, one->delivered_step,
                one->heard[TUMBELIKO_SEND] == 0 ? ", without a send" : "");
}

static void draw_board(uint32_t own, uint64_t end)
{
    behaviour how = play.behaves[own - 1];
    uint64_t stops = how > FAILS ? 0 : earliest(line[own - 1].stops_at, end);
    double y = y_of(own);

    fprintf(to, "<text x=\"24\" y=\"%.1f\" font-weight=\"bold\"%s>board %u</text>\n", y + 4,
            roomy() ? "" : " style=\"font-size:9px\"", own);
    if (roomy() && (own == SENDER || how != KEEPS))
        fprintf(to, "<text class=\"small\" x=\"24\" y=\"%.1f\"%s>%s%s%s</text>\n", y + 20,
                how == KEEPS ? "" : " style=\"fill:#c62a2f\"", own == SENDER ? "sender" : "",
                own == SENDER && how != KEEPS ? ", " : "", how == KEEPS ? "" : behaviour_name(how));
    fprintf(to, "<path class=\"b\" d=\"M%d %.1fH%.1f\"/>\n", LEFT - 14, y, x_of(stops));
    if (stops < end)
        fprintf(to, "<path class=\"gone\" d=\"M%.1f %.1fH%.1f\"/>\n", x_of(stops), y, x_of(end) + 8);
    draw_outcome(own, x_of(end) + 22, y);
}

/* ---- beneath */

static void draw_figures(double y)
{
    unsigned refused = seen.handed - seen.answers[0];
    char calls[40] = "";

    if (play.poll > 0)
        snprintf(calls, sizeof calls, " by %u calls", seen.calls);
    fprintf(to, "<text><tspan x=\"500\" y=\"%.1f\" font-weight=\"bold\">Records</tspan>"
            "<tspan x=\"500\" dy=\"24\">%lu put out by the boards that keep the rules, %lu bytes</tspan>"
            "<tspan x=\"500\" dy=\"22\">%lu put out by the others, %lu bytes</tspan>"
            "<tspan x=\"500\" dy=\"22\">%u handed over%s: %u accepted, %u refused</tspan>"
            "<tspan x=\"500\" dy=\"22\">%u lost, %u repeated</tspan></text>\n", y + 4, seen.records, seen.bytes,
            seen.other_records, seen.other_bytes, seen.handed, calls, seen.answers[0], refused, seen.lost, seen.repeated);
}

static void draw_promise(double y, const char *name, bool asked, bool held)
{
    fprintf(to, "<text x=\"990\" y=\"%.1f\">%s</text>", y, name);
    fprintf(to, "<text x=\"1085\" y=\"%.1f\" font-weight=\"bold\" style=\"fill:%s\">%s</text>\n", y,
            !asked ? "#8796a3" : held ? "#1d7a3c" : "#c62a2f",
            !asked ? "nothing to keep: the sender breaks the rules" : held ? "held" : "BROKEN");
}

static void draw_beneath(double y)
{
    promises held = judged();

    draw_legend(y);
    draw_figures(y);
    fprintf(to, "<text x=\"990\" y=\"%.1f\" font-weight=\"bold\">Promises</text>\n", y + 4);
    draw_promise(y + 28, "agreement", true, held.agreement);
    draw_promise(y + 50, "validity", keeps(SENDER), held.validity);
    draw_promise(y + 72, "totality", true, held.totality);
    fprintf(to, "<text class=\"small\" x=\"990\" y=\"%.1f\">seed %llu, %u of 100 records lost</text>\n", y + 96,
            (unsigned long long)play.seed, play.loss);
}

/* ---- all of it */

static void draw_all(uint64_t end)
{
    double wide = LEFT + WIDTH + RIGHT, high = TOP + row * play.n + BOTTOM;

    /* without a width of its own a browser fits it into the window */
    fprintf(to, "<svg xmlns=\"http://www.w3.org/2000/svg\" viewBox=\"0 0 %.0f %.0f\">\n"
            "<title>%u boards spread a %s</title>\n%s<defs>\n", wide, high, play.n, what_is_spread(), style);
    draw_head("s", "#1f6fc4");
    draw_head("e", "#12927f");
    draw_head("v", "#8a45c2");
    draw_head("l", "#d42f34");
    fprintf(to, "</defs>\n<rect width=\"100%%\" height=\"100%%\" fill=\"#fff\"/>\n");
    draw_title();
    draw_bands(end);
    for (uint32_t own = 1; own <= play.n; own++)
        draw_board(own, end);
    fprintf(to, "<g stroke-width=\"%.1f\">\n", thickness());
    for (size_t i = 0; i < posted; i++)
        draw_record(&post[i]);
    fprintf(to, "</g>\n");
    for (uint32_t own = 1; own <= play.n; own++)
        draw_marks(own);
    draw_beneath(TOP + row * play.n + 38);
    fprintf(to, "</svg>\n");
}

/* False if the file cannot be written; errno says why. */
bool draw_picture(void)
{
    uint64_t end = end_of_run();
    bool written;

    to = fopen(play.picture, "w");
    if (to == NULL)
        return false;
    row = play.n <= 8 ? 84 : play.n <= 16 ? 48 : 20;
    scale = WIDTH / (double)end;
    draw_all(end);
    written = !ferror(to);
    return fclose(to) == 0 && written;
}
