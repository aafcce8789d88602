/*
 * How the cost of encode, rebuild and step grows with the longest message L
 * and the number of boards n: Markdown tables to standard output, and a plot
 * (SVG) to the file named. Each message has L bytes, t is the most for n.
 */

#include <stdio.h>
#include <stdlib.h>
#include <string.h>
#include "clock.h"
#include "tumbeliko.h"

#define SIZES  5
#define TABLES 5
#define CALLS  5

static const uint32_t sizes[SIZES] = { 64, 256, 1024, 4096, 16384 };
static const uint32_t tables[TABLES] = { 4, 7, 16, 32, 64 };
static const char *const names[CALLS] = { "encode", "rebuild from k", "echo step", "vote step", "delivering step" };
static const char *const colours[TABLES] = { "#1b6ca8", "#2a9d8f", "#7a9e1f", "#e08e29", "#c0392b" };

static uint32_t n, t, longest, fragment_len;
static size_t s_max;
static uint64_t marked;
static uint8_t message[16384], area[70000], root[32], paths[64 * 192], block[17000], lengths[128];
static uint8_t state[80000], base[80000], out[TUMBELIKO_OUT_BYTES], delivery[16384], record[TUMBELIKO_OUT_BYTES];
static size_t state_len, record_len;
static uint32_t from;
static volatile uint32_t kept;

static void encode(void)
{
    kept = tumbeliko_encode(n, t, 1, longest, message, longest, area, sizeof area, root, 32, paths, sizeof paths).length;
}

static void rebuild(void)
{
    kept = tumbeliko_rebuild(n, t, 1, longest, marked, lengths, sizeof lengths, area, sizeof area, block, sizeof block).length;
}

/* The state is put back before each step; that costs the same for every call and is taken off. */
static void put_back(void)
{
    memcpy(state, base, state_len);
}

static void step(void)
{
    tumbeliko_stepped did;

    put_back();
    did = tumbeliko_step(state, state_len, from, record, record_len, out, sizeof out, delivery, sizeof delivery);
    kept = did.number == TUMBELIKO_OK ? did.delivery : 99;
}

/* Board `i`'s echo, or its vote, as the record that comes next. */
static void take_record(uint32_t kind, uint32_t i)
{
    bool echo = kind == TUMBELIKO_ECHO;
    size_t nodes = 0;

    while (echo && !tumbeliko_path_correct(n, i, root, 32, paths + (i - 1) * 192, 32 * nodes, area + (i - 1) * s_max, fragment_len))
        nodes++;
    from = i;
    record_len = tumbeliko_write_record(kind, root, 32, paths + (i - 1) * 192, 32 * nodes, area + (i - 1) * s_max,
                                        echo ? fragment_len : 0, record, sizeof record).length;
}

/* The record is taken for good. */
static void hand_over(void)
{
    step();
    memcpy(base, state, state_len);
}

static void must(bool fact, const char *what)
{
    if (!fact) {
        fprintf(stderr, "growth: %s went wrong for n %u, L %u\n", what, n, longest);
        exit(1);
    }
}

static double step_cost(uint32_t delivered, const char *what)
{
    double cost = clock_of(step);

    must(kept == delivered, what);
    return cost - clock_of(put_back);
}

static void begin(uint32_t boards, uint32_t size)
{
    n = boards;
    t = (n - 1) / 3;
    longest = size;
    s_max = TUMBELIKO_S_MAX(n, t, longest);
    state_len = TUMBELIKO_STATE_BYTES(n, s_max);
    encode();
    fragment_len = kept;
    marked = 0;
    for (uint32_t i = n; i > 2 * t; i--)
        marked |= (uint64_t)1 << (i - 1);
    for (uint32_t i = 0; i < n; i++) {
        lengths[2 * i] = (uint8_t)(fragment_len >> 8);
        lengths[2 * i + 1] = (uint8_t)fragment_len;
    }
    must(tumbeliko_start(n, t, 1, longest, n, base, state_len) == TUMBELIKO_OK, "start");
}

static void measure(double cost[CALLS])
{
    cost[0] = clock_of(encode);
    cost[1] = clock_of(rebuild);
    must(kept == TUMBELIKO_K(n, t) * fragment_len, "rebuild");
    take_record(TUMBELIKO_ECHO, 1);
    cost[2] = step_cost(TUMBELIKO_DELIVERY_NONE, "echo step");
    for (uint32_t i = 1; i <= n; i++) {
        take_record(TUMBELIKO_ECHO, i);
        hand_over();
    }
    for (uint32_t i = 1; i < n - t; i++) {
        take_record(TUMBELIKO_VOTE, i);
        if (i == n - t - 1)
            cost[3] = step_cost(TUMBELIKO_DELIVERY_NONE, "vote step");
        hand_over();
    }
    take_record(TUMBELIKO_VOTE, n - t);
    cost[4] = step_cost(TUMBELIKO_DELIVERY_MESSAGE, "delivering step");
}

static void show_table(int call, double cost[TABLES][SIZES][CALLS])
{
    printf("\n%s, %s\n\n| n |", names[call], clock_unit());
    for (int i = 0; i < SIZES; i++)
        printf(" L %u |", sizes[i]);
    printf("\n|---:|");
    for (int i = 0; i < SIZES; i++)
        printf("---:|");
    printf("\n");
    for (int j = 0; j < TABLES; j++) {
        printf("| %u |", tables[j]);
        for (int i = 0; i < SIZES; i++)
            printf(" %.1f |", cost[j][i][call]);
        printf("\n");
    }
}

/* ---- the plot: a panel for each call, both axes in powers */

#define WIDE  230
#define HIGH  210

/* As exact as a plot needs; the cross compiler's package has no mathematics to link statically. */
static double log_ten(double x)
{
    double log = 0;

    for (; x >= 10; x /= 10)
        log++;
    for (; x < 1; x *= 10)
        log--;
    for (double part = 0.5; part > 0.001; part /= 2) {
        x *= x;
        if (x >= 10) {
            x /= 10;
            log += part;
        }
    }
    return log;
}

static double place(double cost)
{
    return HIGH - HIGH * (log_ten(cost < 0.1 ? 0.1 : cost) + 1) / 6;       /* 0.1 to 100,000 */
}

static void draw_axes(FILE *file, int call)
{
    fprintf(file, "<rect width=\"%d\" height=\"%d\" fill=\"#fafafa\" stroke=\"#bbb\"/>\n", WIDE, HIGH);
    fprintf(file, "<text x=\"%d\" y=\"-8\" text-anchor=\"middle\" font-weight=\"bold\">%s</text>\n", WIDE / 2, names[call]);
    for (double cost = 1; cost < 1e5; cost *= 10) {
        fprintf(file, "<line x1=\"0\" x2=\"%d\" y1=\"%.1f\" y2=\"%.1f\" stroke=\"#e4e4e4\"/>\n", WIDE, place(cost), place(cost));
        fprintf(file, "<text x=\"-6\" y=\"%.1f\" text-anchor=\"end\">%.0f</text>\n", place(cost) + 4, cost);
    }
    for (int i = 0; i < SIZES; i++)
        fprintf(file, "<text x=\"%d\" y=\"%d\" text-anchor=\"middle\">%u</text>\n", i * WIDE / (SIZES - 1), HIGH + 16, sizes[i]);
}

static void draw_line(FILE *file, int call, int table, double cost[TABLES][SIZES][CALLS])
{
    fprintf(file, "<polyline fill=\"none\" stroke-width=\"2\" stroke=\"%s\" points=\"", colours[table]);
    for (int i = 0; i < SIZES; i++)
        fprintf(file, "%d,%.1f ", i * WIDE / (SIZES - 1), place(cost[table][i][call]));
    fprintf(file, "\"><title>%s, n %u</title></polyline>\n", names[call], tables[table]);
}

static int draw(const char *name, double cost[TABLES][SIZES][CALLS])
{
    FILE *file = fopen(name, "w");

    if (file == NULL) {
        perror(name);
        return 1;
    }
    fprintf(file, "<svg xmlns=\"http://www.w3.org/2000/svg\" width=\"960\" height=\"640\" font-family=\"sans-serif\" font-size=\"12\">\n"
                  "<rect width=\"960\" height=\"640\" fill=\"white\"/>\n"
                  "<text x=\"480\" y=\"28\" text-anchor=\"middle\" font-size=\"16\">Cost of a call (%s) by the longest message L, "
                  "for n boards</text>\n", clock_unit());
    for (int call = 0; call < CALLS; call++) {
        fprintf(file, "<g transform=\"translate(%d %d)\">\n", 70 + call % 3 * 300, 70 + call / 3 * 290);
        draw_axes(file, call);
        for (int table = 0; table < TABLES; table++)
            draw_line(file, call, table, cost);
        fprintf(file, "</g>\n");
    }
    for (int table = 0; table < TABLES; table++)
        fprintf(file, "<g transform=\"translate(700 %d)\"><line x2=\"40\" stroke=\"%s\" stroke-width=\"3\"/>"
                      "<text x=\"52\" y=\"4\">n %u, t %u</text></g>\n", 390 + 26 * table, colours[table], tables[table], (tables[table] - 1) / 3);
    fprintf(file, "</svg>\n");
    return fclose(file) == 0 ? 0 : 1;
}

int main(int argc, char **argv)
{
    static double cost[TABLES][SIZES][CALLS];

    if (argc != 2) {
        fprintf(stderr, "usage: %s PLOT.svg\n", argv[0]);
        return 2;
    }
    for (size_t i = 0; i < sizeof message; i++)
        message[i] = (uint8_t)(i * 13 + i / 239);
    clock_begin();
    for (int table = 0; table < TABLES; table++)
        for (int i = 0; i < SIZES; i++) {
            begin(tables[table], sizes[i]);
            measure(cost[table][i]);
        }
    for (int call = 0; call < CALLS; call++)
        show_table(call, cost);
    return draw(argv[1], cost);
}
