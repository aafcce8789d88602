/*
 * The drill against the reference's own: document 01's example, every
 * answer that a drill can show, every kind of bad line at every line, the
 * limits, and generated inputs, right ones and damaged ones.
 *
 * Every call is lent buffers with other bytes in them, and around them:
 * the text must be the reference's, byte for byte, nothing beyond it may
 * be written, and the other buffers must hold zeros as far as needed.
 */

#include <stdio.h>
#include <stdlib.h>
#include <string.h>
#include "drill.h"
#include "harness.h"
#include "reference/reference.h"
#include "trees.h"

/* ---- a call, and what it must leave */

enum { BUFFERS = 7, BEYOND = 64 };

static const size_t needed[BUFFERS] = {
    DRILL_MESSAGE, DRILL_STATES, DRILL_KEPT, DRILL_HANDED, DRILL_OUT, DRILL_DELIVERY, DRILL_TEXT
};

static uint8_t lent[BUFFERS][BEYOND + DRILL_TEXT + BEYOND], before[BUFFERS][BEYOND + DRILL_TEXT + BEYOND];
static char expected[REF_TEXT];
static size_t expected_len;
static unsigned long inputs, answers[REF_NUMBERS], messages, empties, voids;

static void fill(void)
{
    static uint8_t noise[4096];

    random_bytes(noise, sizeof noise);
    for (int b = 0; b < BUFFERS; b++) {
        size_t whole = BEYOND + needed[b] + BEYOND, shift = random_below(64);

        for (size_t i = 0; i < whole; i++)
            before[b][i] = noise[(i + shift) % sizeof noise];
        memcpy(lent[b], before[b], whole);
    }
}

static tumbeliko_drilled call(const char *input, size_t len, const size_t sizes[BUFFERS])
{
    return tumbeliko_drill((const uint8_t *)input, len, lent[0] + BEYOND, sizes[0], lent[1] + BEYOND, sizes[1],
                           lent[2] + BEYOND, sizes[2], lent[3] + BEYOND, sizes[3], lent[4] + BEYOND, sizes[4],
                           lent[5] + BEYOND, sizes[5], lent[6] + BEYOND, sizes[6]);
}

static bool zeros(const uint8_t *bytes, size_t len)
{
    for (size_t i = 0; i < len; i++)
        if (bytes[i] != 0)
            return false;
    return true;
}

/* Is all of this buffer but `len` bytes from its start as it was? */
static bool rest_stays(int b, size_t len)
{
    return memcmp(lent[b], before[b], BEYOND) == 0
        && memcmp(lent[b] + BEYOND + len, before[b] + BEYOND + len, needed[b] - len + BEYOND) == 0;
}

/* Runs the drill on an input and holds it against the reference's text. */
static void drill(const char *input, size_t len)
{
    tumbeliko_drilled answer;
    size_t sizes[BUFFERS];

    for (int b = 0; b < BUFFERS; b++)
        sizes[b] = needed[b] + (random_below(4) == 0 ? random_below(BEYOND) : 0);
    fill();
    expected_len = ref_drill(input, len, expected);
    answer = call(input, len, sizes);
    inputs++;
    CHECK(answer.number == 0);
    CHECK(answer.length == expected_len);
    CHECK(memcmp(lent[6] + BEYOND, expected, expected_len) == 0);
    CHECK(rest_stays(6, expected_len));
    for (int b = 0; b < 6; b++)
        CHECK(zeros(lent[b] + BEYOND, needed[b]) && rest_stays(b, needed[b]));
}

static void drill_text(const char *input)
{
    drill(input, strlen(input));
}

/* Does the drill print just this after its heading? */
static bool prints(const char *input, const char *lines)
{
    static const char heading[] = "step kind from to answer act outcome\n";
    size_t head = strlen(heading);

    drill_text(input);
    return expected_len == head + strlen(lines) && memcmp(lent[6] + BEYOND, heading, head) == 0
        && memcmp(lent[6] + BEYOND + head, lines, strlen(lines)) == 0;
}

static bool ends_bad(unsigned line)
{
    char last[32];
    size_t len = (size_t)sprintf(last, "\nbad line %u\n", line);

    return expected_len >= len && memcmp(lent[6] + BEYOND + expected_len - len, last, len) == 0;
}

/* Counts the answers and the outcomes in the text printed last. */
static void count_lines(void)
{
    char *line = strchr(expected, '\n') + 1;

    expected[expected_len] = '\0';
    for (; *line != '\0'; line = strchr(line, '\n') + 1) {
        unsigned answer;
        char act, outcome[200];

        if (sscanf(line, "%*u %*c %*u %*u %u %c %199s", &answer, &act, outcome) != 3)
            return;
        answers[answer]++;
        messages += outcome[0] == 'm' && outcome[1] != '\0';
        empties += outcome[0] == 'm' && outcome[1] == '\0';
        voids += outcome[0] == 'v';
    }
}

/* ---- scripts */

static char script[1100000];
static size_t script_len;

static void add(const char *text)
{
    size_t len = strlen(text);

    memcpy(script + script_len, text, len + 1);
    script_len += len;
}

static void add_hex(const uint8_t *bytes, size_t len)
{
    for (size_t i = 0; i < len; i++)
        script_len += (size_t)sprintf(script + script_len, "%02x", bytes[i]);
}

static void add_raw(uint32_t from, uint32_t to, const uint8_t *bytes, size_t len)
{
    script_len += (size_t)sprintf(script + script_len, len > 0 ? "r %u %u " : "r %u %u", from, to);
    add_hex(bytes, len);
    add("\n");
}

static tree grown;
static uint8_t record[REF_OUT];

/* A raw record of a rule-breaker: a lie under a tree of its own, damaged
 * one, or random bytes. */
static void add_lie(ref_table table, uint32_t from, uint32_t to)
{
    uint8_t message[64];
    size_t len, message_len = random_below(table.longest + 1);

    random_bytes(message, sizeof message);
    if (random_below(4) == 0)
        grow_tree(&grown, table, (int)random_below(TREE_MANNERS), message, message_len);
    if (random_below(8) == 0) {
        len = random_below(60);
        random_bytes(record, len);
    } else {
        uint32_t kind = 1 + random_below(3);

        len = tree_record(&grown, kind, kind == 1 ? to : random_below(4) == 0 ? 1 + random_below(table.n) : from, record);
        if (random_below(6) == 0)
            flip_a_bit(record, len);
        if (random_below(12) == 0 && len + 1 < 500)
            record[len++] = 0;
        if (random_below(12) == 0)
            len = random_below((uint32_t)len);
        if (random_below(8) == 0)
            change_a_number(record, len);
    }
    add_raw(from, to, record, len < 500 ? len : 500);
}

/* A whole drill: a table, rule-breakers, a message, and steps that mostly
 * make sense. */
static void write_script(void)
{
    static const uint32_t boards[] = { 1, 2, 3, 4, 4, 5, 6, 7, 7 };
    uint8_t message[64];
    bool breaks[8] = { false };
    ref_table table;
    uint32_t breakers = 0, count, chosen[2], len;

    table.n = boards[random_below(9)];
    table.t = random_below((table.n - 1) / 3 + 1);
    table.sender = 1 + random_below(table.n);
    table.longest = random_below(5) == 0 ? 64 : random_below(65);
    len = random_below(4) == 0 ? 0 : random_below(table.longest + 1);
    while (breakers < table.t && random_below(3) > 0) {
        uint32_t board = 1 + random_below(table.n);

        if (!breaks[board]) {
            breaks[board] = true;
            chosen[breakers++] = board;
        }
    }
    random_bytes(message, sizeof message);
    grow_tree(&grown, table, (int)random_below(TREE_MANNERS), message, len);
    script_len = 0;
    script_len += (size_t)sprintf(script, "%u %u %u %u\n%u", table.n, table.t, table.sender, table.longest, breakers);
    for (uint32_t i = 0; i < breakers; i++)
        script_len += (size_t)sprintf(script + script_len, " %u", chosen[i]);
    script_len += (size_t)sprintf(script + script_len, len > 0 ? "\n%u " : "\n%u", len);
    add_hex(message, len);
    count = 1 + random_below(12 * table.n);
    script_len += (size_t)sprintf(script + script_len, "\n%u\n", count);
    for (uint32_t k = 0; k < count; k++) {
        uint32_t from = 1 + random_below(table.n), to = 1 + random_below(table.n), stage = 6 * k / count;

        while (breaks[to])
            to = 1 + random_below(table.n);
        if (breaks[from]) {
            add_lie(table, from, to);
            continue;
        }
        if (stage < 2 && random_below(4) > 0 && !breaks[table.sender])
            from = table.sender;
        script_len += (size_t)sprintf(script + script_len, "%c %u %u\n",
                                      stage < 2 ? "sse"[random_below(3)] : "eevvs"[random_below(stage < 4 ? 3 : 5)], from, to);
    }
}

/* A script that hands everything over: `order` shuffles echoes and votes. */
static void write_full(uint32_t n, uint32_t t, uint32_t longest, const char *line3)
{
    script_len = 0;
    script_len += (size_t)sprintf(script, "%u %u 1 %u\n0\n%s\n%u\n", n, t, longest, line3, n + 2 * n * n);
    for (uint32_t j = 1; j <= n; j++)
        script_len += (size_t)sprintf(script + script_len, "s 1 %u\n", j);
    for (int kind = 0; kind < 2; kind++)
        for (uint32_t i = 1; i <= n; i++)
            for (uint32_t j = 1; j <= n; j++)
                script_len += (size_t)sprintf(script + script_len, "%c %u %u\n", "ev"[kind], i, j);
}

/* ---- the tests */

static void the_example_of_the_paper(void)
{
    CHECK(prints("1 0 1 16\n0\n1 41\n3\ns 1 1\ne 1 1\nv 1 1\n", "1 s 1 1 0 e -\n2 e 1 1 0 v -\n3 v 1 1 0 - m41\n"));
    CHECK(prints("1 0 1 16\n0\n1 41\n3\ns 1 1\ne 1 1\nv 1 1", "1 s 1 1 0 e -\n2 e 1 1 0 v -\n3 v 1 1 0 - m41\n"));
}

static void an_empty_message_is_m(void)
{
    CHECK(prints("1 0 1 0\n0\n0\n3\ns 1 1\ne 1 1\nv 1 1\n", "1 s 1 1 0 e -\n2 e 1 1 0 v -\n3 v 1 1 0 - m\n"));
}

static void what_was_not_put_out_is_14(void)
{
    CHECK(prints("4 1 1 16\n0\n0\n4\ns 2 1\ne 1 1\nv 1 2\ns 1 1\n", "1 s 2 1 14 - -\n2 e 1 1 14 - -\n3 v 1 2 14 - -\n4 s 1 1 0 e -\n"));
}

static void empty_and_short_inputs(void)
{
    CHECK(prints("", "bad line 1\n"));
    CHECK(prints("\n", "bad line 1\n"));
    CHECK(prints("1 0 1 16", "bad line 2\n"));
    CHECK(prints("1 0 1 16\n0\n", "bad line 3\n"));
    CHECK(prints("1 0 1 16\n0\n0\n", "bad line 4\n"));
    CHECK(prints("1 0 1 16\n0\n0\n0\n", ""));
    CHECK(prints("1 0 1 16\n0\n0\n0\n\n", "bad line 5\n"));
    CHECK(prints("1 0 1 16\n0\n0\n1\n", "bad line 5\n"));
    CHECK(prints("1 0 1 16\n0\n0\n1\ns 1 1\nx", "1 s 1 1 0 e -\nbad line 6\n"));
}

static void every_message_length(void)
{
    for (uint32_t len = 0; len <= 64; len++) {
        char line3[200];
        size_t at = (size_t)sprintf(line3, len > 0 ? "%u " : "%u", len);

        for (uint32_t i = 0; i < len; i++)
            at += (size_t)sprintf(line3 + at, "%02x", (unsigned)random_below(256));
        write_full(1 + len % 7, (len % 7) / 3, 64, line3);
        drill_text(script);
        count_lines();
        CHECK(strstr(expected, " m") != NULL);
    }
    CHECK(messages > 0 && empties > 0);
}

/* Fragments of 1 byte to two above s_max, from a rule-breaker. */
static void a_fragment_above_s_max_is_7(void)
{
    static const uint8_t root[32], fragment[8];

    for (size_t len = 1; len <= 4; len++) {
        ref_written written = ref_write_record(2, root, 32, root, 0, fragment, len, record, sizeof record);

        script_len = 0;
        add("4 1 1 0\n1 3\n0\n1\n");
        add_raw(3, 1, record, written.length);
        drill_text(script);
        count_lines();
        CHECK(strstr(expected, len <= 2 ? "\n1 r 3 1 0 - -\n" : "\n1 r 3 1 7 - -\n") != NULL);
    }
}

/* Raw bytes with each fault of the form, each printed by its number alone. A
 * record refused is not used up: the vote itself is taken after them all. */
static void every_fault_of_a_record_is_printed_by_its_number(void)
{
    static const char vote[] =
        "030020000102030405060708090a0b0c0d0e0f101112131415161718191a1b1c1d1e1f00000000";
    static const struct { int len; size_t at; const char *digits; unsigned answer; } cases[] = {
        { 2, 0, "03", 20 }, { 4, 0, "03", 20 }, { 6, 0, "03", 20 }, { 68, 0, "03", 20 }, { 70, 0, "03", 20 },
        { 72, 0, "03", 20 }, { 74, 0, "03", 20 }, { 76, 0, "03", 20 },
        { 2, 0, "00", 21 }, { 78, 0, "04", 21 }, { 78, 0, "ff", 21 },
        { 6, 4, "1f", 22 }, { 78, 2, "01", 22 }, { 78, 4, "21", 22 },
        { 74, 72, "07", 23 }, { 78, 72, "01", 23 }, { 78, 70, "01", 23 },
        { 78, 76, "01", 24 }, { 78, 74, "ff", 24 }, { 78, 0, "02", 24 },
        { 78, 0, "03", 0 }, { 78, 0, "03", 9 },
    };
    char lines[2000];
    int at = 0;
    size_t count = sizeof cases / sizeof *cases;

    script_len = (size_t)sprintf(script, "4 1 1 16\n1 3\n0\n%zu\nr 3 2\nr 3 2 %s00\n", count + 2, vote);
    at += sprintf(lines, "1 r 3 2 20 - -\n2 r 3 2 25 - -\n");
    for (size_t c = 0; c < count; c++) {
        char bytes[sizeof vote];

        strcpy(bytes, vote);
        memcpy(bytes + cases[c].at, cases[c].digits, 2);
        script_len += (size_t)sprintf(script + script_len, "r 3 2 %.*s\n", cases[c].len, bytes);
        at += sprintf(lines + at, "%zu r 3 2 %u - -\n", c + 3, cases[c].answer);
    }
    CHECK(prints(script, lines));
}

/* A lying sender whose fragments are no block's, or no readable block's:
 * every board delivers void, unless what was drawn happens to be a message's. */
static void a_lying_sender_is_void(void)
{
    static const int manners[] = { UNREADABLE_TREE, NO_BLOCK_TREE, UNEVEN_TREE };
    ref_table table = { 4, 1, 1, 16 };
    int all_void = 0;

    for (int turn = 0; turn < 60; turn++) {
        unsigned long old = voids;

        grow_tree(&grown, table, manners[turn % 3], (const uint8_t *)"A", 1);
        script_len = 0;
        add("4 1 1 16\n1 1\n0\n21\n");
        for (uint32_t j = 2; j <= 4; j++)
            add_raw(1, j, record, tree_record(&grown, 1, j, record));
        for (int kind = 0; kind < 2; kind++)
            for (uint32_t i = 2; i <= 4; i++)
                for (uint32_t j = 2; j <= 4; j++)
                    script_len += (size_t)sprintf(script + script_len, "%c %u %u\n", "ev"[kind], i, j);
        drill_text(script);
        count_lines();
        all_void += voids == old + 3;
    }
    CHECK(all_void >= 50);
}

/* Damage after which a line is never right. */
enum { SPACE_LAST, SPACE_FIRST, SPACE_TWICE, RETURN, TAB, ZERO, PLUS, MINUS, EMPTY, LONG, WORD_MORE, LETTER, HUGE, NUL, DAMAGES };

static void damage(int how, const char *line, size_t len, char *to)
{
    const char *space = memchr(line, ' ', len);
    size_t split = space != NULL ? (size_t)(space - line) : len;

    memcpy(to, line, len);
    to[len] = '\0';
    switch (how) {
    case SPACE_LAST:  strcat(to, " "); break;
    case SPACE_FIRST: sprintf(to, " %.*s", (int)len, line); break;
    case SPACE_TWICE: sprintf(to, "%.*s  %.*s", (int)split, line, (int)(len - split), line + split); break;
    case RETURN:      strcat(to, "\r"); break;
    case TAB:         sprintf(to, "%.*s\t%.*s", (int)split, line, (int)(len - split), line + split); break;
    case ZERO:        sprintf(to, "0%.*s", (int)len, line); break;
    case PLUS:        sprintf(to, "+%.*s", (int)len, line); break;
    case MINUS:       sprintf(to, "-%.*s", (int)len, line); break;
    case EMPTY:       to[0] = '\0'; break;
    case LONG:        memset(to, '0', 1025); to[1025] = '\0'; break;
    case WORD_MORE:   strcat(to, " 1 1 1 1"); break;
    case LETTER:      strcat(to, "G"); break;
    case HUGE:        strcpy(to, "18446744073709551617 18446744073709551616 18446744073709551617 18446744073709551616"); break;
    case NUL:         strcat(to, "\x7f"); break;
    }
}

static void every_damage_at_every_line(void)
{
    static const char whole[] = "4 1 2 16\n1 3\n2 4142\n5\ns 2 1\ne 1 1\nr 3 1 00ff\nr 3 4\nv 1 2\n";
    static char damaged[4000];

    for (unsigned line = 1; line <= 9; line++)
        for (int how = 0; how < DAMAGES; how++) {
            const char *start = whole, *end;

            for (unsigned i = 1; i < line; i++)
                start = strchr(start, '\n') + 1;
            end = strchr(start, '\n');
            memcpy(damaged, whole, (size_t)(start - whole));
            damage(how, start, (size_t)(end - start), damaged + (start - whole));
            strcat(damaged, end);
            drill_text(damaged);
            CHECK(ends_bad(line));
        }
}

static void wrong_lines(void)
{
    static const struct { const char *input; unsigned line; } cases[] = {
        { "0 0 1 16\n", 1 }, { "8 0 1 16\n", 1 }, { "3 1 1 16\n", 1 }, { "4 1 0 16\n", 1 }, { "4 1 5 16\n", 1 },
        { "4 1 1 65\n", 1 }, { "4 1 1\n", 1 }, { "4 1 1 16 1\n", 1 }, { "4 4294967297 1 16\n", 1 },
        { "4 1 1 16\n2 1 2\n", 2 }, { "4 1 1 16\n1\n", 2 }, { "4 1 1 16\n1 5\n", 2 }, { "4 1 1 16\n1 0\n", 2 },
        { "4 1 1 16\n0 1\n", 2 }, { "7 2 1 16\n2 3 3\n", 2 }, { "7 2 1 16\n3 1 2 3\n", 2 }, { "7 2 1 16\n2 3\n", 2 },
        { "4 1 1 16\n0\n17 4141414141414141414141414141414141\n", 3 }, { "4 1 1 16\n0\n1\n", 3 }, { "4 1 1 16\n0\n1 4\n", 3 },
        { "4 1 1 16\n0\n1 414\n", 3 }, { "4 1 1 16\n0\n1 4141\n", 3 }, { "4 1 1 16\n0\n1 4G\n", 3 }, { "4 1 1 16\n0\n1 4A\n", 3 },
        { "4 1 1 16\n0\n0 \n", 3 }, { "4 1 1 16\n0\n0 41\n", 3 }, { "4 1 1 16\n1 1\n1 4\n", 3 },
        { "4 1 1 16\n0\n0\n1001\n", 4 }, { "4 1 1 16\n0\n0\n1 1\n", 4 }, { "4 1 1 16\n0\n0\n65536\n", 4 },
        { "4 1 1 16\n1 3\n0\n1\ns 3 1\n", 5 }, { "4 1 1 16\n1 3\n0\n1\ne 3 1\n", 5 }, { "4 1 1 16\n1 3\n0\n1\nv 3 1\n", 5 },
        { "4 1 1 16\n1 3\n0\n1\nr 1 2\n", 5 }, { "4 1 1 16\n1 3\n0\n1\ns 1 3\n", 5 }, { "4 1 1 16\n1 3\n0\n1\nr 3 3\n", 5 },
        { "4 1 1 16\n1 3\n0\n1\nr 3 2 \n", 5 }, { "4 1 1 16\n1 3\n0\n1\nr 3 2 0\n", 5 }, { "4 1 1 16\n1 3\n0\n1\nr 3 2 0F\n", 5 },
        { "4 1 1 16\n1 3\n0\n1\nr 3 2 00 00\n", 5 }, { "4 1 1 16\n1 3\n0\n1\ns 1 2 00\n", 5 }, { "4 1 1 16\n0\n0\n1\ns 1 5\n", 5 },
        { "4 1 1 16\n0\n0\n1\ns 0 1\n", 5 }, { "4 1 1 16\n0\n0\n1\nx 1 1\n", 5 }, { "4 1 1 16\n0\n0\n1\nss 1 1\n", 5 },
        { "4 1 1 16\n0\n0\n1\nS 1 1\n", 5 }, { "4 1 1 16\n0\n0\n1\ns 1\n", 5 }, { "4 1 1 16\n0\n0\n1\n 1 1\n", 5 },
        { "4 1 1 16\n0\n0\n2\ns 1 1\n", 6 }, { "4 1 1 16\n0\n0\n1\ns 1 1\n\n", 6 }, { "4 1 1 16\n0\n0\n1\ns 1 1\ns 1 1\n", 6 },
    };

    for (size_t i = 0; i < sizeof cases / sizeof *cases; i++) {
        drill_text(cases[i].input);
        CHECK(ends_bad(cases[i].line));
    }
}

static void the_limits(void)
{
    script_len = 0;
    add("7 2 1 64\n1 3\n0\n1000\n");
    for (int k = 0; k < 1000; k++)
        script_len += (size_t)sprintf(script + script_len, "s 1 %d\n", 1 + k % 2);
    drill_text(script);
    CHECK(strstr(expected, "\n1000 s 1 2 9 - -\n") != NULL && !ends_bad(5));
    add("s 1 1\n");
    drill_text(script);
    CHECK(ends_bad(1005));
    for (size_t hex = 1018; hex <= 1020; hex += 2) {
        script_len = 0;
        add("7 2 1 64\n1 3\n0\n1\nr 3 2 ");
        for (size_t i = 0; i < hex; i++)
            add("0");
        drill_text(script);
        CHECK(hex == 1018 ? strstr(expected, "\n1 r 3 2 21 - -\n") != NULL : ends_bad(5));
    }
}

/* The longest input and one byte more, and a much longer one, say no more
 * than their first DRILL_INPUT bytes. */
static void long_inputs(void)
{
    static char huge[2 * DRILL_INPUT];
    size_t at = (size_t)sprintf(huge, "7 2 1 64\n1 3\n0\n1000\n");

    while (at < sizeof huge - 1030) {
        memcpy(huge + at, "r 3 2 ", 6);
        memset(huge + at + 6, '0', 1018);
        huge[at + 1024] = '\n';
        at += 1025;
    }
    drill(huge, at);
    CHECK(ends_bad(1005));
    drill(huge, DRILL_INPUT);
    CHECK(ends_bad(1005));
    memset(huge, '7', sizeof huge);
    drill(huge, sizeof huge);
    CHECK(ends_bad(1));
}

static void short_buffers_are_2(void)
{
    static const char input[] = "1 0 1 16\n0\n1 41\n3\ns 1 1\ne 1 1\nv 1 1\n";

    for (int b = 0; b < BUFFERS; b++)
        for (int turn = 0; turn < 3; turn++) {
            size_t sizes[BUFFERS];
            tumbeliko_drilled answer;

            memcpy(sizes, needed, sizeof sizes);
            sizes[b] = turn == 0 ? needed[b] - 1 : turn == 1 ? 0 : random_below((uint32_t)needed[b]);
            fill();
            answer = call(input, strlen(input), sizes);
            CHECK(answer.number == 2 && answer.length == 0);
            for (int i = 0; i < BUFFERS; i++)
                CHECK(rest_stays(i, 0));
        }
}

static void generated_right_inputs(void)
{
    static const int can_be_printed[] = { 0, 6, 7, 8, 9, 14, 20, 21, 22, 23, 24, 25 };

    for (int turn = 0; turn < 600; turn++) {
        write_script();
        drill(script, script_len);
        count_lines();
    }
    for (size_t i = 0; i < sizeof can_be_printed / sizeof *can_be_printed; i++)
        CHECK(answers[can_be_printed[i]] > 0);
    CHECK(messages > 0 && empties > 0 && voids > 0);
    printf("answers");
    for (int i = 0; i < REF_NUMBERS; i++)
        if (answers[i] > 0)
            printf(" %d: %lu", i, answers[i]);
    printf("; %lu messages, %lu empty, %lu void\n", messages, empties, voids);
}

static void generated_damaged_inputs(void)
{
    for (int turn = 0; turn < 600; turn++) {
        write_script();
        for (uint32_t i = 0, cuts = 1 + random_below(3); i < cuts; i++) {
            size_t at = random_below((uint32_t)script_len);

            switch (random_below(5)) {
            case 0: script[at] = (char)random_below(256); break;
            case 1: memmove(script + at, script + at + 1, script_len - at - 1); script_len--; break;
            case 2: memmove(script + at + 1, script + at, script_len - at); script_len++; script[at] = "0 \n1a"[random_below(5)]; break;
            case 3: if (turn % 4 == 0) script_len = at; break;
            case 4: script[at] = "0123456789 \nabcdefsevr"[random_below(22)]; break;
            }
            if (script_len == 0)
                break;
        }
        drill(script, script_len);
    }
}

static void random_bytes_as_input(void)
{
    static uint8_t bytes[3000];

    for (int turn = 0; turn < 200; turn++) {
        size_t len = random_below(sizeof bytes);

        random_bytes(bytes, len);
        drill((const char *)bytes, len);
    }
}

static void how_many_inputs(void)
{
    printf("%lu inputs held against the reference\n", inputs);
    CHECK(inputs >= 500);
}

static const test by_hand[] = {
    TEST(the_example_of_the_paper), TEST(an_empty_message_is_m), TEST(what_was_not_put_out_is_14), TEST(empty_and_short_inputs),
    TEST(every_message_length), TEST(a_fragment_above_s_max_is_7), TEST(every_fault_of_a_record_is_printed_by_its_number),
    TEST(a_lying_sender_is_void),
};

static const test bad_lines[] = { TEST(every_damage_at_every_line), TEST(wrong_lines) };

static const test limits[] = { TEST(the_limits), TEST(long_inputs), TEST(short_buffers_are_2) };

static const test generated[] = {
    TEST(generated_right_inputs), TEST(generated_damaged_inputs), TEST(random_bytes_as_input), TEST(how_many_inputs),
};

static const group groups[] = {
    GROUP("the drill by hand", by_hand), GROUP("bad lines", bad_lines), GROUP("limits", limits), GROUP("generated drills", generated),
};

int main(int argc, char **argv)
{
    return run_groups(groups, sizeof groups / sizeof *groups, argc, argv);
}
