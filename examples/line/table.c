/* What is printed: the boards, the figures, and whether the promises held. */

#include <stdio.h>
#include <string.h>
#include "line.h"

const char *behaviour_name(behaviour which)
{
    static const char *const names[] = { "keeps the rules", "fails", "silent", "lies", "garbles", "splits" };

    return names[which];
}

/* ---- the boards */

static const char *delivered_name(const board *one)
{
    if (one->delivery == TUMBELIKO_DELIVERY_NONE)
        return "nothing";
    if (one->delivery == TUMBELIKO_DELIVERY_VOID)
        return "void";
    if (play.notice)
        return same_as_file(one) ? "the notice" : "another notice";
    return same_as_file(one) ? "the file" : "another file";
}

static void show_board(uint32_t own)
{
    const board *one = &line[own - 1];
    behaviour how = play.behaves[own - 1];
    bool echoed = one->echoed_at != NEVER, voted = one->voted_at != NEVER;

    printf("  %5u  %-7s%-9s", own, own == SENDER ? "sender" : "", how == KEEPS ? "" : behaviour_name(how));
    if (how > FAILS) {
        printf("      -       -      -        -  -           -\n");
        return;
    }
    printf("  %5u  %6u  %5u  %7u  %-4s%s%-4s  ", one->heard[TUMBELIKO_SEND], one->heard[TUMBELIKO_ECHO],
           one->heard[TUMBELIKO_VOTE], one->refused, echoed ? "echo" : "", echoed && voted ? ", " : "  ",
           voted ? "vote" : "");
    if (one->delivery == TUMBELIKO_DELIVERY_NONE)
        printf("%s\n", delivered_name(one));
    else
        printf("%-14s%7u\n", delivered_name(one), one->delivered_step);
}

static void show_figures(void)
{
    static const char *const meanings[TUMBELIKO_NUMBERS] = {
        [TUMBELIKO_NOT_THE_SENDER] = "sends not from the sender", [TUMBELIKO_BAD_FRAGMENT] = "too long",
        [TUMBELIKO_LATE] = "after the end", [TUMBELIKO_SECOND] = "second ones", [TUMBELIKO_CUT_OFF] = "cut off",
        [TUMBELIKO_BAD_KIND] = "of no kind", [TUMBELIKO_BAD_ROOT_COUNT] = "with a wrong root count",
        [TUMBELIKO_BAD_PATH_COUNT] = "with a wrong path count",
        [TUMBELIKO_BAD_FRAGMENT_COUNT] = "with a wrong fragment count", [TUMBELIKO_LEFT_OVER] = "with bytes left over"
    };
    uint32_t h = 0;

    for (uint32_t own = 1; own <= play.n; own++)
        h += keeps(own);
    printf("  handed over    %u records: %u accepted", seen.handed, seen.answers[0]);
    for (int number = 1; number < TUMBELIKO_NUMBERS; number++)
        if (seen.answers[number] > 0)
            printf(", %u %s", seen.answers[number],
                   play.notice && number == TUMBELIKO_BAD_NOTICE_COUNT ? "with a wrong notice count"
                   : meanings[number] != NULL ? meanings[number] : "refused");
    if (play.poll > 0)
        printf("\n  mailboxes      %u calls instead of %u: %u saved", seen.calls, seen.handed, seen.handed - seen.calls);
    printf("\n  on the way     %u lost, %u repeated\n", seen.lost, seen.repeated);
    printf("  put out        %lu records, %lu bytes by the %u boards that keep the rules, one for each receiver\n",
           seen.records, seen.bytes, h);
    printf("                 (no run has more than 2 x %u x %u%s = %u records)\n", h, play.n,
           keeps(SENDER) ? " + n" : "", 2 * h * play.n + (keeps(SENDER) ? play.n : 0));
    if (h < play.n)
        printf("                 %lu records, %lu bytes by the others\n", seen.other_records, seen.other_bytes);
}

/* A file by its name, a notice by its text, in which control characters become question marks. */
static void show_name(void)
{
    if (!play.notice) {
        printf("%s", play.name);
        return;
    }
    printf("the notice \"");
    for (size_t i = 0; i < play.file_len; i++)
        putchar(play.file[i] < ' ' || play.file[i] == 0x7f ? '?' : play.file[i]);
    printf("\"");
}

void show_table(void)
{
    show_name();
    printf(", %zu bytes, from board %d to %u boards, of which %u may break the rules\n", play.file_len, SENDER, play.n, play.t);
    printf("seed %llu; of 100 records %u are lost", (unsigned long long)play.seed, play.loss);
    if (play.poll > 0)
        printf("; each board empties its mailbox every %u ms", (unsigned)(play.poll / 1000));
    printf("\n\n");
    printf("                            accepted\n");
    printf("  board                   sends  echoes  votes  refused  put out     delivered     at step\n");
    for (uint32_t own = 1; own <= play.n; own++)
        show_board(own);
    printf("\n");
    show_figures();
    printf("\n");
}

/* ---- the promises */

static bool alike(const board *a, const board *b)
{
    return a->delivery == b->delivery && a->length == b->length && memcmp(a->delivered, b->delivered, a->length) == 0;
}

/* Of the boards that keep the rules; all records between them have been handed over. */
promises judged(void)
{
    promises held = { true, true, true };
    const board *first = NULL;
    bool all = true;

    for (uint32_t own = 1; own <= play.n; own++) {
        const board *one = &line[own - 1];

        if (!keeps(own))
            continue;
        if (one->delivery == TUMBELIKO_DELIVERY_NONE) {
            all = false;
            continue;
        }
        if (first == NULL)
            first = one;
        held.agreement = held.agreement && alike(one, first);
        held.validity = held.validity && (!keeps(SENDER) || same_as_file(one));
    }
    held.totality = all || (first == NULL && !keeps(SENDER));
    return held;
}

static void show_promise(const char *name, const char *what, bool held)
{
    printf("  %-12s%-62s %s\n", name, what, held ? "held" : "BROKEN");
}

bool show_promises(void)
{
    promises held = judged();

    show_promise("agreement", "no two boards that keep the rules delivered differently", held.agreement);
    if (keeps(SENDER))
        show_promise("validity", play.notice ? "none of them delivered anything but the sender's notice"
                                             : "none of them delivered anything but the sender's file", held.validity);
    else
        printf("  %-12s%s\n", "validity", "the sender breaks the rules: nothing to keep");
    show_promise("totality", keeps(SENDER) ? "all of them delivered" : "all of them delivered, or none did", held.totality);
    return held.agreement && held.validity && held.totality;
}
