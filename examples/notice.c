/*
 * Four boards, of which one may break the rules, spread a notice of at most
 * 64 bytes and print what each of them delivers. Board 4 breaks them: it
 * echoes and votes for a notice of its own making.
 *
 * All boards live in this one program; in a machine each board runs the part
 * of one, and the queue is the bus between them.
 */

#include <stdio.h>
#include <stdlib.h>
#include <string.h>
#include "tumbeliko.h"

/* The table: the same three numbers at all boards. */
#define N       4
#define T       1
#define SENDER  2

#define LIAR    4

/* What a board keeps: one size for every table. */
static uint8_t states[N][TUMBELIKO_NOTICE_STATE_BYTES];

/* Lent to each step; every step needs them, but none keeps anything there. */
static uint8_t out[TUMBELIKO_NOTICE_OUT_BYTES], delivery[TUMBELIKO_NOTICE_MAX];

/* The bus: each board gets one send, and an echo and a vote from each board. */
static struct {
    uint32_t from, to;
    size_t length;
    uint8_t bytes[TUMBELIKO_NOTICE_OUT_BYTES];
} bus[N + 2 * N * N];

static size_t put, taken;

static void put_on_bus(uint32_t from, uint32_t to, size_t length)
{
    bus[put].from = from;
    bus[put].to = to;
    bus[put].length = length;
    memcpy(bus[put++].bytes, out, length);
}

static void put_to_all(uint32_t from, size_t length)
{
    for (uint32_t to = 1; to <= N; to++)
        put_on_bus(from, to, length);
}

static void stop(const char *what, uint32_t number)
{
    fprintf(stderr, "notice: %s was refused with %u\n", what, number);
    exit(1);
}

static void start_all(void)
{
    for (uint32_t own = 1; own <= N; own++) {
        uint32_t number = tumbeliko_notice_start(N, T, SENDER, own, states[own - 1], sizeof states[own - 1]);

        if (number != TUMBELIKO_OK)
            stop("a start", number);
    }
}

static void send_all(const char *text)
{
    for (uint32_t to = 1; to <= N; to++) {
        tumbeliko_sized sent = tumbeliko_notice_send(N, T, SENDER, (const uint8_t *)text, strlen(text), to, out, sizeof out);

        if (sent.number != TUMBELIKO_OK)
            stop("the notice", sent.number);
        put_on_bus(SENDER, to, sent.length);
    }
}

static void lie(void)
{
    static const char made_up[] = "all clear";

    for (uint32_t kind = TUMBELIKO_NOTICE_ECHO; kind <= TUMBELIKO_NOTICE_VOTE; kind++)
        put_to_all(LIAR, tumbeliko_write_notice(kind, (const uint8_t *)made_up, strlen(made_up), out, sizeof out).length);
}

/* Takes the next record from the bus through its receiver's step. A refusal
 * is nothing to worry about: records that come after a delivery get 8. */
static void step(void)
{
    uint32_t own = bus[taken].to;
    tumbeliko_stepped did = tumbeliko_notice_step(states[own - 1], sizeof states[own - 1], bus[taken].from,
                                                  bus[taken].bytes, bus[taken].length,
                                                  out, sizeof out, delivery, sizeof delivery);

    taken++;
    if (did.record_length > 0)
        put_to_all(own, did.record_length);
    if (did.delivery == TUMBELIKO_DELIVERY_MESSAGE)
        printf("board %u delivers %u bytes: %.*s\n", own, did.message_length, (int)did.message_length, (const char *)delivery);
}

int main(int argc, char **argv)
{
    if (argc > 2) {
        fprintf(stderr, "usage: %s [TEXT]\n", argv[0]);
        return 2;
    }
    start_all();
    send_all(argc == 2 ? argv[1] : "shelf door open");
    lie();
    while (taken < put) {
        if (bus[taken].to == LIAR)
            taken++;                    /* what comes to a board that breaks the rules, it does not step through */
        else
            step();
    }
    return 0;
}
