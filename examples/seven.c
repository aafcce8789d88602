/*
 * The smallest whole program over tumbeliko.h: seven boards, of which two may
 * break the rules, spread a file and print what each of them delivers.
 *
 * All boards live in this one program and nothing is lost; in a machine each
 * board runs the part of one, and the queue is the bus between them.
 */

#include <stdio.h>
#include <stdlib.h>
#include <string.h>
#include "tumbeliko.h"

/* The table: the same four numbers at all boards. */
#define N       7
#define T       2
#define SENDER  1
#define LONGEST 16384

#define S_MAX   TUMBELIKO_S_MAX(N, T, LONGEST)

/* What a board keeps. */
static uint8_t states[N][TUMBELIKO_STATE_BYTES(N, S_MAX)];

/* Lent to each step; every step needs them, but none keeps anything there. */
static uint8_t out[TUMBELIKO_OUT_BYTES], delivery[LONGEST];

/* The bus: each board gets one send, and an echo and a vote from each board. */
static struct {
    uint32_t from, to;
    size_t length;
    uint8_t bytes[TUMBELIKO_OUT_BYTES];
} bus[N + 2 * N * N];

static size_t put, taken;

static uint8_t file[LONGEST + 1] = "A key file of the bindery.\n";
static size_t length;

static void put_on_bus(uint32_t from, uint32_t to, const uint8_t *record, size_t record_length)
{
    bus[put].from = from;
    bus[put].to = to;
    bus[put].length = record_length;
    memcpy(bus[put++].bytes, record, record_length);
}

static void stop(const char *what, uint32_t number)
{
    fprintf(stderr, "seven: %s was refused with %u\n", what, number);
    exit(1);
}

static void start_all(void)
{
    for (uint32_t own = 1; own <= N; own++) {
        uint32_t number = tumbeliko_start(N, T, SENDER, LONGEST, own, states[own - 1], sizeof states[own - 1]);

        if (number != TUMBELIKO_OK)
            stop("a start", number);
    }
}

static void send_all(void)
{
    for (uint32_t to = 1; to <= N; to++) {
        tumbeliko_sized sent = tumbeliko_send(N, T, SENDER, LONGEST, file, length, to, out, sizeof out);

        if (sent.number != TUMBELIKO_OK)
            stop("the file", sent.number);
        put_on_bus(SENDER, to, out, sent.length);
    }
}

/* Takes the next record from the bus through its receiver's step. A refusal
 * is nothing to worry about: records that come after a delivery get 8. */
static void step(void)
{
    uint32_t own = bus[taken].to;
    tumbeliko_stepped did = tumbeliko_step(states[own - 1], sizeof states[own - 1], bus[taken].from,
                                           bus[taken].bytes, bus[taken].length,
                                           out, sizeof out, delivery, sizeof delivery);

    taken++;
    if (did.record_length > 0)
        for (uint32_t to = 1; to <= N; to++)
            put_on_bus(own, to, out, did.record_length);
    if (did.delivery == TUMBELIKO_DELIVERY_MESSAGE)
        printf("board %u delivers %u bytes%s\n", own, did.message_length,
               did.message_length == length && memcmp(delivery, file, length) == 0 ? ": the file" : "");
    if (did.delivery == TUMBELIKO_DELIVERY_VOID)
        printf("board %u delivers void: the sender broke the rules\n", own);
}

int main(int argc, char **argv)
{
    FILE *from = argc > 1 ? fopen(argv[1], "rb") : NULL;

    if (argc > 2 || (argc == 2 && from == NULL)) {
        fprintf(stderr, "usage: %s [FILE]\n", argv[0]);
        return 2;
    }
    length = strlen((const char *)file);
    if (from != NULL) {
        length = fread(file, 1, sizeof file, from);
        fclose(from);
    }
    start_all();
    send_all();
    while (taken < put)
        step();
    return 0;
}
