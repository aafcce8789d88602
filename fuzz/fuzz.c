#include <stdio.h>
#include "fuzz.h"

static const struct {
    const char *name;
    void (*run)(void);
} calls[] = {
    { "hash", try_hash }, { "path check", try_path }, { "encode", try_encode }, { "rebuild", try_rebuild },
    { "read block", try_read_block }, { "read record", try_read_record }, { "damaged record", try_damaged_record },
    { "write record", try_write_record }, { "send", try_send }, { "start", try_start }, { "step", try_steps },
    { "step, damaged state", try_damaged_state }, { "drill", try_drill }, { "mailbox", try_mailboxes },
    { "read notice", try_read_notice }, { "write notice", try_write_notice }, { "notice send", try_notice_send },
    { "notice start", try_notice_start }, { "notice step", try_notice_steps },
    { "notice step, damaged state", try_damaged_notice_state },
};

#define CALLS (sizeof calls / sizeof *calls)

static size_t running;
static unsigned long counts[CALLS][REF_NUMBERS], deliveries[3];

void differs(const char *fact)
{
    found(calls[running].name, fact);
}

void note(uint32_t number)
{
    counts[running][number % REF_NUMBERS]++;
}

void note_delivery(uint32_t delivery)
{
    deliveries[delivery % 3]++;
}

void fuzz_one(const uint8_t *input, size_t len)
{
    begin_drawing(input, len);
    running = draw_byte() % CALLS;
    calls[running].run();
}

void show_counts(void)
{
    for (size_t i = 0; i < CALLS; i++) {
        unsigned long all = 0;

        for (int number = 0; number < REF_NUMBERS; number++)
            all += counts[i][number];
        printf("  %-26s %9lu calls", calls[i].name, all);
        for (int number = 0; number < REF_NUMBERS; number++)
            if (counts[i][number] > 0)
                printf("  %d: %lu", number, counts[i][number]);
        printf("\n");
    }
    printf("  %lu messages and notices and %lu voids delivered\n", deliveries[1], deliveries[2]);
}
