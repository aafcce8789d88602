/*
 * Hands the inputs in a folder, or one in a file, to the reference and to
 * the library: all as they are, and then with changed bytes, again and again
 * as long as the time lasts.
 *
 * Arguments: how many seconds, a seed, the folder or the file.
 */

#define _DEFAULT_SOURCE

#include <dirent.h>
#include <signal.h>
#include <stdio.h>
#include <stdlib.h>
#include <string.h>
#include <time.h>
#include "fuzz.h"

#define LONGEST 4096

static char name[4096];
static uint8_t input[LONGEST];
static size_t input_len;
static unsigned long inputs, files;
static uint64_t drawn;

/* Keeps the input at fault, and stops. */
void found(const char *call, const char *fact)
{
    FILE *file = fopen("build/fuzz/different", "wb");

    printf("%s: not so: %s\nwith %s, or with changed bytes of it: build/fuzz/different\n", call, fact, name);
    if (file != NULL) {
        fwrite(input, 1, input_len, file);
        fclose(file);
    }
    exit(1);
}

static void touched(int number)
{
    (void)number;
    found("some call", "no byte outside the lent buffers is touched");
}

static uint32_t below(uint32_t limit)
{
    uint64_t z = drawn += 0x9e3779b97f4a7c15u;

    z = (z ^ z >> 30) * 0xbf58476d1ce4e5b9u;
    z = (z ^ z >> 27) * 0x94d049bb133111ebu;
    return (uint32_t)((z >> 32) * limit >> 32);
}

/* Some bytes other than they were, some cut off or put on at the end. */
static void change(void)
{
    for (uint32_t count = 1 + below(4); count > 0 && input_len > 0; count--)
        input[below((uint32_t)input_len)] = (uint8_t)below(256);
    if (below(4) == 0 && input_len > 2)
        input_len -= below((uint32_t)input_len / 2);
    for (uint32_t count = below(4) == 0 ? below(40) : 0; count > 0 && input_len < LONGEST; count--)
        input[input_len++] = (uint8_t)below(256);
}

static void replay(bool changed)
{
    FILE *file = fopen(name, "rb");

    if (file == NULL) {
        perror(name);
        exit(2);
    }
    input_len = fread(input, 1, sizeof input, file);
    fclose(file);
    if (changed)
        change();
    else
        files++;
    fuzz_one(input, input_len);
    inputs++;
}

/* All of them; changed ones until the time is up. */
static void replay_all(const char *where, bool changed, time_t end)
{
    DIR *folder = opendir(where);
    struct dirent *one;

    snprintf(name, sizeof name, "%s", where);
    if (folder == NULL) {
        replay(changed);
        return;
    }
    while ((!changed || time(NULL) < end) && (one = readdir(folder)) != NULL)
        if (one->d_name[0] != '.') {
            snprintf(name, sizeof name, "%s/%s", where, one->d_name);
            replay(changed);
        }
    closedir(folder);
}

int main(int argc, char **argv)
{
    time_t end;

    if (argc != 4) {
        fprintf(stderr, "usage: %s SECONDS SEED FOLDER\n", argv[0]);
        return 2;
    }
    end = time(NULL) + (time_t)strtoul(argv[1], NULL, 10);
    drawn = strtoull(argv[2], NULL, 10);
    signal(SIGSEGV, touched);
    signal(SIGBUS, touched);
    replay_all(argv[3], false, end);
    while (time(NULL) < end)
        replay_all(argv[3], true, end);
    show_counts();
    printf("%lu inputs from %lu found ones, the library and the reference agree in all\n", inputs, files);
    return 0;
}
