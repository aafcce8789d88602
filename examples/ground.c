/*
 * A small demonstration of the ground: cuts a message into fragments, shows
 * them, and gets the message back from a few of them.
 */

#include <errno.h>
#include <stdio.h>
#include <stdlib.h>
#include <string.h>
#include <time.h>
#include "tumbeliko.h"

#define LONGEST TUMBELIKO_LONGEST_MAX

/* k is above n / 3, so n * s_max stays below this for every table. */
#define AREA    (3 * (LONGEST + 4) + TUMBELIKO_BOARDS_MAX)

static const char built_in[] =
    "The bindery's boards must agree on the order sheet: all of them, on the same\n"
    "one, even if the sender or up to t of the boards break the rules.\n";

static uint8_t message[LONGEST + 1], area[AREA], root[TUMBELIKO_ROOT_BYTES];
static uint8_t paths[TUMBELIKO_PATHS_BYTES(TUMBELIKO_BOARDS_MAX)];
static uint8_t lengths[TUMBELIKO_LENGTHS_BYTES(TUMBELIKO_BOARDS_MAX)];
static uint8_t block[LONGEST + 4 + TUMBELIKO_BOARDS_MAX], back[LONGEST];

static void help(const char *program)
{
    printf("usage: %s [-n BOARDS] [-t FAULTY] [FILE]\n\n"
           "Cuts FILE (or a built-in text) into one fragment for each board, shows the\n"
           "fragments, and rebuilds the message from random sets of k = n - 2t boards.\n\n"
           "  -n BOARDS   how many boards, 1 to 64; 7 if not given\n"
           "  -t FAULTY   how many of them may break the rules, 3t < n; 2 if not given\n"
           "  FILE        the message, at most 16,384 bytes\n"
           "  --help      this text\n", program);
}

static int complain(const char *what, const char *which)
{
    fprintf(stderr, "ground: %s%s%s; --help tells more\n", what, which[0] ? ": " : "", which);
    return 2;
}

/* What a refusal number means, in the words of the header. */
static const char *meaning(uint32_t number)
{
    switch (number) {
    case TUMBELIKO_BAD_TABLE:       return "table outside its limits: n 1 to 64, 3t < n";
    case TUMBELIKO_SHORT_BUFFER:    return "a lent buffer shorter than needed";
    case TUMBELIKO_NO_SUCH_BOARD:   return "a marked board above n";
    case TUMBELIKO_BAD_FRAGMENT:    return "a marked fragment of no bytes or above s_max";
    case TUMBELIKO_TOO_FEW:         return "fewer than k fragments marked";
    case TUMBELIKO_NO_BLOCK:        return "no block agrees";
    case TUMBELIKO_UNREADABLE:      return "block cannot be read";
    case TUMBELIKO_LONG_MESSAGE:    return "message longer than 16,384 bytes";
    default:                        return "not refused";
    }
}

/* A number from 0 to 9999, digits only; -1 if it is none. */
static long number_of(const char *word)
{
    size_t digits = strspn(word, "0123456789");

    return digits == 0 || digits > 4 || word[digits] != 0 ? -1 : strtol(word, NULL, 10);
}

/* Reads the whole file, or its first LONGEST + 1 bytes. */
static int read_file(const char *name, size_t *len)
{
    FILE *file = fopen(name, "rb");

    if (file == NULL)
        return complain(strerror(errno), name);
    *len = fread(message, 1, sizeof message, file);
    if (ferror(file)) {
        fclose(file);
        return complain("cannot read", name);
    }
    fclose(file);
    return 0;
}

static uint64_t random_set(uint32_t n, size_t count)
{
    uint64_t set = 0;

    while (count > 0) {
        uint64_t bit = (uint64_t)1 << ((uint32_t)rand() / 7 % n);

        count -= (set & bit) == 0;
        set |= bit;
    }
    return set;
}

/* The number of nodes with which a path is correct, or -1. */
static int nodes_of(uint32_t n, uint32_t board, const uint8_t *fragment, size_t fragment_len)
{
    const uint8_t *path = paths + (board - 1) * TUMBELIKO_PATH_BYTES;

    for (int nodes = 0; nodes <= TUMBELIKO_NODES_MAX; nodes++)
        if (tumbeliko_path_correct(n, board, root, sizeof root, path, (size_t)nodes * TUMBELIKO_NODE_BYTES,
                                   fragment, fragment_len))
            return nodes;
    return -1;
}

static void show_fragment(uint32_t n, uint32_t board, const uint8_t *fragment, size_t len)
{
    int nodes = nodes_of(n, board, fragment, len);

    printf("  %5u  %6zu  ", board, len);
    for (size_t i = 0; i < 12; i++)
        if (i < len)
            printf("%02x ", fragment[i]);
        else
            printf("   ");
    printf("%s  ", len > 12 ? ".." : "  ");
    if (nodes < 0)
        printf("    -  no\n");
    else
        printf("%5d  yes\n", nodes);
}

/* Prints the boards of a set, as many as a line of 80 columns has room for. */
static void show_set(uint64_t set)
{
    int width = 0;

    for (uint32_t board = 1; board <= 64; board++) {
        if (!(set >> (board - 1) & 1))
            continue;
        if (width > 30) {
            width += printf(" ..");
            break;
        }
        width += printf(" %u", board);
    }
    printf("%*s", width < 36 ? 36 - width : 0, "");
}

/* Rebuilds from a set and says what came of it; true if the message is back. */
static bool rebuild(uint32_t n, uint32_t t, uint64_t set, size_t message_len)
{
    tumbeliko_sized rebuilt, read;

    printf("  from");
    show_set(set);
    rebuilt = tumbeliko_rebuild(n, t, 1, LONGEST, set, lengths, sizeof lengths, area, sizeof area,
                                block, sizeof block);
    if (rebuilt.number != TUMBELIKO_OK) {
        printf(" refused %u: %s\n", rebuilt.number, meaning(rebuilt.number));
        return false;
    }
    read = tumbeliko_read_block(n, t, 1, LONGEST, block, rebuilt.length, back, sizeof back);
    if (read.number != TUMBELIKO_OK) {
        printf(" refused %u: %s\n", read.number, meaning(read.number));
        return false;
    }
    if (read.length != message_len || memcmp(back, message, message_len) != 0) {
        printf(" another message came back\n");
        return false;
    }
    printf(" the message is back, %u bytes\n", read.length);
    return true;
}

int main(int argc, char **argv)
{
    long boards = 7, faulty = 2;
    const char *name = NULL;
    size_t len = sizeof built_in - 1, s_max, k;
    uint32_t n, t;
    tumbeliko_sized encoded;
    bool right = true;

    for (int i = 1; i < argc; i++) {
        bool is_n = strcmp(argv[i], "-n") == 0, is_t = strcmp(argv[i], "-t") == 0;

        if (strcmp(argv[i], "--help") == 0) {
            help(argv[0]);
            return 0;
        }
        if (is_n || is_t) {
            long value = i + 1 < argc ? number_of(argv[i + 1]) : -1;

            if (value < 0)
                return complain("a number must follow", argv[i]);
            *(is_n ? &boards : &faulty) = value;
            i++;
        } else if (argv[i][0] == '-') {
            return complain("no such option", argv[i]);
        } else if (name != NULL) {
            return complain("one file at a time", argv[i]);
        } else {
            name = argv[i];
        }
    }
    memcpy(message, built_in, len);
    if (name != NULL && read_file(name, &len) != 0)
        return 2;
    n = (uint32_t)boards;
    t = (uint32_t)faulty;
    encoded = tumbeliko_encode(n, t, 1, LONGEST, message, len, area, sizeof area, root, sizeof root,
                               paths, sizeof paths);
    if (encoded.number != TUMBELIKO_OK) {
        fprintf(stderr, "ground: refused %u: %s\n", encoded.number, meaning(encoded.number));
        return 1;
    }
    s_max = TUMBELIKO_S_MAX(n, t, LONGEST);
    k = TUMBELIKO_K(n, t);

    printf("%s: %zu bytes\n", name == NULL ? "a built-in text" : name, len);
    printf("for %u boards, of which %u may break the rules; any %zu fragments are enough\n\n", n, t, k);
    printf("root  ");
    for (size_t i = 0; i < sizeof root; i++)
        printf("%02x", root[i]);
    printf("\n\n  board  length  first bytes                             nodes  path correct\n");
    for (uint32_t board = 1; board <= n; board++) {
        lengths[2 * (board - 1)] = (uint8_t)(encoded.length >> 8);
        lengths[2 * (board - 1) + 1] = (uint8_t)encoded.length;
        show_fragment(n, board, area + (board - 1) * s_max, encoded.length);
    }

    printf("\nrebuilding from %zu of %u boards\n\n", k, n);
    srand((unsigned)time(NULL));
    for (int i = 0; i < 4; i++)
        right = rebuild(n, t, random_set(n, k), len) && right;

    printf("\na byte of board %u's fragment is damaged\n\n", n);
    area[(n - 1) * s_max] ^= 0x20;
    printf("  board  length  first bytes                             nodes  path correct\n");
    show_fragment(n, n, area + (n - 1) * s_max, encoded.length);
    printf("\n");
    rebuild(n, t, ((uint64_t)1 << (n - 1) << 1) - 1, len);
    if (t > 0)
        right = rebuild(n, t, ((uint64_t)1 << (n - 1)) - 1, len) && right;
    return right ? 0 : 1;
}
