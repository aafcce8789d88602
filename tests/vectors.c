/*
 * Published vectors, read from tests/vectors/, through the library. Run it
 * from the root of the repository, or name the folder by -DVECTORS=..
 */

#include <stdio.h>
#include <stdlib.h>
#include <string.h>
#include "harness.h"
#include "tumbeliko.h"

#ifndef VECTORS
#define VECTORS "tests/vectors/"
#endif

#define WORDS 12
#define LINE  2048

static uint8_t bytes[ROOM];

/* ---- reading the files */

/* The next line that is no comment, cut into words; their number, 0 at the
 * end of the file. */
static int next_line(FILE *file, char *line, char **word)
{
    while (fgets(line, LINE, file) != NULL) {
        int count = 0;

        if (line[0] == '#' || line[0] == '\n')
            continue;
        for (char *w = strtok(line, " \n"); w != NULL && count < WORDS; w = strtok(NULL, " \n"))
            word[count++] = w;
        return count;
    }
    return 0;
}

static int digit(char c)
{
    static const char digits[] = "0123456789abcdef";
    const char *at = c == 0 ? NULL : strchr(digits, c);

    return at == NULL ? -1 : (int)(at - digits);
}

/* The bytes that hex stands for, - for none; false if it is not hex. */
static bool from_hex(const char *hex, uint8_t *to, size_t most, size_t *len)
{
    *len = 0;
    if (strcmp(hex, "-") == 0)
        return true;
    for (; hex[0] != 0; hex += 2) {
        int high = digit(hex[0]), low = high < 0 ? -1 : digit(hex[1]);

        if (low < 0 || *len == most)
            return false;
        to[(*len)++] = (uint8_t)(high * 16 + low);
    }
    return true;
}

/* ---- SHA-256 */

/* The message of a line of sha256.txt; false if there is none. */
static bool message_of(char **word, int count, size_t *len)
{
    size_t once, times;

    if (count == 3 && strcmp(word[0], "text") == 0) {
        *len = strlen(word[1]);
        memcpy(bytes, word[1], *len);
        return true;
    }
    if (count == 3 && strcmp(word[0], "hex") == 0)
        return from_hex(word[1], bytes, sizeof bytes, len);
    if (count != 4 || strcmp(word[0], "repeat") != 0 || !from_hex(word[2], bytes, sizeof bytes, &once))
        return false;
    times = (size_t)strtoul(word[1], NULL, 10);
    if (once == 0 || times > sizeof bytes / once)
        return false;
    for (size_t i = once; i < times * once; i++)
        bytes[i] = bytes[i - once];
    *len = times * once;
    return true;
}

static void hash_file(const char *name, int vectors)
{
    FILE *file = fopen(name, "r");
    char line[LINE], *word[WORDS];
    int count, seen = 0;

    CHECK(file != NULL);
    while (file != NULL && (count = next_line(file, line, word)) != 0) {
        uint8_t digest[32];
        size_t len = 0, digest_len = 0;

        seen++;
        CHECK(message_of(word, count, &len));
        CHECK(from_hex(word[count - 1], digest, 32, &digest_len) && digest_len == 32);
        for (int p = 0; p < PLACES; p++) {
            tumbeliko_digest got;

            place(p);
            got = tumbeliko_hash(lend(0, bytes, len), len);
            CHECK(got.number == 0);
            CHECK(memcmp(got.bytes, digest, 32) == 0);
            CHECK(holds(0, bytes));
        }
    }
    CHECK(seen == vectors);
    if (file != NULL)
        fclose(file);
}

static void the_published_digests_of_sha_256(void)
{
    hash_file(VECTORS "sha256.txt", 28);
}

static void digests_at_the_lengths_where_padding_turns(void)
{
    hash_file(VECTORS "sha256-lengths.txt", 23);
}

/* ---- the tree */

typedef struct {
    uint32_t size, leaf;
    uint8_t fragment[64], root[32], path[192];
    size_t fragment_len, path_len;
} tree_line;

static bool read_tree_line(char **word, int count, tree_line *one)
{
    size_t len;

    if (count < 4 || count > 10)
        return false;
    one->size = (uint32_t)strtoul(word[0], NULL, 10);
    one->leaf = (uint32_t)strtoul(word[1], NULL, 10);
    if (!from_hex(word[2], one->fragment, sizeof one->fragment, &one->fragment_len)
        || !from_hex(word[3], one->root, 32, &len) || len != 32)
        return false;
    one->path_len = 0;
    for (int i = 4; i < count; i++) {
        if (!from_hex(word[i], one->path + one->path_len, 32, &len) || len != 32)
            return false;
        one->path_len += 32;
    }
    return true;
}

static bool correct(const tree_line *one)
{
    bool answers[PLACES];

    for (int p = 0; p < PLACES; p++) {
        const uint8_t *root, *path, *fragment;

        place(p);
        root = lend(0, one->root, 32);
        path = lend(1, one->path, one->path_len);
        fragment = lend(2, one->fragment, one->fragment_len);
        answers[p] = tumbeliko_path_correct(one->size, one->leaf, root, 32, path, one->path_len,
                                            fragment, one->fragment_len);
        CHECK(holds(0, one->root) && holds(1, one->path) && holds(2, one->fragment));
    }
    CHECK(answers[0] == answers[1]);
    return answers[0];
}

/* Hands each line of the tree's file to `try`. */
static void tree_file(void (*try)(tree_line *))
{
    FILE *file = fopen(VECTORS "rfc6962-tree.txt", "r");
    char line[LINE], *word[WORDS];
    int count, seen = 0;

    CHECK(file != NULL);
    while (file != NULL && (count = next_line(file, line, word)) != 0) {
        tree_line one;
        bool read = read_tree_line(word, count, &one);

        seen++;
        CHECK(read);
        if (read)
            try(&one);
    }
    CHECK(seen == 36);
    if (file != NULL)
        fclose(file);
}

static void as_it_stands(tree_line *one)
{
    CHECK(correct(one));
}

static void with_each_bit_turned(tree_line *one)
{
    for (size_t bit = 0; bit < 256; bit++) {
        one->root[bit / 8] ^= (uint8_t)(1 << bit % 8);
        CHECK(!correct(one));
        one->root[bit / 8] ^= (uint8_t)(1 << bit % 8);
    }
    for (size_t bit = 0; bit < 8 * one->path_len; bit++) {
        one->path[bit / 8] ^= (uint8_t)(1 << bit % 8);
        CHECK(!correct(one));
        one->path[bit / 8] ^= (uint8_t)(1 << bit % 8);
    }
    for (size_t bit = 0; bit < 8 * one->fragment_len; bit++) {
        one->fragment[bit / 8] ^= (uint8_t)(1 << bit % 8);
        CHECK(!correct(one));
        one->fragment[bit / 8] ^= (uint8_t)(1 << bit % 8);
    }
}

static void at_another_place(tree_line *one)
{
    uint32_t leaf = one->leaf;

    for (uint32_t other = 0; other <= 10; other++) {
        one->leaf = other;
        CHECK(correct(one) == (other == leaf));
    }
}

static void the_audit_paths_of_the_certificate_transparency_tree_are_correct(void)
{
    tree_file(as_it_stands);
}

static void no_audit_path_with_a_bit_turned_is_correct(void)
{
    tree_file(with_each_bit_turned);
}

static void no_audit_path_is_correct_at_another_leaf(void)
{
    tree_file(at_another_place);
}

static const test hash_tests[] = {
    TEST(the_published_digests_of_sha_256),
    TEST(digests_at_the_lengths_where_padding_turns),
};

static const test tree_tests[] = {
    TEST(the_audit_paths_of_the_certificate_transparency_tree_are_correct),
    TEST(no_audit_path_with_a_bit_turned_is_correct),
    TEST(no_audit_path_is_correct_at_another_leaf),
};

int main(int argc, char **argv)
{
    static const group groups[] = { GROUP("SHA-256", hash_tests), GROUP("RFC 6962", tree_tests) };

    return run_groups(groups, sizeof groups / sizeof *groups, argc, argv);
}
