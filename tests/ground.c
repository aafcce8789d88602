/*
 * The calls of the ground (hash, path check, encode, rebuild, read block)
 * against the reference and against the sentences of document 01.
 *
 * Every call is made with each buffer before an inaccessible page and again
 * with each buffer after one. The reference makes the same call on copies;
 * then answers and all bytes of all buffers must be the same.
 */

#include <stdlib.h>
#include <string.h>
#include "harness.h"
#include "reference/reference.h"
#include "tumbeliko.h"

typedef ref_table table;

/* ---- the same call by the library and by the reference */

static void check_hash(const uint8_t *data, size_t len, uint32_t number)
{
    ref_digest right = ref_hash(data, len);

    CHECK(right.number == number);
    for (int p = 0; p < PLACES; p++) {
        tumbeliko_digest got;

        place(p);
        got = tumbeliko_hash(lend(0, data, len), len);
        CHECK(got.number == right.number);
        CHECK(memcmp(got.bytes, right.bytes, 32) == 0);
        CHECK(holds(0, data));
    }
}

static bool check_path(uint32_t n, uint32_t board, const uint8_t *root, size_t root_len,
                       const uint8_t *path, size_t path_len, const uint8_t *fragment, size_t fragment_len)
{
    bool right = ref_path_correct(n, board, root, root_len, path, path_len, fragment, fragment_len);

    for (int p = 0; p < PLACES; p++) {
        const uint8_t *a, *b, *c;

        place(p);
        a = lend(0, root, root_len);
        b = lend(1, path, path_len);
        c = lend(2, fragment, fragment_len);
        CHECK(tumbeliko_path_correct(n, board, a, root_len, b, path_len, c, fragment_len) == right);
        CHECK(holds(0, root));
        CHECK(holds(1, path));
        CHECK(holds(2, fragment));
    }
    return right;
}

static uint8_t old_area[ROOM], old_root[ROOM], old_paths[ROOM], old_block[ROOM], old_message[ROOM];
static uint8_t new_area[ROOM], new_root[ROOM], new_paths[ROOM], new_block[ROOM], new_message[ROOM];

/* Writes into new_area, new_root and new_paths what encoding leaves there. */
static ref_sized check_encode(table b, const uint8_t *message, size_t message_len,
                              size_t area_len, size_t root_len, size_t paths_len)
{
    ref_sized right;

    random_bytes(old_area, area_len);
    random_bytes(old_root, root_len);
    random_bytes(old_paths, paths_len);
    memcpy(new_area, old_area, area_len);
    memcpy(new_root, old_root, root_len);
    memcpy(new_paths, old_paths, paths_len);
    right = ref_encode(b.n, b.t, b.sender, b.longest, message, message_len,
                       new_area, area_len, new_root, root_len, new_paths, paths_len);
    for (int p = 0; p < PLACES; p++) {
        tumbeliko_sized got;
        uint8_t *lent[4];

        place(p);
        lent[0] = lend(0, message, message_len);
        lent[1] = lend(1, old_area, area_len);
        lent[2] = lend(2, old_root, root_len);
        lent[3] = lend(3, old_paths, paths_len);
        got = tumbeliko_encode(b.n, b.t, b.sender, b.longest, lent[0], message_len,
                               lent[1], area_len, lent[2], root_len, lent[3], paths_len);
        CHECK(got.number == right.number);
        CHECK(got.length == right.length);
        CHECK(holds(0, message));
        CHECK(holds(1, new_area));
        CHECK(holds(2, new_root));
        CHECK(holds(3, new_paths));
    }
    return right;
}

/* Writes into new_block what rebuilding leaves there. */
static ref_sized check_rebuild(table b, uint64_t marked, const uint8_t *lengths, size_t lengths_len,
                               const uint8_t *area, size_t area_len, size_t block_len)
{
    ref_sized right;

    random_bytes(old_block, block_len);
    memcpy(new_block, old_block, block_len);
    right = ref_rebuild(b.n, b.t, b.sender, b.longest, marked, lengths, lengths_len, area, area_len,
                        new_block, block_len);
    for (int p = 0; p < PLACES; p++) {
        tumbeliko_sized got;
        uint8_t *lent[3];

        place(p);
        lent[0] = lend(0, lengths, lengths_len);
        lent[1] = lend(1, area, area_len);
        lent[2] = lend(2, old_block, block_len);
        got = tumbeliko_rebuild(b.n, b.t, b.sender, b.longest, marked, lent[0], lengths_len,
                                lent[1], area_len, lent[2], block_len);
        CHECK(got.number == right.number);
        CHECK(got.length == right.length);
        CHECK(holds(0, lengths));
        CHECK(holds(1, area));
        CHECK(holds(2, new_block));
    }
    return right;
}

/* Writes into new_message what reading leaves there. */
static ref_sized check_read(table b, const uint8_t *block, size_t block_len, size_t message_len)
{
    ref_sized right;

    random_bytes(old_message, message_len);
    memcpy(new_message, old_message, message_len);
    right = ref_read_block(b.n, b.t, b.sender, b.longest, block, block_len, new_message, message_len);
    for (int p = 0; p < PLACES; p++) {
        tumbeliko_sized got;
        uint8_t *lent[2];

        place(p);
        lent[0] = lend(0, block, block_len);
        lent[1] = lend(1, old_message, message_len);
        got = tumbeliko_read_block(b.n, b.t, b.sender, b.longest, lent[0], block_len, lent[1], message_len);
        CHECK(got.number == right.number);
        CHECK(got.length == right.length);
        CHECK(holds(0, block));
        CHECK(holds(1, new_message));
    }
    return right;
}

/* ---- tables and sizes */

static table make_table(uint32_t n, uint32_t t, uint32_t sender, uint32_t longest)
{
    table b = { n, t, sender, longest };

    return b;
}

static table random_table(void)
{
    static const uint32_t edges[] = { 0, 1, 2, 3, 4, 16383, 16384 };
    table b;

    b.n = 1 + random_below(64);
    b.t = random_below((b.n - 1) / 3 + 1);
    if (random_below(3) == 0)
        b.t = (b.n - 1) / 3;
    b.sender = 1 + random_below(b.n);
    b.longest = random_below(8) == 0 ? edges[random_below(7)] : random_below(random_below(5) == 0 ? 16385 : 400);
    return b;
}

static size_t area_bytes(table b)   { return (size_t)b.n * ref_s_max(b); }
static size_t paths_bytes(table b)  { return (size_t)b.n * 192; }
static size_t block_bytes(table b)  { return (size_t)ref_k(b) * ref_s_max(b); }

/* `count` of the n boards, at random */
static uint64_t random_set(uint32_t n, uint32_t count)
{
    uint64_t set = 0;

    while (count > 0) {
        uint64_t bit = (uint64_t)1 << random_below(n);

        count -= (set & bit) == 0;
        set |= bit;
    }
    return set;
}

static void put_length(uint8_t *lengths, uint32_t board, uint32_t length)
{
    lengths[2 * (board - 1)] = (uint8_t)(length >> 8);
    lengths[2 * (board - 1) + 1] = (uint8_t)length;
}

/* Tables outside their limits, each with one number at fault. */
static const table bad_tables[] = {
    { 0, 0, 1, 16 }, { 65, 2, 1, 16 }, { 256 + 7, 2, 1, 16 }, { 0xffffffff, 2, 1, 16 }, { 0x80000000, 2, 1, 16 },
    { 7, 3, 1, 16 }, { 6, 2, 1, 16 }, { 3, 1, 1, 16 }, { 1, 1, 1, 16 }, { 7, 256 + 2, 1, 16 },
    { 4, 1431655766, 1, 16 }, { 7, 1431655766, 1, 16 }, { 64, 1431655766, 1, 16 }, { 4, 2863311531, 1, 16 },
    { 64, 2863311531, 1, 16 }, { 7, 0x80000000, 1, 16 }, { 7, 0xffffffff, 1, 16 },
    { 7, 2, 0, 16 }, { 7, 2, 8, 16 }, { 7, 2, 256 + 1, 16 }, { 7, 2, 0xffffffff, 16 }, { 64, 21, 65, 16 },
    { 7, 2, 1, 16385 }, { 7, 2, 1, 32768 }, { 7, 2, 1, 65536 }, { 7, 2, 1, 65536 + 16 }, { 7, 2, 1, 0xffffffff },
    { 7, 2, 1, 0xfffffffc }, { 7, 2, 1, 0xfffffffd }, { 7, 2, 1, 0x80000000 },
};
#define BAD_TABLES (sizeof bad_tables / sizeof *bad_tables)

/* ---- hash */

static uint8_t data[ROOM];

static void digests_of_0_to_300_bytes_are_those_of_fips_180_4(void)
{
    for (size_t len = 0; len <= 300; len++) {
        random_bytes(data, len);
        check_hash(data, len, 0);
        memset(data, 0, len);
        check_hash(data, len, 0);
        memset(data, 0xff, len);
        check_hash(data, len, 0);
    }
}

static void digests_up_to_65536_bytes_are_those_of_fips_180_4(void)
{
    random_bytes(data, sizeof data);
    for (size_t len = 65472; len <= 65536; len++)
        check_hash(data, len, 0);
    for (int i = 0; i < 60; i++)
        check_hash(data, random_below(65537), 0);
}

static void more_than_65536_bytes_to_hash_are_refused_with_15(void)
{
    random_bytes(data, sizeof data);
    for (size_t len = 65537; len <= 65610; len++)
        check_hash(data, len, 15);
    check_hash(data, 69999, 15);
}

static void more_than_2_to_the_32_bytes_to_hash_are_refused_with_15(void)
{
    size_t len = ((size_t)1 << 32) + 65536;
    uint8_t *bytes = vast(len);
    static const uint8_t zeros[32];

    CHECK(bytes != NULL);
    for (size_t cut = 0; bytes != NULL && cut <= 65536; cut += 4096) {
        tumbeliko_digest got = tumbeliko_hash(bytes, len - cut);

        CHECK(got.number == 15);
        CHECK(memcmp(got.bytes, zeros, 32) == 0);
    }
    give_back_vast(bytes, len);
}

/* ---- path check */

#define LEAF 40
static uint8_t leaves[64 * LEAF], tree_paths[64 * 192];
static size_t tree_nodes[64];

/* The root over n leaves of `len` bytes, `stride` apart. */
static void root_of(const uint8_t *bytes, size_t stride, size_t len, uint32_t n, uint8_t root[32])
{
    ref_tree(bytes, stride, len, n, root, tree_paths, tree_nodes);
}

/* The path of leaf `at` of the last tree that root_of worked out. */
static size_t path_of(uint32_t at, uint8_t *path)
{
    memcpy(path, tree_paths + at * 192, 32 * tree_nodes[at]);
    return tree_nodes[at];
}

static void every_path_of_1_to_64_boards_is_correct(void)
{
    uint8_t root[32], path[192];

    for (uint32_t n = 1; n <= 64; n++) {
        size_t len = random_below(LEAF + 1);

        random_bytes(leaves, sizeof leaves);
        root_of(leaves, LEAF, len, n, root);
        for (uint32_t board = 1; board <= n; board++) {
            size_t nodes = path_of(board - 1, path);

            CHECK(check_path(n, board, root, 32, path, 32 * nodes, leaves + (board - 1) * LEAF, len));
        }
    }
}

/* Tries one damaged path of each sort at each place of each tree. */
static void a_damaged_root_node_or_fragment_is_not_correct(void)
{
    uint8_t root[32], path[192], fragment[LEAF];

    for (uint32_t n = 1; n <= 64; n++) {
        random_bytes(leaves, sizeof leaves);
        root_of(leaves, LEAF, LEAF, n, root);
        for (uint32_t board = 1; board <= n; board++) {
            size_t len = 32 * path_of(board - 1, path);
            uint32_t bit = random_below(256);

            memcpy(fragment, leaves + (board - 1) * LEAF, LEAF);
            root[bit / 8] ^= (uint8_t)(1 << bit % 8);
            CHECK(!check_path(n, board, root, 32, path, len, fragment, LEAF));
            root[bit / 8] ^= (uint8_t)(1 << bit % 8);
            for (size_t node = 0; node < len; node += 32) {
                bit = random_below(256);
                path[node + bit / 8] ^= (uint8_t)(1 << bit % 8);
                CHECK(!check_path(n, board, root, 32, path, len, fragment, LEAF));
                path[node + bit / 8] ^= (uint8_t)(1 << bit % 8);
            }
            bit = random_below(8 * LEAF);
            fragment[bit / 8] ^= (uint8_t)(1 << bit % 8);
            CHECK(!check_path(n, board, root, 32, path, len, fragment, LEAF));
            fragment[bit / 8] ^= (uint8_t)(1 << bit % 8);
            CHECK(!check_path(n, board, root, 32, path, len, fragment, LEAF - 1));
            CHECK(check_path(n, board, root, 32, path, len, fragment, LEAF));
        }
    }
}

static void every_single_bit_of_root_and_path_counts(void)
{
    uint8_t root[32], path[192];
    size_t len;

    random_bytes(leaves, sizeof leaves);
    root_of(leaves, LEAF, LEAF, 50, root);
    len = 32 * path_of(28, path);
    for (size_t bit = 0; bit < 256; bit++) {
        root[bit / 8] ^= (uint8_t)(1 << bit % 8);
        CHECK(!check_path(50, 29, root, 32, path, len, leaves + 28 * LEAF, LEAF));
        root[bit / 8] ^= (uint8_t)(1 << bit % 8);
    }
    for (size_t bit = 0; bit < 8 * len; bit++) {
        path[bit / 8] ^= (uint8_t)(1 << bit % 8);
        CHECK(!check_path(50, 29, root, 32, path, len, leaves + 28 * LEAF, LEAF));
        path[bit / 8] ^= (uint8_t)(1 << bit % 8);
    }
}

static void a_wrong_node_count_is_not_correct(void)
{
    uint8_t root[32], path[32 * 9];

    for (uint32_t n = 1; n <= 64; n++) {
        random_bytes(leaves, sizeof leaves);
        root_of(leaves, LEAF, LEAF, n, root);
        for (uint32_t board = 1; board <= n; board++) {
            const uint8_t *fragment = leaves + (board - 1) * LEAF;
            size_t nodes;

            random_bytes(path, sizeof path);
            nodes = path_of(board - 1, path);
            for (size_t other = 0; other <= 8; other++)
                CHECK(check_path(n, board, root, 32, path, 32 * other, fragment, LEAF) == (other == nodes));
            if (nodes > 0)      /* the lowest node missing */
                CHECK(!check_path(n, board, root, 32, path + 32, 32 * (nodes - 1), fragment, LEAF));
            memmove(path + 32, path, 32 * nodes);       /* a lowest node added */
            CHECK(!check_path(n, board, root, 32, path, 32 * (nodes + 1), fragment, LEAF));
        }
    }
}

static void five_boards_have_paths_of_3_3_3_3_and_1_nodes(void)
{
    static const size_t nodes[5] = { 3, 3, 3, 3, 1 };
    uint8_t root[32], path[192];

    random_bytes(leaves, sizeof leaves);
    root_of(leaves, LEAF, LEAF, 5, root);
    for (uint32_t board = 1; board <= 5; board++) {
        CHECK(path_of(board - 1, path) == nodes[board - 1]);
        CHECK(check_path(5, board, root, 32, path, 32 * nodes[board - 1], leaves + (board - 1) * LEAF, LEAF));
    }
}

static void a_wrong_board_number_is_not_correct(void)
{
    uint8_t root[32], path[192];

    for (uint32_t n = 1; n <= 64; n++) {
        random_bytes(leaves, sizeof leaves);
        root_of(leaves, LEAF, LEAF, n, root);
        for (uint32_t board = 1; board <= n; board++) {
            const uint8_t *fragment = leaves + (board - 1) * LEAF;
            size_t len = 32 * path_of(board - 1, path);
            uint32_t others[] = { 0, board - 1, board + 1, board ^ 1, n + 1, n + board, 64 + board, 256 + board,
                                  65536 + board, 0x80000000 + board, 0xffffffff, 1 + random_below(64) };

            for (size_t i = 0; i < sizeof others / sizeof *others; i++)
                if (others[i] != board)
                    CHECK(!check_path(n, others[i], root, 32, path, len, fragment, LEAF));
        }
    }
}

static void a_wrong_number_of_boards_is_judged_as_rfc_6962_says(void)
{
    uint8_t root[32], path[192];

    for (uint32_t n = 1; n <= 64; n++) {
        random_bytes(leaves, sizeof leaves);
        root_of(leaves, LEAF, LEAF, n, root);
        for (uint32_t board = 1; board <= n; board++) {
            const uint8_t *fragment = leaves + (board - 1) * LEAF;
            size_t len = 32 * path_of(board - 1, path);

            check_path(n - 1, board, root, 32, path, len, fragment, LEAF);
            check_path(n + 1, board, root, 32, path, len, fragment, LEAF);
            check_path(1 + random_below(64), board, root, 32, path, len, fragment, LEAF);
            CHECK(!check_path(0, board, root, 32, path, len, fragment, LEAF));
            CHECK(!check_path(65, board, root, 32, path, len, fragment, LEAF));
            CHECK(!check_path(256 + n, board, root, 32, path, len, fragment, LEAF));
            CHECK(!check_path(0x80000000 + n, board, root, 32, path, len, fragment, LEAF));
            CHECK(!check_path(0xffffffff, board, root, 32, path, len, fragment, LEAF));
        }
    }
}

static void a_root_or_node_not_of_32_bytes_is_not_correct(void)
{
    uint8_t root[96], path[320];

    random_bytes(leaves, sizeof leaves);
    for (uint32_t n = 1; n <= 64; n += 7) {
        uint32_t board = 1 + random_below(n);
        const uint8_t *fragment = leaves + (board - 1) * LEAF;
        size_t len;

        random_bytes(root, sizeof root);
        random_bytes(path, sizeof path);
        root_of(leaves, LEAF, LEAF, n, root);
        len = 32 * path_of(board - 1, path);
        for (size_t other = 0; other <= 70; other++)
            CHECK(check_path(n, board, root, other, path, len, fragment, LEAF) == (other == 32));
        for (size_t other = 0; other <= 300; other++)
            CHECK(check_path(n, board, root, 32, path, other, fragment, LEAF) == (other == len));
    }
}

static void a_fragment_of_65535_bytes_is_checked_and_one_above_is_not_correct(void)
{
    uint8_t root[32], path[192];
    size_t len;

    random_bytes(data, sizeof data);
    for (uint32_t n = 1; n <= 2; n++) {
        /* both leaves of the tree stand at data, and one byte on */
        root_of(data, 1, 65535, n, root);
        len = 32 * path_of(0, path);
        CHECK(check_path(n, 1, root, 32, path, len, data, 65535));
        root_of(data, 1, 65536, n, root);
        len = 32 * path_of(0, path);
        CHECK(!check_path(n, 1, root, 32, path, len, data, 65536));
        root_of(data, 1, 65535, n, root);
        len = 32 * path_of(0, path);
        CHECK(!check_path(n, 1, root, 32, path, len, data, 65536));
        CHECK(!check_path(n, 1, root, 32, path, len, data, 65534));
    }
}

static void a_fragment_of_each_length_up_to_200_is_hashed_whole(void)
{
    uint8_t root[32], path[192];

    random_bytes(data, 1000);
    for (size_t len = 0; len <= 200; len++) {
        size_t nodes;

        root_of(data, 201, len, 3, root);
        nodes = path_of(1, path);
        CHECK(check_path(3, 2, root, 32, path, 32 * nodes, data + 201, len));
        CHECK(!check_path(3, 2, root, 32, path, 32 * nodes, data + 201, len + 1));
    }
}

static void lengths_above_2_to_the_32_are_not_correct(void)
{
    size_t more = (size_t)1 << 32, len = more + 65536;
    uint8_t *bytes = vast(len), zeros[192] = { 0 }, root[32], node[32];

    CHECK(bytes != NULL);
    if (bytes == NULL)
        return;
    root_of(bytes, 0, 10, 2, root);            /* two leaves of ten zeros */
    path_of(0, node);
    CHECK(tumbeliko_path_correct(2, 1, root, 32, node, 32, bytes, 10));
    CHECK(!tumbeliko_path_correct(2, 1, root, 32, node, 32, bytes, more + 10));
    memcpy(bytes, node, 32);
    CHECK(!tumbeliko_path_correct(2, 1, root, 32, bytes, more + 32, zeros, 10));
    CHECK(!tumbeliko_path_correct(2, 1, root, 32, bytes, more, zeros, 10));
    memcpy(bytes, root, 32);
    CHECK(!tumbeliko_path_correct(2, 1, bytes, more + 32, node, 32, zeros, 10));
    give_back_vast(bytes, len);
}

/* ---- tables */

static void every_table_near_its_limits_is_judged_as_document_01_says(void)
{
    static const uint32_t lengths[] = { 0, 1, 16383, 16384, 16385, 16386, 65535, 65536 };
    uint8_t none = 0;

    for (uint32_t n = 0; n <= 66; n++)
        for (uint32_t t = 0; t <= 23; t++)
            for (uint32_t s = 0; s < 5; s++)
                for (size_t l = 0; l < 8; l++) {
                    uint32_t sender = (const uint32_t[]){ 0, 1, n / 2, n, n + 1 }[s], longest = lengths[l];
                    bool within = n >= 1 && n <= 64 && 3 * t < n && sender >= 1 && sender <= n && longest <= 16384;
                    uint32_t number = within ? 2 : 1;

                    /* with no buffers, 2 says that the table was taken */
                    CHECK(tumbeliko_encode(n, t, sender, longest, &none, 0, &none, 0, &none, 0, &none, 0).number
                          == number);
                    CHECK(tumbeliko_rebuild(n, t, sender, longest, 0, &none, 0, &none, 0, &none, 0).number
                          == number);
                    CHECK(tumbeliko_read_block(n, t, sender, longest, &none, 0, &none, 0).number
                          == (within && longest == 0 ? 12 : number));
                }
}

static void tables_with_numbers_near_2_to_the_32_are_refused_with_1(void)
{
    for (size_t i = 0; i < BAD_TABLES; i++) {
        table b = bad_tables[i];

        random_bytes(data, sizeof data);
        CHECK(check_encode(b, data, 10, 5000, 32, 12288).number == 1);
        CHECK(check_rebuild(b, 7, data, 128, data + 128, 5000, 5000).number == 1);
        CHECK(check_read(b, data, 6, 100).number == 1);
        CHECK(check_encode(b, data, 10, 0, 0, 0).number == 1);
        CHECK(check_rebuild(b, 0, data, 0, data, 0, 0).number == 1);
        CHECK(check_read(b, data, 0, 0).number == 1);
    }
}

static void three_t_does_not_wrap(void)
{
    for (uint32_t n = 1; n <= 64; n++)
        for (uint32_t t = 1431655765; t <= 1431655765 + 22; t++) {
            uint8_t none = 0;

            CHECK(tumbeliko_encode(n, t, 1, 0, &none, 0, &none, 0, &none, 0, &none, 0).number == 1);
            CHECK(tumbeliko_rebuild(n, t + 1431655765, 1, 0, 0, &none, 0, &none, 0, &none, 0).number == 1);
            CHECK(tumbeliko_read_block(n, t, 1, 0, &none, 0, &none, 0).number == 1);
            CHECK(tumbeliko_read_block(n, t + 1431655765, 1, 0, &none, 0, &none, 0).number == 1);
        }
}

static void a_longest_message_of_16384_is_taken_and_of_16385_refused_with_1(void)
{
    random_bytes(data, sizeof data);
    for (uint32_t n = 1; n <= 64; n += 21) {
        uint32_t t = (n - 1) / 3;
        table b = make_table(n, t, n, 16384), above = make_table(n, t, n, 16385);

        CHECK(check_encode(b, data, 16384, area_bytes(b), 32, paths_bytes(b)).number == 0);
        CHECK(check_encode(above, data, 16384, area_bytes(above), 32, paths_bytes(b)).number == 1);
        CHECK(check_rebuild(b, 0, data, 2 * n, data, area_bytes(b), block_bytes(b)).number == 10);
        CHECK(check_rebuild(above, 0, data, 2 * n, data, area_bytes(above), block_bytes(above)).number == 1);
        CHECK(check_read(b, data, 3, 16384).number == 12);
        CHECK(check_read(above, data, 3, 16385).number == 1);
    }
}

/* ---- encode */

static void message_41_of_four_boards_has_the_fragments_worked_out_by_hand(void)
{
    static const uint8_t message[1] = { 0x41 };
    table b = make_table(4, 1, 1, 2);

    CHECK(ref_s_max(b) == 3);
    CHECK(check_encode(b, message, 1, 12, 32, 768).length == 3);
    CHECK(memcmp(new_area, "\x00\x01\x41\x00\x02\x41\x00\x03\x41\x00\x04\x41", 12) == 0);
}

static void an_empty_message_of_four_boards_has_four_fragments_of_two_zeros(void)
{
    static const uint8_t zeros[8];
    uint8_t nothing = 0;
    table b = make_table(4, 1, 1, 0);

    CHECK(check_encode(b, &nothing, 0, 8, 32, 768).length == 2);
    CHECK(memcmp(new_area, zeros, 8) == 0);
}

static void fragments_root_and_paths_are_those_of_random_tables_and_messages(void)
{
    for (int i = 0; i < 1500; i++) {
        table b = random_table();
        size_t len = random_below(b.longest + 1);

        if (random_below(4) == 0)
            len = b.longest;
        random_bytes(data, len);
        CHECK(check_encode(b, data, len, area_bytes(b), 32, paths_bytes(b)).number == 0);
    }
}

static void every_n_and_t_within_limits_is_encoded(void)
{
    for (uint32_t n = 1; n <= 64; n++)
        for (uint32_t t = 0; 3 * t < n; t++) {
            table b = make_table(n, t, 1 + random_below(n), 150);

            random_bytes(data, 150);
            for (size_t len = 0; len <= 150; len = len * 2 + 1 + random_below(20))
                CHECK(check_encode(b, data, len, area_bytes(b), 32, paths_bytes(b)).number == 0);
            CHECK(check_encode(b, data, 150, area_bytes(b), 32, paths_bytes(b)).length == ref_s_max(b));
        }
}

static void sixty_four_boards_take_messages_of_every_size(void)
{
    static const uint32_t sizes[] = { 0, 1, 17, 18, 19, 60, 61, 1000, 16340, 16383, 16384 };

    for (uint32_t t = 0; t <= 21; t += 7)
        for (size_t i = 0; i < sizeof sizes / sizeof *sizes; i++) {
            table b = make_table(64, t, 64, sizes[i]);

            random_bytes(data, sizes[i]);
            CHECK(check_encode(b, data, sizes[i], area_bytes(b), 32, 12288).length == ref_s_max(b));
        }
}

static void a_message_of_l_bytes_is_taken_and_of_l_plus_1_refused_with_13(void)
{
    random_bytes(data, sizeof data);
    for (uint32_t longest = 0; longest <= 16384; longest += longest < 40 ? 1 : 1634) {
        table b = make_table(7, 2, 3, longest);

        CHECK(check_encode(b, data, longest, area_bytes(b), 32, paths_bytes(b)).number == 0);
        CHECK(check_encode(b, data, longest + 1, area_bytes(b), 32, paths_bytes(b)).number == 13);
        CHECK(check_encode(b, data, 16384 + 1 + random_below(50000), area_bytes(b), 32, paths_bytes(b)).number == 13);
    }
}

static void a_message_above_2_to_the_32_bytes_is_refused_with_13(void)
{
    size_t len = ((size_t)1 << 32) + 16;
    uint8_t *bytes = vast(len), area[7 * 7], root[32], paths[7 * 192];

    CHECK(bytes != NULL);
    for (size_t cut = 0; bytes != NULL && cut <= 16; cut++) {
        tumbeliko_sized got;

        random_bytes(area, sizeof area);
        memcpy(old_area, area, sizeof area);
        got = tumbeliko_encode(7, 2, 1, 16, bytes, len - cut, area, sizeof area, root, 32, paths, sizeof paths);
        CHECK(got.number == 13);
        CHECK(got.length == 0);
        CHECK(memcmp(area, old_area, sizeof area) == 0);
    }
    give_back_vast(bytes, len);
}

static void encoding_needs_its_three_buffers_and_leaves_the_bytes_beyond(void)
{
    for (int i = 0; i < 300; i++) {
        table b = random_table();
        size_t len = random_below(b.longest + 1), area = area_bytes(b), paths = paths_bytes(b);

        random_bytes(data, len);
        CHECK(check_encode(b, data, len, area, 32, paths).number == 0);
        CHECK(check_encode(b, data, len, area + 1 + random_below(300), 33 + random_below(300),
                           paths + 1 + random_below(300)).number == 0);
        CHECK(check_encode(b, data, len, area - 1, 32, paths).number == 2);
        CHECK(check_encode(b, data, len, area, 31, paths).number == 2);
        CHECK(check_encode(b, data, len, area, 32, paths - 1).number == 2);
        CHECK(check_encode(b, data, len, random_below((uint32_t)area), random_below(32),
                           random_below((uint32_t)paths)).number == 2);
    }
}

static void buffers_longer_than_2_to_the_32_bytes_are_long_enough(void)
{
    size_t len = ((size_t)1 << 32) + 1;
    uint8_t *bytes = vast(len), area[12], root[32], paths[768], lengths[8] = { 0, 3, 0, 3, 0, 3, 0, 3 }, block[6];
    table b = make_table(4, 1, 1, 2);

    CHECK(bytes != NULL);
    if (bytes == NULL)
        return;
    CHECK(tumbeliko_encode(b.n, b.t, 1, 2, (const uint8_t *)"A", 1, bytes, len, root, 32, paths, 768).number == 0);
    CHECK(memcmp(bytes, "\x00\x01\x41\x00\x02\x41\x00\x03\x41\x00\x04\x41", 12) == 0);
    CHECK(tumbeliko_encode(b.n, b.t, 1, 2, (const uint8_t *)"A", 1, area, 12, bytes, len, paths, 768).number == 0);
    CHECK(memcmp(bytes, root, 32) == 0);
    CHECK(tumbeliko_encode(b.n, b.t, 1, 2, (const uint8_t *)"A", 1, area, 12, root, 32, bytes, len).number == 0);
    CHECK(tumbeliko_rebuild(b.n, b.t, 1, 2, 3, lengths, 8, area, 12, bytes, len).number == 0);
    CHECK(memcmp(bytes, "\x00\x00\x00\x01\x41\x00", 6) == 0);
    memcpy(bytes, area, 12);
    CHECK(tumbeliko_rebuild(b.n, b.t, 1, 2, 3, lengths, 8, bytes, len, block, 6).number == 0);
    memcpy(bytes, lengths, 8);
    CHECK(tumbeliko_rebuild(b.n, b.t, 1, 2, 3, bytes, len, area, 12, block, 6).number == 0);
    CHECK(tumbeliko_read_block(b.n, b.t, 1, 2, block, 6, bytes, len).length == 1);
    CHECK(bytes[0] == 0x41);
    give_back_vast(bytes, len);
}

/* Every combination of faults, so every pair too. */
static void encoding_looks_in_the_order_1_2_13(void)
{
    table good = make_table(7, 2, 2, 16);

    random_bytes(data, 100);
    for (size_t bad = 0; bad <= BAD_TABLES; bad++)
        for (unsigned small = 0; small < 8; small++)
            for (unsigned long_one = 0; long_one < 2; long_one++) {
                table b = bad == 0 ? good : bad_tables[bad - 1];
                uint32_t number = bad ? 1 : small ? 2 : long_one ? 13 : 0;

                CHECK(check_encode(b, data, long_one ? 17 : 16, area_bytes(good) - (small & 1),
                                   32 - (small >> 1 & 1), paths_bytes(good) - (small >> 2)).number == number);
            }
}

/* ---- rebuild */

/* What a rebuild works on: a table, its fragments and their lengths. */
static struct {
    table b;
    uint32_t k, s_max, length;
    size_t message_len;
    uint8_t message[REF_LONGEST], block[REF_FRAGMENT + 64], area[ROOM], lengths[128];
} work;

static uint8_t spare[64 * 192];

/* Fragments of a random message. All bytes that are no fragment's are
 * random. */
static void lay_out(table b, size_t message_len)
{
    uint8_t root[32];

    work.b = b;
    work.k = ref_k(b);
    work.s_max = ref_s_max(b);
    work.message_len = message_len;
    random_bytes(work.message, message_len);
    random_bytes(work.area, area_bytes(b));
    work.length = ref_encode(b.n, b.t, b.sender, b.longest, work.message, message_len, work.area, area_bytes(b),
                             root, 32, spare, sizeof spare).length;
    memset(work.block, 0, sizeof work.block);
    for (int j = 0; j < 4; j++)
        work.block[j] = (uint8_t)(message_len >> (24 - 8 * j));
    memcpy(work.block + 4, work.message, message_len);
    for (uint32_t i = 1; i <= b.n; i++)
        put_length(work.lengths, i, work.length);
}

/* Random bytes and lengths for the boards that are not marked. */
static void spoil_unmarked(uint64_t marked)
{
    for (uint32_t i = 0; i < work.b.n; i++)
        if (!(marked >> i & 1)) {
            random_bytes(work.area + i * work.s_max, work.s_max);
            random_bytes(work.lengths + 2 * i, 2);
        }
}

static ref_sized rebuild_marked(uint64_t marked)
{
    return check_rebuild(work.b, marked, work.lengths, 2 * (size_t)work.b.n, work.area, area_bytes(work.b),
                         block_bytes(work.b));
}

static bool block_is_back(ref_sized answer)
{
    return answer.number == 0 && answer.length == work.length * work.k
        && memcmp(new_block, work.block, answer.length) == 0;
}

static void lay_out_random(void)
{
    table b = random_table();

    lay_out(b, random_below(b.longest + 1));
}

static void fragments_2_and_4_alone_give_message_41_back(void)
{
    lay_out(make_table(4, 1, 1, 2), 1);
    work.message[0] = 0x41;
    work.block[4] = 0x41;
    memcpy(work.area, "\x00\x01\x41\x00\x02\x41\x00\x03\x41\x00\x04\x41", 12);
    spoil_unmarked(10);
    CHECK(block_is_back(rebuild_marked(10)));
    CHECK(memcmp(new_block, "\x00\x00\x00\x01\x41\x00", 6) == 0);
}

static void any_k_fragments_give_the_block_back(void)
{
    for (int i = 0; i < 800; i++) {
        uint64_t marked;

        lay_out_random();
        marked = random_set(work.b.n, work.k);
        spoil_unmarked(marked);
        CHECK(block_is_back(rebuild_marked(marked)));
    }
}

static void every_set_of_k_of_seven_boards_gives_the_block_back(void)
{
    lay_out(make_table(7, 2, 4, 20), 13);
    for (uint64_t marked = 0; marked < 128; marked++) {
        uint32_t ones = 0;

        for (uint64_t rest = marked; rest != 0; rest >>= 1)
            ones += (uint32_t)(rest & 1);
        if (ones >= 3)
            CHECK(block_is_back(rebuild_marked(marked)));
        else
            CHECK(rebuild_marked(marked).number == 10);
    }
}

static void more_than_k_fragments_that_agree_give_the_block_back(void)
{
    for (int i = 0; i < 500; i++) {
        uint64_t marked;

        lay_out_random();
        marked = random_set(work.b.n, work.k + random_below(work.b.n - work.k + 1));
        spoil_unmarked(marked);
        CHECK(block_is_back(rebuild_marked(marked)));
        if (i % 8 == 0) {
            lay_out(work.b, work.message_len);
            CHECK(block_is_back(rebuild_marked(work.b.n == 64 ? ~(uint64_t)0 : ((uint64_t)1 << work.b.n) - 1)));
        }
    }
}

static void sixty_four_boards_are_rebuilt(void)
{
    for (uint32_t t = 0; t <= 21; t++) {
        lay_out(make_table(64, t, 1, 16384), t % 2 ? 16384 : random_below(16385));
        CHECK(block_is_back(rebuild_marked(~(uint64_t)0)));
        CHECK(block_is_back(rebuild_marked(random_set(64, work.k))));
        CHECK(block_is_back(rebuild_marked(~(uint64_t)0 << (64 - work.k))));
        if (t > 0) {
            work.area[area_bytes(work.b) - work.s_max + work.length - 1] ^= 0x80;
            CHECK(rebuild_marked(~(uint64_t)0).number == 11);
        }
    }
}

static void one_damaged_fragment_among_more_than_k_is_refused_with_11(void)
{
    for (int i = 0; i < 800; i++) {
        uint64_t marked;
        uint32_t damaged, at;

        lay_out_random();
        if (work.b.t == 0)
            continue;
        marked = random_set(work.b.n, work.k + 1 + random_below(work.b.n - work.k));
        do
            damaged = random_below(work.b.n);
        while (!(marked >> damaged & 1));
        at = random_below(3) == 0 ? work.length - 1 : random_below(work.length);
        work.area[damaged * work.s_max + at] ^= (uint8_t)(1 << random_below(8));
        spoil_unmarked(marked);
        CHECK(rebuild_marked(marked).number == 11);
    }
}

static void a_block_is_any_rows_of_k_bytes_readable_or_not(void)
{
    for (int i = 0; i < 500; i++) {
        lay_out_random();
        random_bytes(work.area, area_bytes(work.b));
        CHECK(rebuild_marked(random_set(work.b.n, work.k)).number == 0);
    }
}

static void random_fragments_are_judged_as_the_reference_judges_them(void)
{
    for (int i = 0; i < 500; i++) {
        lay_out_random();
        for (uint32_t j = 0; j < 4; j++) {
            uint32_t board = random_below(work.b.n);

            if (random_below(2))
                work.area[board * work.s_max + random_below(work.s_max)] ^= (uint8_t)random_bits();
            if (random_below(6) == 0)
                put_length(work.lengths, board + 1, random_below(work.s_max + 2));
        }
        CHECK(rebuild_marked(random_set(work.b.n, random_below(work.b.n + 1))).number <= 11);
    }
}

static void marked_lengths_that_differ_are_refused_with_11(void)
{
    for (int i = 0; i < 400; i++) {
        uint64_t marked;
        uint32_t other;

        lay_out_random();
        if (work.k < 2 || work.s_max < 2)
            continue;
        marked = random_set(work.b.n, work.k + random_below(work.b.n - work.k + 1));
        do
            other = random_below(work.b.n);
        while (!(marked >> other & 1));
        put_length(work.lengths, other + 1, work.length == work.s_max ? work.length - 1 : work.length + 1);
        CHECK(rebuild_marked(marked).number == 11);
    }
}

static void a_marked_length_0_or_above_s_max_is_refused_with_7(void)
{
    for (int i = 0; i < 400; i++) {
        static const uint32_t above[] = { 1, 2, 256, 16384 };
        uint64_t marked;
        uint32_t other;

        lay_out_random();
        marked = random_set(work.b.n, 1 + random_below(work.b.n));
        do
            other = random_below(work.b.n);
        while (!(marked >> other & 1));
        put_length(work.lengths, other + 1, 0);
        CHECK(rebuild_marked(marked).number == 7);
        put_length(work.lengths, other + 1, work.s_max + above[random_below(4)]);
        CHECK(rebuild_marked(marked).number == 7);
        put_length(work.lengths, other + 1, 65535);
        CHECK(rebuild_marked(marked).number == 7);
    }
}

static void a_marked_board_above_n_is_refused_with_4(void)
{
    for (uint32_t n = 1; n <= 63; n++)
        for (uint32_t bit = n; bit < 64; bit += 1 + random_below(12)) {
            lay_out(make_table(n, (n - 1) / 3, n, 30), random_below(31));
            CHECK(rebuild_marked((uint64_t)1 << bit).number == 4);
            CHECK(rebuild_marked(((uint64_t)1 << bit) | (((uint64_t)1 << n) - 1)).number == 4);
            CHECK(rebuild_marked(~(uint64_t)0).number == 4);
            CHECK(rebuild_marked((uint64_t)1 << 63 | 1).number == 4);
        }
}

static void fewer_than_k_fragments_are_refused_with_10(void)
{
    for (int i = 0; i < 300; i++) {
        lay_out_random();
        CHECK(rebuild_marked(0).number == 10);
        CHECK(rebuild_marked(random_set(work.b.n, work.k - 1)).number == 10);
        CHECK(rebuild_marked(random_set(work.b.n, random_below(work.k))).number == 10);
    }
}

static void rebuilding_needs_its_three_buffers_and_leaves_the_bytes_beyond(void)
{
    for (int i = 0; i < 200; i++) {
        uint64_t marked;
        size_t lengths, area, block;

        lay_out_random();
        marked = random_set(work.b.n, work.k);
        lengths = 2 * (size_t)work.b.n;
        area = area_bytes(work.b);
        block = block_bytes(work.b);
        CHECK(check_rebuild(work.b, marked, work.lengths, lengths, work.area, area, block).number == 0);
        CHECK(check_rebuild(work.b, marked, work.lengths, 128, work.area, area + 200, block + 1 + random_below(200))
              .number == 0);
        CHECK(check_rebuild(work.b, marked, work.lengths, lengths - 1, work.area, area, block).number == 2);
        CHECK(check_rebuild(work.b, marked, work.lengths, lengths, work.area, area - 1, block).number == 2);
        CHECK(check_rebuild(work.b, marked, work.lengths, lengths, work.area, area, block - 1).number == 2);
        CHECK(check_rebuild(work.b, marked, work.lengths, 0, work.area, 0, 0).number == 2);
    }
}

/* Every combination of faults, so every pair too. */
static void rebuilding_looks_in_the_order_1_2_4_7_10_11(void)
{
    table good = make_table(7, 2, 2, 16);

    for (size_t bad = 0; bad <= BAD_TABLES; bad++)
        for (unsigned small = 0; small < 8; small++)
            for (unsigned above = 0; above < 3; above++)
                for (unsigned size = 0; size < 3; size++)
                    for (unsigned few = 0; few < 2; few++)
                        for (unsigned odd = 0; odd < 3; odd++) {
                            uint64_t marked = few ? 0x12 : 0x5a;    /* boards 2, 5; boards 2, 4, 5, 7 */
                            uint32_t number = bad ? 1 : small ? 2 : above ? 4 : size ? 7 : few ? 10 : odd ? 11 : 0;

                            if (bad > 0 && random_below(4) != 0)
                                continue;
                            lay_out(good, 12);
                            marked |= above == 1 ? 0x80 : above == 2 ? (uint64_t)1 << 63 : 0;
                            if (odd == 1)
                                put_length(work.lengths, 5, work.length - 1);
                            if (odd == 2)
                                work.area[work.s_max + work.length - 1] ^= 1;
                            if (size > 0)
                                put_length(work.lengths, 2, size == 1 ? 0 : work.s_max + 1);
                            CHECK(check_rebuild(bad == 0 ? good : bad_tables[bad - 1], marked,
                                                work.lengths, 14 - (small & 1),
                                                work.area, area_bytes(good) - (small >> 1 & 1),
                                                block_bytes(good) - (small >> 2)).number == number);
                        }
}

/* ---- read block */

static void put_head(uint8_t *block, uint32_t length)
{
    for (int j = 0; j < 4; j++)
        block[j] = (uint8_t)(length >> (24 - 8 * j));
}

static void the_blocks_worked_out_by_hand_are_read(void)
{
    table b = make_table(4, 1, 1, 16);

    CHECK(check_read(b, (const uint8_t *)"\x00\x00\x00\x03\x41\x00", 6, 16).number == 12);
    CHECK(check_read(b, (const uint8_t *)"\x00\x00\x00\x01\x41\x07", 6, 16).number == 0);
    CHECK(check_read(b, (const uint8_t *)"\x00\x00\x00\x01\x41\x07", 6, 16).length == 1);
    CHECK(new_message[0] == 0x41);
}

static void the_message_is_the_bytes_after_the_length_and_nothing_after_it_is_looked_at(void)
{
    for (int i = 0; i < 1000; i++) {
        ref_sized answer;

        lay_out_random();
        random_bytes(work.block + 4 + work.message_len, work.length * work.k - 4 - work.message_len);
        answer = check_read(work.b, work.block, work.length * work.k, work.b.longest);
        CHECK(answer.number == 0);
        CHECK(answer.length == work.message_len);
        CHECK(memcmp(new_message, work.message, work.message_len) == 0);
    }
}

static void fewer_than_4_bytes_are_refused_with_12(void)
{
    static const uint8_t zeros[4];

    for (uint32_t n = 1; n <= 64; n++)
        for (uint32_t t = 0; 3 * t < n; t++)
            for (size_t len = 0; len < 4; len++)
                CHECK(check_read(make_table(n, t, 1, 0), zeros, len, 0).number == 12);
}

static void a_byte_count_that_is_no_multiple_of_k_is_refused_with_12(void)
{
    for (int i = 0; i < 300; i++) {
        uint32_t more;

        lay_out_random();
        if (work.k == 1)
            continue;
        more = 1 + random_below(work.k - 1);
        CHECK(check_read(work.b, work.block, work.length * work.k + more, work.b.longest).number == 12);
        CHECK(check_read(work.b, work.block, work.length * work.k - more, work.b.longest).number == 12);
    }
}

static void rows_that_differ_from_the_length_are_refused_with_12(void)
{
    for (int i = 0; i < 500; i++) {
        uint32_t rows;

        lay_out_random();
        rows = work.length;
        for (uint32_t other = rows > 2 ? rows - 2 : 0; other <= rows + 2; other++) {
            if (other * work.k > sizeof work.block)
                continue;
            CHECK((check_read(work.b, work.block, other * work.k, work.b.longest).number == 0) == (other == rows));
        }
        /* each length that these rows may name, and those beyond at both sides */
        for (uint32_t end = (rows - 1) * work.k; end <= (rows + 1) * work.k; end++) {
            if (end < 4)
                continue;
            put_head(work.block, end - 4);
            CHECK((check_read(work.b, work.block, rows * work.k, work.b.longest).number == 0)
                  == (end - 4 <= work.b.longest && end > (rows - 1) * work.k && end <= rows * work.k));
        }
    }
}

static void a_length_above_l_is_refused_with_12(void)
{
    static const uint32_t heads[] = { 0xffffffff, 0xfffffffe, 0xfffffffd, 0xfffffffc, 0xfffffffb, 0x80000000,
                                      0x7fffffff, 0x01000000, 0x00010000, 0x0000ffff, 16385 };

    for (int i = 0; i < 300; i++) {
        lay_out_random();
        for (size_t h = 0; h < sizeof heads / sizeof *heads; h++) {
            put_head(work.block, heads[h]);
            CHECK(check_read(work.b, work.block, work.length * work.k, work.b.longest).number == 12);
            CHECK(check_read(work.b, work.block, (4 + work.k - 1) / work.k * work.k, work.b.longest).number == 12);
            put_head(work.block, heads[h] + (uint32_t)work.message_len);
            if (heads[h] + (uint32_t)work.message_len > work.b.longest)
                CHECK(check_read(work.b, work.block, work.length * work.k, work.b.longest).number == 12);
        }
        put_head(work.block, work.b.longest + 1);       /* L + 1, its rows right */
        CHECK(check_read(work.b, work.block, (work.b.longest + 5 + work.k - 1) / work.k * work.k, work.b.longest)
              .number == 12);
        put_head(work.block, work.b.longest);
        CHECK(check_read(work.b, work.block, work.s_max * work.k, work.b.longest).length == work.b.longest);
    }
}

static void random_blocks_are_judged_as_the_reference_judges_them(void)
{
    uint8_t block[160];

    for (int i = 0; i < 20000; i++) {
        table b = random_table();

        random_bytes(block, sizeof block);
        if (random_below(20) != 0)
            block[0] = block[1] = block[2] = 0;
        block[3] = (uint8_t)random_below(150);
        CHECK(check_read(b, block, random_below(sizeof block), b.longest).number <= 12);
    }
}

static void a_block_above_2_to_the_32_bytes_is_refused_with_12(void)
{
    size_t more = (size_t)1 << 32, len = more + 4096;
    uint8_t *bytes = vast(len), message[16];

    CHECK(bytes != NULL);
    for (size_t rows = 0; bytes != NULL && rows <= 16; rows++) {
        tumbeliko_sized got = tumbeliko_read_block(4, 1, 1, 16, bytes, more + 2 * rows, message, 16);

        CHECK(got.number == 12);
        CHECK(got.length == 0);
    }
    give_back_vast(bytes, len);
}

static void reading_needs_l_bytes_and_leaves_those_beyond_the_message(void)
{
    for (int i = 0; i < 500; i++) {
        lay_out_random();
        CHECK(check_read(work.b, work.block, work.length * work.k, work.b.longest + 1 + random_below(300)).number == 0);
        if (work.b.longest == 0)
            continue;
        CHECK(check_read(work.b, work.block, work.length * work.k, work.b.longest - 1).number == 2);
        CHECK(check_read(work.b, work.block, work.length * work.k, 0).number == 2);
    }
}

/* Every combination of faults, so every pair too. */
static void reading_looks_in_the_order_1_2_12(void)
{
    table good = make_table(7, 2, 2, 16);
    uint8_t block[32];

    for (size_t bad = 0; bad <= BAD_TABLES; bad++)
        for (unsigned small = 0; small < 3; small++)
            for (unsigned odd = 0; odd < 5; odd++) {
                uint32_t number = bad ? 1 : small ? 2 : odd ? 12 : 0;
                size_t len = odd == 1 ? 3 : odd == 2 ? 17 : odd == 3 ? 21 : 18;

                random_bytes(block, sizeof block);
                put_head(block, odd == 4 ? 17 : 12);    /* 12 + 4 bytes: 6 rows of 3 */
                CHECK(check_read(bad == 0 ? good : bad_tables[bad - 1], block, len,
                                 (const size_t[]){ 16, 15, 0 }[small]).number == number);
            }
}

/* ---- all together */

static void what_is_encoded_is_correct_rebuilt_and_read(void)
{
    for (int i = 0; i < 60; i++) {
        table b = random_table();
        size_t len = random_below(b.longest + 1), s_max = ref_s_max(b), nodes;
        uint8_t *block = old_block, *message = old_message, lengths[128];
        tumbeliko_sized encoded, rebuilt, read;

        random_bytes(data, len);
        encoded = tumbeliko_encode(b.n, b.t, b.sender, b.longest, data, len, new_area, sizeof new_area,
                                   new_root, 32, new_paths, sizeof new_paths);
        CHECK(encoded.number == 0);
        for (uint32_t board = 1; board <= b.n; board++) {
            const uint8_t *fragment = new_area + (board - 1) * s_max, *path = new_paths + (board - 1) * 192;
            int correct = 0;

            put_length(lengths, board, encoded.length);
            for (nodes = 0; nodes <= 6; nodes++)
                correct += tumbeliko_path_correct(b.n, board, new_root, 32, path, 32 * nodes, fragment, encoded.length);
            CHECK(correct == 1);
        }
        rebuilt = tumbeliko_rebuild(b.n, b.t, b.sender, b.longest, random_set(b.n, ref_k(b)), lengths, 128,
                                    new_area, sizeof new_area, block, ROOM);
        CHECK(rebuilt.number == 0);
        read = tumbeliko_read_block(b.n, b.t, b.sender, b.longest, block, rebuilt.length, message, ROOM);
        CHECK(read.number == 0);
        CHECK(read.length == len);
        CHECK(memcmp(message, data, len) == 0);
    }
}

/* The same call twice, with other bytes in the buffers before: the answers
 * are made of the inputs alone. */
static void a_call_answers_the_same_whatever_its_buffers_held(void)
{
    for (int i = 0; i < 100; i++) {
        table b = random_table();
        size_t len = random_below(b.longest + 1);
        uint8_t root[32];

        random_bytes(data, len);
        check_encode(b, data, len, area_bytes(b), 32, paths_bytes(b));
        memcpy(root, new_root, 32);
        check_encode(b, data, len, area_bytes(b), 32, paths_bytes(b));
        CHECK(memcmp(root, new_root, 32) == 0);
    }
}

static const test hash_tests[] = {
    TEST(digests_of_0_to_300_bytes_are_those_of_fips_180_4),
    TEST(digests_up_to_65536_bytes_are_those_of_fips_180_4),
    TEST(more_than_65536_bytes_to_hash_are_refused_with_15),
    TEST(more_than_2_to_the_32_bytes_to_hash_are_refused_with_15),
};

static const test path_tests[] = {
    TEST(every_path_of_1_to_64_boards_is_correct),
    TEST(a_damaged_root_node_or_fragment_is_not_correct),
    TEST(every_single_bit_of_root_and_path_counts),
    TEST(a_wrong_node_count_is_not_correct),
    TEST(five_boards_have_paths_of_3_3_3_3_and_1_nodes),
    TEST(a_wrong_board_number_is_not_correct),
    TEST(a_wrong_number_of_boards_is_judged_as_rfc_6962_says),
    TEST(a_root_or_node_not_of_32_bytes_is_not_correct),
    TEST(a_fragment_of_65535_bytes_is_checked_and_one_above_is_not_correct),
    TEST(a_fragment_of_each_length_up_to_200_is_hashed_whole),
    TEST(lengths_above_2_to_the_32_are_not_correct),
};

static const test table_tests[] = {
    TEST(every_table_near_its_limits_is_judged_as_document_01_says),
    TEST(tables_with_numbers_near_2_to_the_32_are_refused_with_1),
    TEST(three_t_does_not_wrap),
    TEST(a_longest_message_of_16384_is_taken_and_of_16385_refused_with_1),
};

static const test encode_tests[] = {
    TEST(message_41_of_four_boards_has_the_fragments_worked_out_by_hand),
    TEST(an_empty_message_of_four_boards_has_four_fragments_of_two_zeros),
    TEST(fragments_root_and_paths_are_those_of_random_tables_and_messages),
    TEST(every_n_and_t_within_limits_is_encoded),
    TEST(sixty_four_boards_take_messages_of_every_size),
    TEST(a_message_of_l_bytes_is_taken_and_of_l_plus_1_refused_with_13),
    TEST(a_message_above_2_to_the_32_bytes_is_refused_with_13),
    TEST(encoding_needs_its_three_buffers_and_leaves_the_bytes_beyond),
    TEST(buffers_longer_than_2_to_the_32_bytes_are_long_enough),
    TEST(encoding_looks_in_the_order_1_2_13),
};

static const test rebuild_tests[] = {
    TEST(fragments_2_and_4_alone_give_message_41_back),
    TEST(any_k_fragments_give_the_block_back),
    TEST(every_set_of_k_of_seven_boards_gives_the_block_back),
    TEST(more_than_k_fragments_that_agree_give_the_block_back),
    TEST(sixty_four_boards_are_rebuilt),
    TEST(one_damaged_fragment_among_more_than_k_is_refused_with_11),
    TEST(a_block_is_any_rows_of_k_bytes_readable_or_not),
    TEST(random_fragments_are_judged_as_the_reference_judges_them),
    TEST(marked_lengths_that_differ_are_refused_with_11),
    TEST(a_marked_length_0_or_above_s_max_is_refused_with_7),
    TEST(a_marked_board_above_n_is_refused_with_4),
    TEST(fewer_than_k_fragments_are_refused_with_10),
    TEST(rebuilding_needs_its_three_buffers_and_leaves_the_bytes_beyond),
    TEST(rebuilding_looks_in_the_order_1_2_4_7_10_11),
};

static const test read_tests[] = {
    TEST(the_blocks_worked_out_by_hand_are_read),
    TEST(the_message_is_the_bytes_after_the_length_and_nothing_after_it_is_looked_at),
    TEST(fewer_than_4_bytes_are_refused_with_12),
    TEST(a_byte_count_that_is_no_multiple_of_k_is_refused_with_12),
    TEST(rows_that_differ_from_the_length_are_refused_with_12),
    TEST(a_length_above_l_is_refused_with_12),
    TEST(random_blocks_are_judged_as_the_reference_judges_them),
    TEST(a_block_above_2_to_the_32_bytes_is_refused_with_12),
    TEST(reading_needs_l_bytes_and_leaves_those_beyond_the_message),
    TEST(reading_looks_in_the_order_1_2_12),
};

static const test together_tests[] = {
    TEST(what_is_encoded_is_correct_rebuilt_and_read),
    TEST(a_call_answers_the_same_whatever_its_buffers_held),
};

int main(int argc, char **argv)
{
    static const group groups[] = {
        GROUP("hash", hash_tests), GROUP("path check", path_tests), GROUP("tables", table_tests),
        GROUP("encode", encode_tests), GROUP("rebuild", rebuild_tests), GROUP("read block", read_tests),
        GROUP("together", together_tests),
    };

    return run_groups(groups, sizeof groups / sizeof *groups, argc, argv);
}
