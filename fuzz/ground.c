/* The calls of the ground, each with drawn arguments. */

#include <string.h>
#include "fuzz.h"
#include "trees.h"
#ifdef WITH_LIBRARY
#include "tumbeliko.h"
#endif

static uint8_t data[ROOM], old[3][ROOM], new[3][ROOM];
static tree grown;

/* Fills a buffer that the call may write, and the reference's copy of it. */
static void prepare(int which, size_t len)
{
    random_bytes(old[which], len);
    memcpy(new[which], old[which], len);
}

void try_hash(void)
{
    uint8_t drawn = draw_byte();
    size_t len = drawn < 240 ? 0 : 65536 + drawn % 5u - 2;      /* some at the limit */
    ref_digest right;

    if (len == 0)
        len = draw_rest(data, 1024);
    else
        memset(data, draw_byte(), len);
    right = ref_hash(data, len);
    note(right.number);
#ifdef WITH_LIBRARY
    tumbeliko_digest got = tumbeliko_hash(lend(0, data, len), len);

    SAME(got.number == right.number);
    SAME(memcmp(got.bytes, right.bytes, 32) == 0);
    SAME(holds(0, data));
#endif
}

/* A tree of one of the manners, over a drawn message. */
static void grow(ref_table b)
{
    size_t len = random_below(b.longest + 1);

    random_bytes(data, len);
    grow_tree(&grown, b, (int)random_below(TREE_MANNERS), data, len);
}

void try_path(void)
{
    ref_table b = draw_good_table();
    uint32_t i = random_below(b.n), board = draw_byte() < 230 ? i + 1 : draw_number();
    uint8_t root[64], path[400], fragment[2000];
    size_t root_len, path_len, fragment_len;
    bool right;

    grow(b);
    memcpy(root, grown.root, 32);
    memcpy(path, grown.paths + i * 192, path_len = 32 * grown.nodes[i]);
    memcpy(fragment, grown.area + i * grown.s_max, fragment_len = grown.lengths[i]);
    root_len = damage(root, 32, sizeof root);
    path_len = damage(path, path_len, sizeof path);
    fragment_len = damage(fragment, fragment_len, sizeof fragment);
    b.n = draw_byte() < 230 ? b.n : draw_number();
    right = ref_path_correct(b.n, board, root, root_len, path, path_len, fragment, fragment_len);
    note(right);
#ifdef WITH_LIBRARY
    SAME(tumbeliko_path_correct(b.n, board, lend(0, root, root_len), root_len, lend(1, path, path_len), path_len,
                                lend(2, fragment, fragment_len), fragment_len) == right);
    SAME(holds(0, root) && holds(1, path) && holds(2, fragment));
#endif
}

void try_encode(void)
{
    ref_table good = draw_good_table(), b = good;
    size_t area = draw_length((size_t)good.n * ref_s_max(good)), root = draw_length(32), paths = draw_length(good.n * 192);
    size_t len = draw_byte() < 230 ? random_below(good.longest + 1) : good.longest + 1 + draw_byte() % 3u;
    ref_sized right;

    if (draw_byte() > 230)
        b.sender = draw_number();
    random_bytes(data, len);
    prepare(0, area);
    prepare(1, root);
    prepare(2, paths);
    right = ref_encode(b.n, b.t, b.sender, b.longest, data, len, new[0], area, new[1], root, new[2], paths);
    note(right.number);
#ifdef WITH_LIBRARY
    tumbeliko_sized got = tumbeliko_encode(b.n, b.t, b.sender, b.longest, lend(0, data, len), len,
                                           lend(1, old[0], area), area, lend(2, old[1], root), root,
                                           lend(3, old[2], paths), paths);

    SAME(got.number == right.number && got.length == right.length);
    SAME(holds(0, data) && holds(1, new[0]) && holds(2, new[1]) && holds(3, new[2]));
#endif
}

static uint64_t draw_marked(uint32_t n)
{
    uint64_t marked = 0;

    for (int i = 0; i < 8; i++)
        marked = marked << 8 | draw_byte();
    if (draw_byte() < 240 && n < 64)
        marked &= ((uint64_t)1 << n) - 1;
    return marked;
}

void try_rebuild(void)
{
    ref_table b = draw_good_table();
    size_t s_max = ref_s_max(b), area_len = draw_length(b.n * s_max), lengths_len = draw_length(2 * (size_t)b.n);
    size_t block_len = draw_length(ref_k(b) * s_max);
    uint64_t marked = draw_marked(b.n);
    uint8_t lengths[2 * REF_BOARDS + 20] = { 0 };
    ref_sized right;

    grow(b);
    for (uint32_t i = 0; i < b.n; i++) {
        lengths[2 * i] = (uint8_t)(grown.lengths[i] >> 8);
        lengths[2 * i + 1] = (uint8_t)grown.lengths[i];
    }
    damage(lengths, 2 * (size_t)b.n, sizeof lengths);
    damage(grown.area, b.n * s_max, b.n * s_max);
    if (draw_byte() > 240)
        b.sender = draw_number();
    prepare(0, block_len);
    right = ref_rebuild(b.n, b.t, b.sender, b.longest, marked, lengths, lengths_len, grown.area, area_len,
                        new[0], block_len);
    note(right.number);
#ifdef WITH_LIBRARY
    tumbeliko_sized got = tumbeliko_rebuild(b.n, b.t, b.sender, b.longest, marked,
                                            lend(0, lengths, lengths_len), lengths_len,
                                            lend(1, grown.area, area_len), area_len,
                                            lend(2, old[0], block_len), block_len);

    SAME(got.number == right.number && got.length == right.length);
    SAME(holds(0, lengths) && holds(1, grown.area) && holds(2, new[0]));
#endif
}

/* A block of a message, or any bytes. */
static size_t draw_block(ref_table b)
{
    uint8_t drawn = draw_byte();
    size_t k = ref_k(b), len = random_below(b.longest + 1);

    if (drawn >= 128) {
        len = draw_rest(data, 1000);
        return drawn < 240 ? len - len % k : len;
    }
    memset(data, 0, 2);
    data[2] = (uint8_t)(len >> 8);
    data[3] = (uint8_t)len;
    random_bytes(data + 4, len + k);
    len = (len + 4 + k - 1) / k * k;
    return damage(data, len, len + k);
}

void try_read_block(void)
{
    ref_table good = draw_good_table(), b = good;
    size_t message_len = draw_length(good.longest), len;
    ref_sized right;

    if (draw_byte() > 230)
        b.t = draw_number();
    prepare(0, message_len);
    len = draw_block(good);
    right = ref_read_block(b.n, b.t, b.sender, b.longest, data, len, new[0], message_len);
    note(right.number);
#ifdef WITH_LIBRARY
    tumbeliko_sized got = tumbeliko_read_block(b.n, b.t, b.sender, b.longest, lend(0, data, len), len,
                                               lend(1, old[0], message_len), message_len);

    SAME(got.number == right.number && got.length == right.length);
    SAME(holds(0, data) && holds(1, new[0]));
#endif
}
