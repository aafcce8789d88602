/* SHA-256 by FIPS 180-4, and the tree of RFC 6962, section 2.1. */

#include <string.h>
#include "reference.h"

/* ---- SHA-256. The constants are worked out, not copied: FIPS 180-4 has
 * them as the first 32 bits of the fractional parts of the square roots
 * (starting words) and cube roots (round constants) of the first primes. */

static uint32_t starting[8], constants[64];

static uint32_t root_fraction(double number, int power)
{
    double root = number;

    for (int turns = 0; turns < 100; turns++) {         /* Newton */
        double below = power == 2 ? root : root * root;

        root -= (below * root - number) / (power * below);
    }
    return (uint32_t)((root - (int)root) * 4294967296.0);
}

static void work_out_constants(void)
{
    int candidate = 2;

    for (int found = 0; found < 64; candidate++) {
        bool prime = true;

        for (int d = 2; d * d <= candidate; d++)
            prime = prime && candidate % d != 0;
        if (!prime)
            continue;
        if (found < 8)
            starting[found] = root_fraction(candidate, 2);
        constants[found++] = root_fraction(candidate, 3);
    }
}

static uint32_t turn(uint32_t x, int by)
{
    return x >> by | x << (32 - by);
}

typedef struct {
    uint32_t chain[8];
    uint8_t held[64];
    size_t count;
} sha;

static void sha_begin(sha *s)
{
    if (starting[0] == 0)
        work_out_constants();
    memcpy(s->chain, starting, sizeof s->chain);
    s->count = 0;
}

static void sha_block(sha *s)
{
    uint32_t w[64], v[8];

    for (int i = 0; i < 64; i++) {
        if (i < 16) {
            w[i] = 0;
            for (int j = 0; j < 4; j++)
                w[i] = w[i] << 8 | s->held[4 * i + j];
        } else {
            uint32_t near = w[i - 2], far = w[i - 15];

            w[i] = (turn(near, 17) ^ turn(near, 19) ^ near >> 10) + w[i - 7]
                 + (turn(far, 7) ^ turn(far, 18) ^ far >> 3) + w[i - 16];
        }
    }
    memcpy(v, s->chain, sizeof v);
    for (int i = 0; i < 64; i++) {
        uint32_t one = v[7] + (turn(v[4], 6) ^ turn(v[4], 11) ^ turn(v[4], 25))
                     + ((v[4] & v[5]) ^ (~v[4] & v[6])) + constants[i] + w[i];
        uint32_t two = (turn(v[0], 2) ^ turn(v[0], 13) ^ turn(v[0], 22))
                     + ((v[0] & v[1]) ^ (v[0] & v[2]) ^ (v[1] & v[2]));

        memmove(v + 1, v, 7 * sizeof *v);
        v[4] += one;
        v[0] = one + two;
    }
    for (int i = 0; i < 8; i++)
        s->chain[i] += v[i];
}

static void sha_add(sha *s, const uint8_t *data, size_t len)
{
    while (len > 0) {
        size_t at = s->count % 64, take = len < 64 - at ? len : 64 - at;

        memcpy(s->held + at, data, take);
        s->count += take;
        data += take;
        len -= take;
        if (s->count % 64 == 0)
            sha_block(s);
    }
}

static void sha_end(sha *s, uint8_t digest[32])
{
    uint64_t bits = (uint64_t)s->count * 8;
    uint8_t tail[8], mark = 0x80, zero = 0;

    for (int i = 0; i < 8; i++)
        tail[i] = (uint8_t)(bits >> (56 - 8 * i));
    sha_add(s, &mark, 1);
    while (s->count % 64 != 56)
        sha_add(s, &zero, 1);
    sha_add(s, tail, 8);
    for (int i = 0; i < 32; i++)
        digest[i] = (uint8_t)(s->chain[i / 4] >> (24 - 8 * (i % 4)));
}

ref_digest ref_hash(const uint8_t *data, size_t data_len)
{
    ref_digest answer = { 0, { 0 } };
    sha s;

    if (data_len > 65536) {
        answer.number = 15;
        return answer;
    }
    sha_begin(&s);
    sha_add(&s, data, data_len);
    sha_end(&s, answer.bytes);
    return answer;
}

/* ---- the tree */

static void leaf_hash(const uint8_t *fragment, size_t len, uint8_t digest[32])
{
    uint8_t prefix = 0;
    sha s;

    sha_begin(&s);
    sha_add(&s, &prefix, 1);
    sha_add(&s, fragment, len);
    sha_end(&s, digest);
}

static void node_hash(const uint8_t left[32], const uint8_t right[32], uint8_t digest[32])
{
    uint8_t prefix = 1;
    sha s;

    sha_begin(&s);
    sha_add(&s, &prefix, 1);
    sha_add(&s, left, 32);
    sha_add(&s, right, 32);
    sha_end(&s, digest);
}

/* the largest power of two below the count */
static size_t split(size_t count)
{
    size_t power = 1;

    while (power * 2 < count)
        power *= 2;
    return power;
}

/* Fills the paths of `count` leaves, 192 bytes apart, from the leaf upward,
 * and works out their root; nodes[i] counts those of path i. */
static void grow(const uint8_t leaf[][32], size_t count, uint8_t root[32], uint8_t *paths, size_t *nodes)
{
    uint8_t left[32], right[32];
    size_t half;

    if (count == 1) {
        memcpy(root, leaf[0], 32);
        nodes[0] = 0;
        return;
    }
    half = split(count);
    grow(leaf, half, left, paths, nodes);
    grow(leaf + half, count - half, right, paths + 192 * half, nodes + half);
    for (size_t i = 0; i < count; i++)
        memcpy(paths + 192 * i + 32 * nodes[i]++, i < half ? right : left, 32);
    node_hash(left, right, root);
}

void ref_uneven_tree(const uint8_t *fragments, size_t stride, const uint32_t *lengths, size_t count,
                     uint8_t root[32], uint8_t *paths, size_t *nodes)
{
    uint8_t leaf[REF_BOARDS][32];

    for (size_t i = 0; i < count; i++)
        leaf_hash(fragments + i * stride, lengths[i], leaf[i]);
    grow((const uint8_t (*)[32])leaf, count, root, paths, nodes);
}

void ref_tree(const uint8_t *fragments, size_t stride, size_t length, size_t count,
              uint8_t root[32], uint8_t *paths, size_t *nodes)
{
    uint32_t lengths[REF_BOARDS];

    for (size_t i = 0; i < count; i++)
        lengths[i] = (uint32_t)length;
    ref_uneven_tree(fragments, stride, lengths, count, root, paths, nodes);
}

/* Climbs from the leaf at `at` to the root of `count` leaves. The last of
 * the `nodes` nodes is the topmost one. False if there are too few or too
 * many of them. */
static bool climb(const uint8_t leaf[32], size_t count, size_t at, const uint8_t *path, size_t nodes, uint8_t root[32])
{
    uint8_t below[32];
    size_t half;

    if (count == 1) {
        memcpy(root, leaf, 32);
        return nodes == 0;
    }
    if (nodes == 0)
        return false;
    half = split(count);
    if (at < half) {
        if (!climb(leaf, half, at, path, nodes - 1, below))
            return false;
        node_hash(below, path + 32 * (nodes - 1), root);
    } else {
        if (!climb(leaf, count - half, at - half, path, nodes - 1, below))
            return false;
        node_hash(path + 32 * (nodes - 1), below, root);
    }
    return true;
}

bool ref_path_correct(uint32_t n, uint32_t board, const uint8_t *root, size_t root_len,
                      const uint8_t *path, size_t path_len, const uint8_t *fragment, size_t fragment_len)
{
    uint8_t leaf[32], top[32];

    if (n < 1 || n > REF_BOARDS || board < 1 || board > n)
        return false;
    if (root_len != 32 || path_len % 32 != 0 || path_len > 192 || fragment_len > 65535)
        return false;
    leaf_hash(fragment, fragment_len, leaf);
    return climb(leaf, n, board - 1, path, path_len / 32, top) && memcmp(top, root, 32) == 0;
}
