#include <string.h>
#include "plain.h"

/* ---- SHA-256, with the 64 words of the schedule laid out */

static const uint32_t K[64] = {
    0x428a2f98, 0x71374491, 0xb5c0fbcf, 0xe9b5dba5, 0x3956c25b, 0x59f111f1, 0x923f82a4, 0xab1c5ed5,
    0xd807aa98, 0x12835b01, 0x243185be, 0x550c7dc3, 0x72be5d74, 0x80deb1fe, 0x9bdc06a7, 0xc19bf174,
    0xe49b69c1, 0xefbe4786, 0x0fc19dc6, 0x240ca1cc, 0x2de92c6f, 0x4a7484aa, 0x5cb0a9dc, 0x76f988da,
    0x983e5152, 0xa831c66d, 0xb00327c8, 0xbf597fc7, 0xc6e00bf3, 0xd5a79147, 0x06ca6351, 0x14292967,
    0x27b70a85, 0x2e1b2138, 0x4d2c6dfc, 0x53380d13, 0x650a7354, 0x766a0abb, 0x81c2c92e, 0x92722c85,
    0xa2bfe8a1, 0xa81a664b, 0xc24b8b70, 0xc76c51a3, 0xd192e819, 0xd6990624, 0xf40e3585, 0x106aa070,
    0x19a4c116, 0x1e376c08, 0x2748774c, 0x34b0bcb5, 0x391c0cb3, 0x4ed8aa4a, 0x5b9cca4f, 0x682e6ff3,
    0x748f82ee, 0x78a5636f, 0x84c87814, 0x8cc70208, 0x90befffa, 0xa4506ceb, 0xbef9a3f7, 0xc67178f2,
};

#define R(x, n) ((x) >> (n) | (x) << (32 - (n)))

static void compress(uint32_t h[8], const uint8_t *p)
{
    uint32_t w[64], a = h[0], b = h[1], c = h[2], d = h[3], e = h[4], f = h[5], g = h[6], i = h[7];

    for (int t = 0; t < 16; t++, p += 4)
        w[t] = (uint32_t)p[0] << 24 | (uint32_t)p[1] << 16 | (uint32_t)p[2] << 8 | p[3];
    for (int t = 16; t < 64; t++)
        w[t] = (R(w[t - 2], 17) ^ R(w[t - 2], 19) ^ w[t - 2] >> 10) + w[t - 7]
             + (R(w[t - 15], 7) ^ R(w[t - 15], 18) ^ w[t - 15] >> 3) + w[t - 16];
    for (int t = 0; t < 64; t++) {
        uint32_t t1 = i + (R(e, 6) ^ R(e, 11) ^ R(e, 25)) + ((e & f) ^ (~e & g)) + K[t] + w[t];
        uint32_t t2 = (R(a, 2) ^ R(a, 13) ^ R(a, 22)) + ((a & b) ^ (a & c) ^ (b & c));

        i = g; g = f; f = e; e = d + t1;
        d = c; c = b; b = a; a = t1 + t2;
    }
    h[0] += a; h[1] += b; h[2] += c; h[3] += d;
    h[4] += e; h[5] += f; h[6] += g; h[7] += i;
}

void plain_hash(const uint8_t *data, size_t len, uint8_t digest[32])
{
    uint32_t h[8] = { 0x6a09e667, 0xbb67ae85, 0x3c6ef372, 0xa54ff53a, 0x510e527f, 0x9b05688c, 0x1f83d9ab, 0x5be0cd19 };
    uint8_t tail[128] = { 0 };
    size_t whole = len / 64 * 64, rest = len - whole, end = rest < 56 ? 64 : 128;

    for (size_t at = 0; at < whole; at += 64)
        compress(h, data + at);
    if (rest > 0)
        memcpy(tail, data + whole, rest);
    tail[rest] = 0x80;
    for (int j = 0; j < 8; j++)
        tail[end - 8 + (size_t)j] = (uint8_t)((uint64_t)len * 8 >> (56 - 8 * j));
    compress(h, tail);
    if (end == 128)
        compress(h, tail + 64);
    for (int j = 0; j < 32; j++)
        digest[j] = (uint8_t)(h[j / 4] >> (24 - 8 * (j % 4)));
}

/* ---- the tree */

static void leaf_hash(hash_function hash, const uint8_t *fragment, size_t len, uint8_t *digest)
{
    static uint8_t room[65536];

    room[0] = 0;
    memcpy(room + 1, fragment, len);
    hash(room, len + 1, digest);
}

static void node_hash(hash_function hash, const uint8_t *left, const uint8_t *right, uint8_t *digest)
{
    uint8_t room[65];

    room[0] = 1;
    memcpy(room + 1, left, 32);
    memcpy(room + 33, right, 32);
    hash(room, 65, digest);
}

bool plain_path_correct(hash_function hash, uint32_t n, uint32_t board, const uint8_t *root,
                        const uint8_t *path, size_t nodes, const uint8_t *fragment, size_t fragment_len)
{
    uint8_t at[32];
    uint32_t i = board - 1, last = n - 1;

    leaf_hash(hash, fragment, fragment_len, at);
    for (; last > 0; i /= 2, last /= 2) {
        if (i == last && i % 2 == 0)    /* alone at the end: goes up as it is */
            continue;
        if (nodes-- == 0)
            return false;
        if (i % 2)
            node_hash(hash, path, at, at);
        else
            node_hash(hash, at, path, at);
        path += 32;
    }
    return nodes == 0 && memcmp(at, root, 32) == 0;
}

void plain_tree(hash_function hash, const uint8_t *area, size_t stride, size_t length, size_t n,
                uint8_t *root, uint8_t *paths)
{
    uint8_t level[64][32];
    size_t nodes[64] = { 0 };

    for (size_t i = 0; i < n; i++)
        leaf_hash(hash, area + i * stride, length, level[i]);
    for (size_t width = 1, count = n; count > 1; width *= 2, count = (count + 1) / 2) {
        for (size_t i = 0; i < n; i++) {
            size_t beside = i / width ^ 1;

            if (beside < count)
                memcpy(paths + i * 192 + 32 * nodes[i]++, level[beside], 32);
        }
        for (size_t i = 0; i < count; i += 2)
            if (i + 1 < count)
                node_hash(hash, level[i], level[i + 1], level[i / 2]);
            else
                memcpy(level[i / 2], level[i], 32);
    }
    memcpy(root, level[0], 32);
}

/* ---- the field: all products in a table */

static uint8_t product[256][256];

void plain_begin(void)
{
    for (unsigned a = 0; a < 256; a++)
        for (unsigned b = 0; b < 256; b++) {
            unsigned sum = 0, shifted = a;

            for (unsigned rest = b; rest != 0; rest >>= 1) {
                sum ^= rest & 1 ? shifted : 0;
                shifted = shifted << 1 ^ (shifted & 128 ? 285 : 0);
            }
            product[a][b] = (uint8_t)sum;
        }
}

uint8_t plain_product(uint8_t a, uint8_t b)
{
    return product[a][b];
}

/* to[i] ^= factor * from[i] */
static void add_times(uint8_t *restrict to, const uint8_t *restrict from, size_t len, uint8_t factor)
{
    const uint8_t *times = product[factor];

    for (size_t i = 0; i < len; i++)
        to[i] ^= times[from[i]];
}

size_t plain_block(const uint8_t *message, size_t message_len, size_t k, uint8_t *block)
{
    size_t rows = (message_len + 4 + k - 1) / k;

    for (int j = 0; j < 4; j++)
        block[j] = (uint8_t)(message_len >> (24 - 8 * j));
    memcpy(block + 4, message, message_len);
    memset(block + 4 + message_len, 0, rows * k - 4 - message_len);
    return rows;
}

size_t plain_fragments(const uint8_t *message, size_t message_len, size_t n, size_t k, size_t s_max, uint8_t *area)
{
    static uint8_t block[16384 + 4 + 64];
    size_t rows = plain_block(message, message_len, k, block);

    for (size_t i = 0; i < n; i++) {
        uint8_t *restrict fragment = area + i * s_max;
        const uint8_t *times = product[i + 1];

        memset(fragment, 0, rows);
        for (size_t j = k; j-- > 0;)            /* Horner, all rows at once */
            for (size_t c = 0; c < rows; c++)
                fragment[c] = times[fragment[c]] ^ block[c * k + j];
    }
    return rows;
}

static uint8_t inverse(uint8_t a)
{
    unsigned b = 1;

    while (product[a][b] != 1)
        b++;
    return (uint8_t)b;
}

bool plain_rebuild(const uint8_t *who, size_t count, size_t k, size_t length, size_t s_max,
                   const uint8_t *area, uint8_t *block)
{
    static uint8_t column[16388], weights[64][64];
    uint8_t master[65] = { 1 };

    /* the polynomial that is 0 at the k boards; lowest power first */
    for (size_t i = 0; i < k; i++)
        for (size_t j = i + 2; j-- > 0;)
            master[j] = (uint8_t)((j > 0 ? master[j - 1] : 0) ^ product[who[i]][j <= i ? master[j] : 0]);
    /* the one that is 1 at board i and 0 at the others: divide, then scale */
    for (size_t i = 0; i < k; i++) {
        uint8_t value = 0, scale;

        weights[i][k - 1] = 1;
        for (size_t j = k - 1; j-- > 0;)
            weights[i][j] = master[j + 1] ^ product[who[i]][weights[i][j + 1]];
        for (size_t j = k; j-- > 0;)
            value = product[value][who[i]] ^ weights[i][j];
        scale = inverse(value);
        for (size_t j = 0; j < k; j++)
            weights[i][j] = product[weights[i][j]][scale];
    }
    for (size_t q = k; q < count; q++) {        /* the others must agree */
        memset(column, 0, length);
        for (size_t i = 0; i < k; i++) {
            uint8_t weight = 0;

            for (size_t j = k; j-- > 0;)
                weight = product[weight][who[q]] ^ weights[i][j];
            add_times(column, area + (who[i] - 1u) * s_max, length, weight);
        }
        if (memcmp(column, area + (who[q] - 1u) * s_max, length) != 0)
            return false;
    }
    for (size_t j = 0; j < k; j++) {
        memset(column, 0, length);
        for (size_t i = 0; i < k; i++)
            add_times(column, area + (who[i] - 1u) * s_max, length, weights[i][j]);
        for (size_t c = 0; c < length; c++)
            block[c * k + j] = column[c];
    }
    return true;
}

long plain_read_block(const uint8_t *block, size_t block_len, size_t k, size_t longest, uint8_t *message)
{
    uint32_t length;

    if (block_len < 4 || block_len % k != 0)
        return -1;
    length = (uint32_t)block[0] << 24 | (uint32_t)block[1] << 16 | (uint32_t)block[2] << 8 | block[3];
    if (length > longest || (length + 4 + k - 1) / k != block_len / k)
        return -1;
    memcpy(message, block + 4, length);
    return (long)length;
}
