/* The field, the fragments and the blocks of document 01. */

#include <string.h>
#include "reference.h"

bool ref_table_within_limits(ref_table table)
{
    return table.n >= 1 && table.n <= REF_BOARDS
        && 3 * (uint64_t)table.t < table.n
        && table.sender >= 1 && table.sender <= table.n
        && table.longest <= REF_LONGEST;
}

uint32_t ref_k(ref_table table)
{
    return table.n - 2 * table.t;
}

static uint32_t rounded_up(uint32_t bytes, uint32_t k)
{
    return bytes / k + (bytes % k != 0);
}

uint32_t ref_s_max(ref_table table)
{
    return rounded_up(table.longest + 4, ref_k(table));
}

/* ---- the field: shift and add, modulo the polynomial with bits 285 */

uint8_t ref_mul(uint8_t a, uint8_t b)
{
    unsigned sum = 0, shifted = a;

    for (unsigned rest = b; rest != 0; rest >>= 1) {
        if (rest & 1)
            sum ^= shifted;
        shifted <<= 1;
        if (shifted & 256)
            shifted ^= 285;
    }
    return (uint8_t)sum;
}

/* all products, for speed */
static uint8_t product[256][256];

static void work_out_products(void)
{
    if (product[1][1] == 1)
        return;
    for (unsigned a = 0; a < 256; a++)
        for (unsigned b = 0; b < 256; b++)
            product[a][b] = ref_mul((uint8_t)a, (uint8_t)b);
}

static uint8_t inverse(uint8_t a)
{
    unsigned b = 1;

    while (product[a][b] != 1)
        b++;
    return (uint8_t)b;
}

/* ---- fragments */

/* Byte c of fragment i is row c, evaluated at element i: the sum of the
 * row's bytes times the powers of i. */
static uint8_t evaluated(const uint8_t *row, uint32_t k, uint8_t element)
{
    uint8_t sum = 0, power = 1;

    for (uint32_t j = 0; j < k; j++) {
        sum ^= product[row[j]][power];
        power = product[power][element];
    }
    return sum;
}

ref_sized ref_encode(uint32_t n, uint32_t t, uint32_t sender, uint32_t longest,
                     const uint8_t *message, size_t message_len, uint8_t *area, size_t area_len,
                     uint8_t *root, size_t root_len, uint8_t *paths, size_t paths_len)
{
    static uint8_t block[REF_FRAGMENT + REF_BOARDS];
    ref_table table = { n, t, sender, longest };
    ref_sized answer = { 0, 0 };
    size_t nodes[REF_BOARDS];
    uint32_t k, s_max, rows;

    if (!ref_table_within_limits(table)) {
        answer.number = 1;
        return answer;
    }
    k = ref_k(table);
    s_max = ref_s_max(table);
    if (area_len < (size_t)n * s_max || root_len < 32 || paths_len < (size_t)n * 192) {
        answer.number = 2;
        return answer;
    }
    if (message_len > longest) {
        answer.number = 13;
        return answer;
    }
    work_out_products();
    memset(block, 0, sizeof block);
    for (int j = 0; j < 4; j++)
        block[j] = (uint8_t)(message_len >> (24 - 8 * j));
    if (message_len > 0)
        memcpy(block + 4, message, message_len);
    rows = rounded_up((uint32_t)message_len + 4, k);
    for (uint32_t i = 0; i < n; i++)
        for (uint32_t c = 0; c < rows; c++)
            area[i * s_max + c] = evaluated(block + c * k, k, (uint8_t)(i + 1));
    ref_tree(area, s_max, rows, n, root, paths, nodes);
    answer.length = rows;
    return answer;
}

/* ---- rebuilding */

/* The matrix that takes the bytes of the boards `who` back to a row: the
 * inverse of the matrix of their powers, by elimination. */
static void solve(const uint8_t *who, uint32_t k, uint8_t back[REF_BOARDS][REF_BOARDS])
{
    uint8_t left[REF_BOARDS][REF_BOARDS];

    for (uint32_t i = 0; i < k; i++) {
        uint8_t power = 1;

        for (uint32_t j = 0; j < k; j++) {
            left[i][j] = power;
            power = product[power][who[i]];
            back[i][j] = i == j;
        }
    }
    for (uint32_t c = 0; c < k; c++) {
        uint32_t pivot = c;
        uint8_t scale;

        while (left[pivot][c] == 0)
            pivot++;
        for (uint32_t j = 0; j < k; j++) {
            uint8_t a = left[c][j], b = back[c][j];

            left[c][j] = left[pivot][j];
            left[pivot][j] = a;
            back[c][j] = back[pivot][j];
            back[pivot][j] = b;
        }
        scale = inverse(left[c][c]);
        for (uint32_t j = 0; j < k; j++) {
            left[c][j] = product[left[c][j]][scale];
            back[c][j] = product[back[c][j]][scale];
        }
        for (uint32_t i = 0; i < k; i++) {
            uint8_t factor = left[i][c];

            if (i == c || factor == 0)
                continue;
            for (uint32_t j = 0; j < k; j++) {
                left[i][j] ^= product[left[c][j]][factor];
                back[i][j] ^= product[back[c][j]][factor];
            }
        }
    }
}

ref_sized ref_rebuild(uint32_t n, uint32_t t, uint32_t sender, uint32_t longest, uint64_t marked,
                      const uint8_t *lengths, size_t lengths_len, const uint8_t *area, size_t area_len,
                      uint8_t *block, size_t block_len)
{
    static uint8_t rows[REF_FRAGMENT + REF_BOARDS];
    static uint8_t back[REF_BOARDS][REF_BOARDS];
    ref_table table = { n, t, sender, longest };
    ref_sized answer = { 0, 0 };
    uint32_t k, s_max, count = 0, length = 0;
    uint8_t who[REF_BOARDS];
    bool wrong = false, differ = false;

    if (!ref_table_within_limits(table)) {
        answer.number = 1;
        return answer;
    }
    k = ref_k(table);
    s_max = ref_s_max(table);
    if (lengths_len < (size_t)n * 2 || area_len < (size_t)n * s_max || block_len < (size_t)k * s_max) {
        answer.number = 2;
        return answer;
    }
    for (uint32_t i = n; i < 64; i++)
        if (marked >> i & 1)
            answer.number = 4;
    if (answer.number != 0)
        return answer;
    for (uint32_t i = 0; i < n; i++) {
        uint32_t own = (uint32_t)lengths[2 * i] * 256 + lengths[2 * i + 1];

        if (!(marked >> i & 1))
            continue;
        wrong = wrong || own == 0 || own > s_max;
        differ = differ || (count > 0 && own != length);
        length = own;
        who[count++] = (uint8_t)(i + 1);
    }
    if (wrong || count < k || differ) {
        answer.number = wrong ? 7 : count < k ? 10 : 11;
        return answer;
    }
    work_out_products();
    solve(who, k, back);
    for (uint32_t c = 0; c < length; c++) {
        uint8_t *row = rows + c * k;

        for (uint32_t j = 0; j < k; j++) {
            row[j] = 0;
            for (uint32_t i = 0; i < k; i++)
                row[j] ^= product[back[j][i]][area[(who[i] - 1u) * s_max + c]];
        }
        for (uint32_t i = k; i < count; i++)
            if (evaluated(row, k, who[i]) != area[(who[i] - 1u) * s_max + c])
                answer.number = 11;
    }
    if (answer.number != 0)
        return answer;
    memcpy(block, rows, (size_t)length * k);
    answer.length = length * k;
    return answer;
}

ref_sized ref_read_block(uint32_t n, uint32_t t, uint32_t sender, uint32_t longest,
                         const uint8_t *block, size_t block_len, uint8_t *message, size_t message_len)
{
    ref_table table = { n, t, sender, longest };
    ref_sized answer = { 0, 0 };
    uint32_t k, length = 0;

    if (!ref_table_within_limits(table)) {
        answer.number = 1;
        return answer;
    }
    if (message_len < longest) {
        answer.number = 2;
        return answer;
    }
    answer.number = 12;
    k = ref_k(table);
    if (block_len < 4 || block_len % k != 0)
        return answer;
    for (int j = 0; j < 4; j++)
        length = length << 8 | block[j];
    if (length > longest || rounded_up(length + 4, k) != block_len / k)
        return answer;
    answer.number = 0;
    answer.length = length;
    if (length > 0)
        memcpy(message, block + 4, length);
    return answer;
}
