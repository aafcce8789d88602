#include <string.h>
#include "harness.h"
#include "trees.h"

void cut_block(tree *one, ref_table table, const uint8_t *block, uint32_t rows)
{
    uint32_t k = ref_k(table);

    one->table = table;
    one->s_max = ref_s_max(table);
    for (uint32_t i = 0; i < table.n; i++) {
        one->lengths[i] = rows;
        for (uint32_t c = 0; c < rows; c++) {
            uint8_t value = 0;

            for (uint32_t j = k; j-- > 0;)      /* Horner: highest power first */
                value = (uint8_t)(ref_mul(value, (uint8_t)(i + 1)) ^ block[c * k + j]);
            one->area[i * one->s_max + c] = value;
        }
    }
}

void close_tree(tree *one)
{
    ref_uneven_tree(one->area, one->s_max, one->lengths, one->table.n, one->root, one->paths, one->nodes);
}

void grow_tree(tree *one, ref_table table, int manner, const uint8_t *message, size_t message_len)
{
    static uint8_t block[REF_FRAGMENT + REF_BOARDS];
    uint32_t k = ref_k(table), s_max = ref_s_max(table), used = (uint32_t)message_len + 4, rows = (used + k - 1) / k;

    memset(block, 0, sizeof block);
    block[2] = (uint8_t)(message_len >> 8);
    block[3] = (uint8_t)message_len;
    if (message_len > 0)
        memcpy(block + 4, message, message_len);
    if (manner == PADDED_TREE && rows * k > used) {
        random_bytes(block + used, rows * k - used);
        block[rows * k - 1] |= 1;
    }
    if (manner == UNREADABLE_TREE) {
        if (random_below(2))
            rows = 1 + random_below(s_max);
        random_bytes(block, rows * k);
        if (random_below(2))
            block[0] = block[1] = block[2] = 0;
    }
    cut_block(one, table, block, rows);
    if (manner == NO_BLOCK_TREE)
        for (uint32_t count = 1 + random_below(table.n); count > 0; count--)
            random_bytes(one->area + random_below(table.n) * s_max, rows);
    if (manner == UNEVEN_TREE)
        for (uint32_t count = 1 + random_below(2); count > 0; count--) {
            uint32_t at = random_below(table.n);

            one->lengths[at] = 1 + random_below(s_max);
        }
    close_tree(one);
}

size_t tree_record(const tree *one, uint32_t kind, uint32_t board, uint8_t *record)
{
    uint32_t i = board - 1;

    if (kind == 3)
        return ref_write_record(3, one->root, 32, NULL, 0, NULL, 0, record, REF_OUT).length;
    return ref_write_record(kind, one->root, 32, one->paths + i * 192, 32 * one->nodes[i],
                            one->area + i * one->s_max, one->lengths[i], record, REF_OUT).length;
}

size_t number_byte(size_t nodes, uint32_t which)
{
    const size_t places[NUMBER_BYTES] = { KIND_AT, ROOT_COUNT_AT, ROOT_COUNT_AT + 1, PATH_COUNT_AT, PATH_COUNT_AT + 1,
                                          FRAGMENT_COUNT_AT(nodes), FRAGMENT_COUNT_AT(nodes) + 1 };

    return places[which];
}

void change_a_number(uint8_t *record, size_t len)
{
    size_t nodes = len > PATH_COUNT_AT + 1 ? record[PATH_COUNT_AT + 1] : 0;
    size_t at = number_byte(nodes, random_below(NUMBER_BYTES));

    if (at < len)
        record[at] = (uint8_t)random_below(random_below(2) ? 10 : 256);
}
