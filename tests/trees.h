/*
 * Trees that a sender may build over fragments, by the rules or not, and
 * the records that go with them.
 */

#ifndef TREES_H
#define TREES_H

#include "reference/reference.h"

enum {
    MESSAGE_TREE,       /* the fragments of a message */
    PADDED_TREE,        /* those of a block with other bytes than zeros after its message */
    UNREADABLE_TREE,    /* those of a block that cannot be read */
    NO_BLOCK_TREE,      /* of one length, and no block's */
    UNEVEN_TREE,        /* of unequal lengths */
    TREE_MANNERS
};

/* Index i is board i + 1. Fragments are s_max apart, paths 192. */
typedef struct {
    ref_table table;
    uint32_t s_max;
    uint8_t area[4 * REF_FRAGMENT];
    uint32_t lengths[REF_BOARDS];
    uint8_t root[32], paths[REF_BOARDS * 192];
    size_t nodes[REF_BOARDS];
} tree;

/* What is not fixed by the message is drawn. */
void grow_tree(tree *one, ref_table table, int manner, const uint8_t *message, size_t message_len);

/* Fills area and lengths with the fragments of a block of `rows` rows. */
void cut_block(tree *one, ref_table table, const uint8_t *block, uint32_t rows);

/* Root and paths over the fragments as they stand. */
void close_tree(tree *one);

/* The record of this kind for the board's place: the sender's, the board's
 * echo of it, or a vote for the root. Answers its length. */
size_t tree_record(const tree *one, uint32_t kind, uint32_t board, uint8_t *record);

/* Where the fields of a record stand, as request 2 of document 02 has them. */
enum { KIND_AT = 0, ROOT_COUNT_AT = 1, ROOT_AT = 3, PATH_COUNT_AT = 35, PATH_AT = 37 };
#define FRAGMENT_COUNT_AT(nodes)    (PATH_AT + 32 * (size_t)(nodes))
#define FRAGMENT_AT(nodes)          (FRAGMENT_COUNT_AT(nodes) + 2)

/* Where the bytes stand that are the kind or a count, in a record with so
 * many nodes. */
enum { NUMBER_BYTES = 7 };
size_t number_byte(size_t nodes, uint32_t which);

/* Another kind or count in a record of that length. */
void change_a_number(uint8_t *record, size_t len);

#endif
