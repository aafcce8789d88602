/*
 * The calls of the ground as a C programmer would write them by hand: not
 * proved, no refusals, quick. Something to hold the library's speed against.
 */

#ifndef PLAIN_H
#define PLAIN_H

#include <stdbool.h>
#include <stddef.h>
#include <stdint.h>

/* SHA-256 of `len` bytes. */
typedef void (*hash_function)(const uint8_t *data, size_t len, uint8_t digest[32]);

void plain_hash(const uint8_t *data, size_t len, uint8_t digest[32]);

/* The tree and the path check by any hash function. */
bool plain_path_correct(hash_function hash, uint32_t n, uint32_t board, const uint8_t *root,
                        const uint8_t *path, size_t nodes, const uint8_t *fragment, size_t fragment_len);
void plain_tree(hash_function hash, const uint8_t *area, size_t stride, size_t length, size_t n,
                uint8_t *root, uint8_t *paths);

/* Fills the 64 KiB product table that the calls below use. */
void plain_begin(void);
uint8_t plain_product(uint8_t a, uint8_t b);

/* The block of a message: its rows of k bytes; answers their number. */
size_t plain_block(const uint8_t *message, size_t message_len, size_t k, uint8_t *block);

/* Answers the length of a fragment. */
size_t plain_fragments(const uint8_t *message, size_t message_len, size_t n, size_t k, size_t s_max, uint8_t *area);

/* Rebuilds from `count` fragments of equal length, that of board who[i] at
 * (who[i] - 1) * s_max. False if they do not agree. */
bool plain_rebuild(const uint8_t *who, size_t count, size_t k, size_t length, size_t s_max,
                   const uint8_t *area, uint8_t *block);

/* Answers the length of the message, or -1. */
long plain_read_block(const uint8_t *block, size_t block_len, size_t k, size_t longest, uint8_t *message);

#endif
