/* assoc.h: objects kept by name, a key of 1 to 32 bytes, in a pool of words that the host lends. It is a pool of its own
 * kind: no words are one of both kinds, and each kind's calls refuse the other with 1 or 2.
 *
 * A key is any bytes, zeros too; its length is part of it, so "a" and "a\0" are two keys. An object is a word that an
 * entry may have: odd (XAPOOL_VALUE), or a multiple of 4 other than 0 (a handle, which is not followed).
 *
 * What a host must know of xapool.h's calls holds here as well: platform, alignment of the pool, memory that was written
 * before, threads (assoc_check and assoc_lookup only read). A key may begin anywhere. With length 0 a pointer may be NULL:
 * a pool of no words is refused with 1, a key of no bytes with 16.
 *
 * This version has the calls that read, and the one that clears. Those that enter and take out names come with a later
 * one; a pool with names in it comes from who made it, and is checked whole by each call that reads it. */
#ifndef ASSOC_H
#define ASSOC_H

#include "xapool.h"

#ifdef __cplusplus
extern "C" {
#endif

/* ---- Limits ---- */

#define ASSOC_ANCHOR_WORDS 2 /* word 0: N; 1: 0 without keys, else 1 + the number of the root's block */
#define ASSOC_BLOCK_WORDS 24 /* the words of a block, below */
#define ASSOC_BLOCKS_MIN 1
#define ASSOC_BLOCKS_MAX 16384
#define ASSOC_KEY_MIN 1
#define ASSOC_KEY_MAX 32     /* a key has at most so many bytes */

/* The words of a pool of n blocks, n from 1 to ASSOC_BLOCKS_MAX. A node, a shortcut and a leaf, which has its key in it, take a
 * block each: no keys take none, one key two. */
#define ASSOC_WORDS(n) (ASSOC_ANCHOR_WORDS + ASSOC_BLOCK_WORDS * (n))

/* The words of a block, for who inspects a raw pool. Block n, 0 to N - 1, begins at word ASSOC_WORDS(n); a block that is
 * free is all 0. A key's number has 66 nibbles: its length as a byte, its bytes, zero bytes to 33. A node of tier v, 1 to
 * 66, has one slot for each value of nibble v, counted from the lowest, unless its block has at most 16 keys: then they
 * are its first slots. A shortcut stands for a run of nodes with one filled slot each. */
#define ASSOC_TIER_FIELD 0  /* tier + 1; leaf: 1; shortcut: that of the node it leads to */
#define ASSOC_SKIP_FIELD 1  /* shortcut: how many nodes it stands for; else 0 */
#define ASSOC_VALUE_FIELD 2 /* leaf: its object; node: the keys in its block; shortcut: 0 */
#define ASSOC_BASE_FIELD 3  /* five words, the lowest first. leaf: its key's number; node: the first number of its block;
                               shortcut: that of the node it leads to */
#define ASSOC_BASE_WORDS 5
#define ASSOC_SLOT_FIELD 8  /* its slots, each 0 or 1 + the number of a block. leaf: none; shortcut: slot 0 alone */
#define ASSOC_SLOTS 16

/* ---- Calls ----
 *
 * The answers are those of enum xapool_answer; all but 0 refuse the call, and then nothing is written. gcc and clang
 * warn where a result is dropped. */

typedef xapool_result assoc_result; /* number: the object with answer 0 of a look-up, 0 with all else */

/* Makes the words a pool without keys, whatever stood there: N in word 0, 0 in all others. Gives 0, or 1 if pool_words
 * is not ASSOC_WORDS(N) with N from 1 to ASSOC_BLOCKS_MAX. */
XAPOOL_MUST_USE
assoc_result assoc_clear(uint64_t *pool, size_t pool_words);

/* Whether the words are those of a pool of names: whether some list of keys and objects prescribes them. Gives 0, 1 as
 * above, or 2 (never cleared, or damaged). It writes nothing. */
XAPOOL_MUST_USE
assoc_result assoc_check(const uint64_t *pool, size_t pool_words);

/* The object of a key. It checks the whole pool first, so words from anywhere may be given, and writes nothing. Gives 0
 * and the object as it stands; or, in this order, with number 0: 1 and 2 as above; 16, the key has no byte or more than
 * ASSOC_KEY_MAX, whose bytes are then not looked at; 10, the pool has no such key. Absence is never a match: 10 is a failure
 * like the others, and an object is never 0. */
XAPOOL_MUST_USE
assoc_result assoc_lookup(const uint64_t *pool, size_t pool_words, const uint8_t *key, size_t key_bytes);

/* An answer of these calls as text. */
XAPOOL_MUST_USE
static inline const char *assoc_answer_text(uint64_t answer)
{
    switch (answer) {
    case XAPOOL_POOL_LENGTH:
        return "pool of names: length is not " XAPOOL_QUOTED(ASSOC_ANCHOR_WORDS) " + " XAPOOL_QUOTED(ASSOC_BLOCK_WORDS)
               " N words, N from 1 to " XAPOOL_QUOTED(ASSOC_BLOCKS_MAX);
    case XAPOOL_NOT_WELL_FORMED: return "pool of names is not well-formed";
    case XAPOOL_ABSENT: return "no such key";
    case XAPOOL_BAD_KEY: return "key has no byte, or more than 32";
    default: return xapool_answer_text(answer);
    }
}

#ifdef __cplusplus
}
#endif

#endif
