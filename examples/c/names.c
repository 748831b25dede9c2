/* A pool of names: cleared, checked, and asked for a name that it does not have; then one that a device hands over as a
 * table of words, whose names are looked up. A name that is not there is a failure, never a match, and a damaged pool
 * gives nothing at all. */
#include "assoc.h"
#include <inttypes.h>
#include <stdio.h>
#include <string.h>

/* Two names in four blocks, the last of them free. A name's number has 33 bytes: its length, its own bytes, zeros; so the
 * length of "disk-a" is the fifth word of its base and its six bytes begin the fourth. */
static const uint64_t from_device[ASSOC_WORDS(4)] = {
    4, 1, /* so many blocks; the root is block 0 */
    /* block 0: a node of tier 66 over 2 names, which are blocks 1 and 2 */
    67, 0, 2, /* base */ 0, 0, 0, 0, 0, /* slots */ 2, 3, 0, 0, 0, 0, 0, 0, 0, 0, 0, 0, 0, 0, 0, 0,
    /* block 1: the leaf of "disk-a", value 7 */
    1, 0, XAPOOL_VALUE(7), 0, 0, 0, UINT64_C(0x6469736b2d610000), 6, 0, 0, 0, 0, 0, 0, 0, 0, 0, 0, 0, 0, 0, 0, 0, 0,
    /* block 2: the leaf of "disk-b", value 12 */
    1, 0, XAPOOL_VALUE(12), 0, 0, 0, UINT64_C(0x6469736b2d620000), 6, 0, 0, 0, 0, 0, 0, 0, 0, 0, 0, 0, 0, 0, 0, 0, 0,
};

/* Looks a name up, prints what was said, and says whether it is the answer and the object that were expected. */
static int look_up(const uint64_t *pool, size_t words, const char *name, uint64_t answer, uint64_t object)
{
    assoc_result r = assoc_lookup(pool, words, (const uint8_t *)name, strlen(name));
    if (r.answer == XAPOOL_DONE)
        printf("'%s': value %" PRIu64 "\n", name, XAPOOL_VALUE_OF(r.number));
    else
        printf("'%s': %s (%" PRIu64 "), which is no match\n", name, assoc_answer_text(r.answer), r.answer);
    return r.answer == answer && r.number == object;
}

/* A pool that was never written before it is cleared has no names, and says so. */
static int without_names(void)
{
    static uint64_t pool[ASSOC_WORDS(40)];
    const size_t words = ASSOC_WORDS(40);
    return assoc_check(pool, words).answer == XAPOOL_NOT_WELL_FORMED && /* word 0 is not yet 40 */
           assoc_clear(pool, words).answer == XAPOOL_DONE && assoc_check(pool, words).answer == XAPOOL_DONE &&
           look_up(pool, words, "disk-a", XAPOOL_ABSENT, 0);
}

static int with_names(void)
{
    const size_t words = ASSOC_WORDS(4);
    return assoc_check(from_device, words).answer == XAPOOL_DONE &&
           look_up(from_device, words, "disk-a", XAPOOL_DONE, XAPOOL_VALUE(7)) &&
           look_up(from_device, words, "disk-b", XAPOOL_DONE, XAPOOL_VALUE(12)) &&
           look_up(from_device, words, "disk-c", XAPOOL_ABSENT, 0) &&
           look_up(from_device, words, "disk-", XAPOOL_ABSENT, 0) && /* the start of a name is not the name */
           look_up(from_device, words, "", XAPOOL_BAD_KEY, 0) &&
           look_up(from_device, words, "a name of more than 32 bytes is none", XAPOOL_BAD_KEY, 0) &&
           look_up(from_device, words - 1, "disk-a", XAPOOL_POOL_LENGTH, 0);
}

/* One word is damaged: no name is given, not even one whose own words are whole. */
static int damaged(void)
{
    static uint64_t pool[ASSOC_WORDS(4)];
    memcpy(pool, from_device, sizeof pool);
    pool[ASSOC_WORDS(2) + ASSOC_BASE_FIELD + 3] ^= UINT64_C(3) << 16; /* disk-b becomes a second disk-a */
    return look_up(pool, ASSOC_WORDS(4), "disk-a", XAPOOL_NOT_WELL_FORMED, 0);
}

int main(void)
{
    int good = without_names() && with_names() && damaged();
    if (!good)
        fprintf(stderr, "names: not what was expected\n");
    return !good;
}
