/* How much stack the calls need: they run on a stack filled with one byte, and what is changed was
 * used. The header says less than 8 KiB, less than 16 KiB for digests, which keep tables there, and less than 24 KiB for
 * preparing. */
#define _POSIX_C_SOURCE 200809L
#include "xapool.h"
#include <pthread.h>
#include <stdio.h>
#include <stdlib.h>
#include <string.h>

#define STACK (512 * 1024)
#define SAID (8 * 1024)
#define SAID_OF_DIGESTS (16 * 1024)
#define SAID_OF_PREPARING (24 * 1024)

static uint64_t pool[XAPOOL_WORDS(XAPOOL_MAX_NODES)];
static uint8_t bytes[XAPOOL_BATCH_BYTES], replies[XAPOOL_REPLIES(XAPOOL_MAX_COMMANDS)];
static uint64_t rows[4][XAPLAIN_ENTRIES_MAX]; /* the plain engine's slices */
static uint8_t list[XAPOOL_LISTING(64 * XAPOOL_MAX_NODES)]; /* more entries than any pool has */
static uint64_t script[XAPOOL_PAIR_WORDS * XAPOOL_WORDS(XAPOOL_MAX_NODES)]; /* every word of the pool */

/* A call that must be done; gives its number. */
static uint64_t must(xapool_result r)
{
    if (r.answer != XAPOOL_DONE)
        exit(1);
    return r.number;
}

/* Commands of all kinds that build trees of every height and free them again. */
static int put_one(xapool_batch *b, unsigned i)
{
    uint64_t index = UINT64_MAX >> (i * 7 % 64);
    uint8_t order = (uint8_t)(i * 5 % 64);
    switch (i % 8) {
    case 0: return xapool_put_erase(b, index);
    case 1: return xapool_put_mark(b, index, i % 3);
    case 2: return xapool_put_unmark(b, index, i % 3);
    case 3: return xapool_put_find(b, 0, UINT64_MAX, i % 4, 1000);
    case 4: return xapool_put_load(b, index);
    case 5: return xapool_put_store(b, 0, 0, XAPOOL_VALUE(i));
    case 7: return xapool_put_store(b, index >> order << order, i % 16 == 7 ? order : 0, XAPOOL_VALUE(i));
    default: return xapool_put_store(b, index, 0, XAPOOL_VALUE(i));
    }
}

/* The entry at the last index: below the last slot of nodes of every height, where a list that keeps
 * something for each slot keeps most. */
static void list_the_last_index(void)
{
    xapool_batch b = xapool_batch_over(bytes, sizeof bytes);
    if (!xapool_put_store(&b, UINT64_MAX, 0, XAPOOL_VALUE(1)) ||
        xapool_run(pool, XAPOOL_WORDS(XAPOOL_MAX_NODES), b.bytes, b.used, replies, sizeof replies).number != 1 ||
        xapool_list(pool, XAPOOL_WORDS(XAPOOL_MAX_NODES), 0, UINT64_MAX, list, sizeof list).number != 1)
        exit(1);
}

/* A batch by the plain engine, with all the room that there is. */
static uint64_t run_plain(const xapool_batch *b)
{
    const size_t n = XAPLAIN_ENTRIES_MAX;
    must(xaplain_check(rows[0], n, rows[1], n, rows[2], n, rows[3], n));
    return must(xaplain_run(rows[0], n, rows[1], n, rows[2], n, rows[3], n, b->bytes, b->used, replies, sizeof replies));
}

/* Filled to the last place, each entry before the others, so that each store moves all of them. */
static uint64_t fill_plain(void)
{
    const size_t n = XAPLAIN_ENTRIES_MAX;
    uint64_t index = 2 * n, ran = 0;
    must(xaplain_init(rows[0], n, rows[1], n, rows[2], n, rows[3], n));
    while (index > 0) {
        xapool_batch b = xapool_batch_over(bytes, sizeof bytes);
        while (index > 0 && xapool_put_store(&b, index - 1, 0, XAPOOL_VALUE(index)))
            index -= 2;
        ran += run_plain(&b);
    }
    if (rows[2][n - 1] == 0)
        exit(1);
    return ran;
}

static void *calls(void *argument)
{
    static const uint64_t pair[XAPOOL_PAIR_WORDS] = { 3, 0 }; /* what stands there */
    size_t *ran = argument;
    must(xapool_init(pool, XAPOOL_WORDS(XAPOOL_MAX_NODES)));
    list_the_last_index();
    *ran += fill_plain();
    for (unsigned round = 0; round < 40; round++) {
        xapool_batch b = xapool_batch_over(bytes, sizeof bytes);
        for (unsigned i = 0; i < 400; i++)
            if (!put_one(&b, round * 401 + i))
                exit(1);
        *ran += must(xapool_run(pool, XAPOOL_WORDS(XAPOOL_MAX_NODES), b.bytes, b.used, replies, sizeof replies));
        must(xapool_check(pool, XAPOOL_WORDS(XAPOOL_MAX_NODES)));
        *ran += run_plain(&b);
        must(xapool_count(b.bytes, b.used));
        *ran += xapool_evidence(b.bytes, b.used, NULL, 0, round).answer == XAPOOL_DONE; /* a batch is no sheet */
        must(xapool_apply(pool, XAPOOL_WORDS(XAPOOL_MAX_NODES), pair, 2));
        must(xapool_gate(XAPOOL_MATCHED_BETWEEN, 0, 1, round, 40));
        must(xapool_list(pool, XAPOOL_WORDS(XAPOOL_MAX_NODES), 0, UINT64_MAX, list, sizeof list));
    }
    return NULL;
}

/* Commands of all kinds, each prepared, and applied where that was done, on a pool of its own: trees of every height grow
 * and are freed again. A store of everything at the end frees them all. */
static void *preparing(void *argument)
{
    const size_t words = XAPOOL_WORDS(400);
    size_t *ran = argument;
    must(xapool_init(pool, words));
    for (unsigned i = 0; i < 4000; i++) {
        xapool_batch b = xapool_batch_over(bytes, sizeof bytes);
        if (!(i == 3999 ? xapool_put_store(&b, 0, 63, XAPOOL_VALUE(i)) : put_one(&b, i)))
            exit(1);
        xapool_result r = xapool_prepare(pool, words, b.bytes, b.used, script, sizeof script / sizeof *script);
        if (r.answer != XAPOOL_DONE)
            continue;
        must(xapool_apply(pool, words, script, r.number));
        *ran += 1;
    }
    must(xapool_check(pool, words));
    return NULL;
}

static void *digests(void *argument)
{
    size_t *ran = argument;
    *ran += xapool_crc32c(0, replies, sizeof replies) != 0;
    *ran += xapool_compare(replies, sizeof replies, replies, sizeof replies).verdict == XAPOOL_MATCHED;
    return NULL;
}

static void *nothing(void *argument)
{
    return argument;
}

/* The bytes of stack that a thread of this function uses. */
static size_t used(void *(*function)(void *), size_t *ran)
{
    uint8_t *stack = aligned_alloc(4096, STACK);
    pthread_attr_t how;
    pthread_t thread;
    size_t untouched = 0;
    memset(stack, 0xa5, STACK);
    if (pthread_attr_init(&how) || pthread_attr_setstack(&how, stack, STACK) ||
        pthread_create(&thread, &how, function, ran) || pthread_join(thread, NULL))
        exit(1);
    while (untouched < STACK && stack[untouched] == 0xa5)
        untouched++;
    free(stack);
    return STACK - untouched;
}

int main(void)
{
    size_t ran = 0, compared = 0, prepared = 0, before = used(nothing, &ran);
    size_t after = used(calls, &ran), most = used(digests, &compared), to_prepare = used(preparing, &prepared);
    printf("%zu commands used at most %zu bytes of stack\n", ran, after - before);
    printf("%zu digests used at most %zu bytes of stack\n", compared, most - before);
    printf("%zu commands prepared used at most %zu bytes of stack\n", prepared, to_prepare - before);
    return ran < 30000 || compared != 2 || prepared < 1500 || after - before >= SAID || most - before >= SAID_OF_DIGESTS ||
           to_prepare - before >= SAID_OF_PREPARING;
}
