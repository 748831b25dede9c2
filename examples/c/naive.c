/* How a maker in a hurry gets PASS with 1,100 regions lost: it must not compile without a warning. Each line that
 * drops a result says so in a comment, and examples/c/run fails if gcc (or clang, where it is there) does not warn
 * of every one. This file is compiled and never run.
 *
 * Ways that no compiler can see, and where they are told:
 *   a mark kept inverted, 'not matched yet': a region never stored has no mark (docs/HOST.md, 'Before you sign')
 *   two lists or two pools that are equal: so are their reservations (xapool.h, Regions)
 *   one index of a run compared, and its mark taken for the whole run's (xapool.h, Batches: mark)
 *   a region that could not be read: its zeroed buffers match (xapool.h, Regions)
 *   no entry on either side, and nothing to compare taken for a match (docs/HOST.md, 'Before you erase: compare')
 *   a store inside a larger entry, which takes the word for the whole run (docs/HOST.md) */
#include "xapool_job.h"

enum { REGIONS = 50000, LOST = 1100, NODES = 16384 };

static uint64_t pool[XAPOOL_WORDS(NODES)];
static uint8_t bytes[XAPOOL_BATCH_BYTES], replies[XAPOOL_REPLIES(XAPOOL_MAX_COMMANDS)];

/* 1: what does not fit the batch is never stored, marked or found. */
static int puts_results_dropped(void)
{
    xapool_batch b = xapool_batch_over(bytes, sizeof bytes);
    xapool_reply r = { 0, 0, 0, 0, 0, 0, 0 };
    xapool_batch_over(bytes, sizeof bytes); /* dropped */
    xapool_init(pool, XAPOOL_WORDS(NODES)); /* dropped */
    for (uint64_t i = 0; i < REGIONS; i++) {
        xapool_put_store(&b, i, 0, XAPOOL_VALUE(i)); /* dropped */
        xapool_put_mark(&b, i, 0); /* dropped */
        xapool_put_unmark(&b, i, 0); /* dropped */
        xapool_put_reserve(&b, i); /* dropped */
        xapool_put_load(&b, i); /* dropped */
        xapool_put_erase(&b, i); /* dropped */
    }
    xapool_put_find(&b, 0, UINT64_MAX, 0, 65535); /* dropped */
    xapool_run(pool, XAPOOL_WORDS(NODES), bytes, b.used, replies, sizeof replies); /* dropped */
    xapool_read_reply(replies, sizeof replies, 0, &r); /* dropped */
    return r.answer == XAPOOL_ENDED;
}

/* 2: a refused call leaves the replies to the batch before, which are read again. */
static int stale_replies(size_t used, size_t commands)
{
    size_t done = 0;
    xapool_count(bytes, used); /* dropped */
    xapool_check(pool, XAPOOL_WORDS(NODES)); /* dropped */
    xapool_run(pool, XAPOOL_WORDS(NODES) - 1, bytes, used, replies, sizeof replies); /* dropped */
    for (size_t i = 0; i < commands; i++) {
        xapool_reply r = { 0, 0, 0, 0, 0, 0, 0 };
        xapool_read_reply(replies, sizeof replies, i, &r); /* dropped */
        done += r.answer == XAPOOL_DONE;
    }
    return done == commands;
}

/* 3: a find that paused is taken for the end; where it goes on is not asked. */
static int paused_is_ended(const xapool_reply *found)
{
    uint64_t first = 0;
    xapool_next_first(found, UINT64_MAX, &first); /* dropped */
    return first == 0;
}

/* 4: no reply at all, and no entry, into structs of zeros. */
static int nothing_read(void)
{
    xapool_reply r = { 0, 0, 0, 0, 0, 0, 0 };
    xapool_listed e = { 0, 0, 0, 0 };
    xapool_read_reply(NULL, 0, 0, &r); /* dropped */
    xapool_read_listed(NULL, 0, 0, &e); /* dropped */
    xapool_read_list(bytes, 21); /* dropped */
    xapool_is_reserved(&e); /* dropped */
    xapool_is_matched(&e); /* dropped */
    return r.answer == XAPOOL_DONE;
}

/* 5: what was compared and listed is not looked at. */
static int nothing_looked_at(void)
{
    xapool_compare(bytes, 64, replies, 64); /* dropped */
    xapool_crc32c(0, bytes, 64); /* dropped */
    xapool_evidence(bytes, 64, replies, 64, 7); /* dropped */
    xapool_gate(XAPOOL_MATCHED_AT_LEAST, 1, 1, 64, 64); /* dropped */
    xapool_prepare(pool, XAPOOL_WORDS(NODES), bytes, 11, pool, 0); /* dropped */
    xapool_apply(pool, XAPOOL_WORDS(1), NULL, 0); /* dropped */
    xapool_floats_are_ieee(); /* dropped */
    xapool_list(pool, XAPOOL_WORDS(NODES), 0, UINT64_MAX, bytes, sizeof bytes); /* dropped */
    xaplain_init(pool, 9, pool + 9, 9, pool + 18, 9, pool + 27, 9); /* dropped */
    xaplain_check(pool, 9, pool + 9, 9, pool + 18, 9, pool + 27, 9); /* dropped */
    xaplain_run(pool, 9, pool + 9, 9, pool + 18, 9, pool + 27, 9, bytes, 64, replies, 64); /* dropped */
    return 1;
}

/* 6: the helpers of xapool_job.h, as carelessly. */
static int helpers(void)
{
    xapool_job job = xapool_job_over(pool, XAPOOL_WORDS(NODES), bytes, sizeof bytes, replies, sizeof replies);
    xapool_walk walk = xapool_walk_over(pool, XAPOOL_WORDS(NODES), 0, UINT64_MAX, XAPOOL_FIND_ANY);
    xapool_job_store(&job, 1, 0, XAPOOL_VALUE(1)); /* dropped */
    xapool_job_load(&job, 1); /* dropped */
    xapool_job_erase(&job, 1); /* dropped */
    xapool_job_mark(&job, 1, 2); /* dropped */
    xapool_job_unmark(&job, 1, 2); /* dropped */
    xapool_job_find(&job, 0, 1, 2, 100); /* dropped */
    xapool_job_reserve(&job, 1); /* dropped */
    xapool_job_flush(&job); /* dropped */
    xapool_job_end(&job); /* dropped */
    xapool_walk_next(&walk); /* dropped */
    xapool_take(pool, XAPOOL_WORDS(NODES), 0, UINT64_MAX); /* dropped */
    xapool_save("p.pool", pool, XAPOOL_WORDS(NODES)); /* dropped */
    xapool_load("p.pool", pool, XAPOOL_WORDS(NODES), 0); /* dropped */
    xapool_nodes_for(0, LOST); /* dropped */
    return walk.found == 0;
}

int main(void)
{
    xapool_reply found = { XAPOOL_FIND, XAPOOL_PAUSED, 0, 0, 100, LOST, 0 };
    int pass = puts_results_dropped() && stale_replies(20, 1) && paused_is_ended(&found) && nothing_read() &&
               nothing_looked_at() && helpers();
    puts(pass ? "PASS" : "FAIL");
    return 0;
}
