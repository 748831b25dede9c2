/* The C of the recipes in docs/HOST.md, each tried. examples/c/run holds every C block of that page to this file or
 * to minimal.c. */
#include "xapool_job.h"

/* How to hand an auditor the evidence */

/* Writes all entries to a file, or says why not. Note the bytes and the digest beside it. */
static int write_evidence(FILE *to, const uint64_t *pool, size_t pool_words, size_t *bytes, uint32_t *digest)
{
    xapool_taken list = xapool_take(pool, pool_words, 0, UINT64_MAX);
    if (!list.bytes) {
        fprintf(stderr, "%s\n", xapool_trouble_text(list.trouble));
        return 0;
    }
    *bytes = list.size;
    *digest = xapool_crc32c(0, list.bytes, list.size);
    int written = fwrite(list.bytes, 1, list.size, to) == list.size && fflush(to) == 0;
    free(list.bytes);
    return written;
}

/* The auditor has the bytes alone: how many entries are matched. Gives 0 if no pool can give this list. */
static int count_matched(const uint8_t *list, size_t bytes, size_t *matched)
{
    xapool_result read = xapool_read_list(list, bytes);
    *matched = 0;
    if (read.answer != XAPOOL_DONE) /* then read.number is the place */
        return 0;
    for (size_t i = 0; i < read.number; i++) {
        xapool_listed entry;
        if (!xapool_read_listed(list, bytes, i, &entry))
            return 0;
        if (xapool_is_matched(&entry))
            ++*matched;
    }
    return 1;
}

/* How to hold room before data arrives */

/* Reserves every index of a plan, or none: on a copy, which takes the pool's place only if all were done. */
static int reserve_all(uint64_t *pool, uint64_t *copy, size_t pool_words, const uint64_t *plan, size_t count)
{
    static uint8_t bytes[XAPOOL_BATCH_BYTES], replies[XAPOOL_REPLIES(XAPOOL_MAX_COMMANDS)];
    memcpy(copy, pool, 8 * pool_words);
    xapool_job job = xapool_job_over(copy, pool_words, bytes, sizeof bytes, replies, sizeof replies);
    int put = 1;
    for (size_t i = 0; i < count; i++)
        put = put && xapool_job_reserve(&job, plan[i]);
    if (!xapool_job_end(&job) || !put) {
        xapool_job_print(&job, stderr); /* short of nodes, or taken: which, and at what place */
        return 0;
    }
    memcpy(pool, copy, 8 * pool_words);
    return 1;
}

/* Before you erase: compare */

/* What is known of a region before its old copy goes. */
static int may_go(const uint8_t *old_region, size_t old_bytes, const uint8_t *new_region, size_t new_bytes)
{
    switch (xapool_compare(old_region, old_bytes, new_region, new_bytes).verdict) {
    case XAPOOL_MATCHED: return 1;
    default: return 0; /* different, or nothing to compare */
    }
}

/* What was written about a region */

/* The text of an index where it stands in its own sheet, and its length, which may be 0; NULL if there is none. */
static const uint8_t *text_of(const uint8_t *base, size_t base_bytes, const uint8_t *supplement,
                              size_t supplement_bytes, uint64_t index, size_t *length)
{
    xapool_part part = xapool_evidence(base, base_bytes, supplement, supplement_bytes, index);
    *length = part.length;
    if (part.answer != XAPOOL_DONE)
        return NULL; /* 10: neither sheet names it. 3: a sheet is malformed. Neither is evidence of anything */
    return (part.sheet == XAPOOL_SUPPLEMENT ? supplement : base) + part.place;
}

/* How to put a job through a gate */

/* Whether enough of a job is matched and little enough unread. All that is no pass is 0, also what cannot be told. */
static int job_passes(uint32_t matched, uint32_t unread, uint32_t total, double least, double most)
{
    if (!xapool_floats_are_ieee())
        return 0;
    return xapool_gate(XAPOOL_MATCHED_AT_LEAST, least, 0, matched, total).number == 1 &&
           xapool_gate(XAPOOL_UNREAD_AT_MOST, 0, most, unread, total).number == 1;
}

/* A second opinion: the plain engine */

/* Runs a batch that the tree has run on a plain list as well: whether it says the same, but for the counts of load and find.
 * The list is four rows of so many words, which were initialised when the pool was and ran every batch since. A reply with
 * 11, or with 13 of the tree, cannot be compared: 0 then, too. */
static int says_the_same(uint64_t *rows, size_t room, const xapool_batch *batch, const uint8_t *by_tree, uint8_t *space, size_t bytes)
{
    xapool_result r = xaplain_run(rows, room, rows + room, room, rows + 2 * room, room, rows + 3 * room, room, batch->bytes,
                                  batch->used, space, bytes);
    if (r.answer != XAPOOL_DONE)
        return 0;
    for (size_t i = 0; i < r.number; i++) /* the count is last, and is 0 but for load and find */
        if (memcmp(by_tree + XAPOOL_REPLIES(i), space + XAPOOL_REPLIES(i), XAPOOL_AT_COUNT) != 0)
            return 0;
    return 1;
}

/* How to be safe from power cuts */

/* The script of one command, before anything is written in the pool: the caller frees it. NULL if there is none: with answer
 * 0 the command changes nothing, with 4 there is no memory, and any other says why it would not be done. */
static uint64_t *prepare_one(const uint64_t *pool, size_t pool_words, const xapool_batch *one, xapool_result *r)
{
    uint64_t *script = NULL;
    *r = xapool_prepare(pool, pool_words, one->bytes, one->used, NULL, 0);
    if (r->answer == XAPOOL_REPLY_SPACE)
        script = calloc(r->number, sizeof *script); /* the number says how many words */
    if (script)
        *r = xapool_prepare(pool, pool_words, one->bytes, one->used, script, r->number);
    return script; /* to its own storage, with its length and this digest: */
}

static uint32_t digest_of_script(const uint64_t *script, size_t script_words)
{
    return xapool_crc32c(0, (const uint8_t *)script, sizeof *script * script_words);
}

/* At each start, while a script is kept: ends what was begun, wherever it was cut. 1: the pool has the words after
 * it, and once they are on their storage the script may go. */
static int go_on(uint64_t *pool, size_t pool_words, const uint64_t *script, size_t script_words)
{
    return xapool_apply(pool, pool_words, script, script_words).answer == XAPOOL_DONE &&
           xapool_check(pool, pool_words).answer == XAPOOL_DONE;
}

/* Before you sign */

typedef struct run {
    uint64_t first, last;
} run;

/* Whether a region has a record of its own with mark 2. The list is gone through once, with rising regions. */
static int matched_at(const xapool_taken *list, size_t *at, uint64_t region)
{
    xapool_listed entry;
    while (xapool_read_listed(list->bytes, list->size, *at, &entry) && entry.index < region)
        ++*at;
    return xapool_is_matched(&entry) && entry.index == region && entry.order == 0;
}

/* The records of a list; none, if no pool can give it. */
static size_t records_in(const xapool_taken *list)
{
    xapool_result read = xapool_read_list(list->bytes, list->size);
    size_t records = 0;
    for (size_t i = 0; read.answer == XAPOOL_DONE && i < read.number; i++) {
        xapool_listed entry;
        if (xapool_read_listed(list->bytes, list->size, i, &entry) && !xapool_is_reserved(&entry))
            records++;
    }
    return records;
}

/* Walks the plan, whose runs rise. 1 only if there is a plan, every region of it has a record with mark 2 on both
 * sides, and neither side has another record: what is nowhere, or only reserved, is not matched. */
static int may_sign(const run *plan, size_t runs, const xapool_taken *old_list, const xapool_taken *new_list)
{
    size_t planned = 0, matched = 0, at_old = 0, at_new = 0;
    for (size_t r = 0; r < runs; r++) {
        if (plan[r].first > plan[r].last)
            return 0;
        for (uint64_t i = 0; i <= plan[r].last - plan[r].first; i++) {
            int on_old = matched_at(old_list, &at_old, plan[r].first + i);
            int on_new = matched_at(new_list, &at_new, plan[r].first + i);
            planned++;
            matched += on_old && on_new;
        }
    }
    printf("%zu of %zu matched\n", matched, planned);
    return planned > 0 && matched == planned && records_in(old_list) == planned && records_in(new_list) == planned;
}

/* Answer 11 in mid-batch */

/* Runs a batch as a whole or not at all: on a copy, which takes the pool's place only if every reply is done. */
static int run_whole(uint64_t *pool, uint64_t *copy, size_t pool_words, const xapool_batch *batch)
{
    static uint8_t replies[XAPOOL_REPLIES(XAPOOL_MAX_COMMANDS)];
    memcpy(copy, pool, 8 * pool_words);
    xapool_result r = xapool_run(copy, pool_words, batch->bytes, batch->used, replies, sizeof replies);
    if (r.answer != XAPOOL_DONE)
        return 0;
    for (size_t i = 0; i < r.number; i++) {
        xapool_reply reply;
        if (!xapool_read_reply(replies, XAPOOL_REPLIES(r.number), i, &reply) || reply.answer != XAPOOL_DONE)
            return 0; /* the pool is as it was */
    }
    memcpy(pool, copy, 8 * pool_words);
    return 1;
}

/* Choosing N */

/* An empty pool for entries of order 0 at first to last; NULL if no pool is so large, or there is no memory. */
static uint64_t *pool_for(uint64_t first, uint64_t last, size_t *pool_words)
{
    uint64_t nodes = xapool_nodes_for(first, last), *pool;
    if (nodes > XAPOOL_MAX_NODES)
        return NULL;
    *pool_words = XAPOOL_WORDS(nodes > 0 ? nodes : XAPOOL_MIN_NODES);
    pool = calloc(*pool_words, sizeof *pool);
    if (pool && xapool_init(pool, *pool_words).answer != XAPOOL_DONE) {
        free(pool);
        return NULL;
    }
    return pool;
}

/* Many finds in one batch */

static void keep_reply(void *with, uint64_t command, const xapool_reply *reply)
{
    xapool_reply *found = with;
    found[command] = *reply;
}

/* The first entry with a mark in each of several ranges, by as few runs as they need. Of each reply the answer tells:
 * 0 found, 12 there is none, 13 go on from its index. */
static int find_in_each(xapool_job *job, const run *ranges, size_t count, unsigned mark, xapool_reply *found)
{
    int put = 1;
    job->each = keep_reply;
    job->with = found;
    for (size_t i = 0; i < count; i++)
        put = put && xapool_job_find(job, ranges[i].first, ranges[i].last, mark, 1000);
    return xapool_job_flush(job) && put;
}

/* A walk while the pool changes */

/* How many entries with mark 2 a walk meets while others work on the pool between its finds; -1 if it did not come to its
 * end. A small budget bounds how long one find takes and loses nothing. */
static int64_t walk_matched(uint64_t *pool, size_t pool_words, int (*meanwhile)(uint64_t *pool, size_t pool_words, uint64_t met))
{
    xapool_walk walk = xapool_walk_over(pool, pool_words, 0, UINT64_MAX, XAPOOL_MATCHED_MARK);
    walk.budget = 5;
    while (xapool_walk_next(&walk) == XAPOOL_WALK_FOUND)
        if (!meanwhile(pool, pool_words, walk.reply.index))
            return -1;
    return walk.outcome == XAPOOL_WALK_ENDED ? (int64_t)walk.found : -1;
}

/* Saving and loading */

/* Saves a pool, and loads it into other words. */
static int save_and_load(const char *path, const uint64_t *pool, uint64_t *loaded, size_t pool_words)
{
    xapool_filed saved = xapool_save(path, pool, pool_words);
    if (saved.trouble != XAPOOL_NO_TROUBLE) {
        fprintf(stderr, "%s: %s: %s\n", path, xapool_trouble_text(saved.trouble), strerror(saved.error));
        return 0;
    }
    uint32_t kept = saved.digest; /* in another file */

    /* Refused for another length, another digest, or words that are no pool's; then 'loaded' is as it was. */
    return xapool_load(path, loaded, pool_words, kept).trouble == XAPOOL_NO_TROUBLE;
}

/* A store inside a larger entry */

/* Splits an entry into two halves, each with its word and marks; or changes nothing. */
static int split(uint64_t *pool, uint64_t *copy, size_t pool_words, const xapool_reply *entry)
{
    uint8_t bytes[256];
    xapool_batch batch = xapool_batch_over(bytes, sizeof bytes);
    if (entry->answer != XAPOOL_DONE || entry->order == 0)
        return 0;
    uint64_t half = UINT64_C(1) << (entry->order - 1);
    int put = xapool_put_erase(&batch, entry->index);
    for (unsigned i = 0; i < 2; i++) {
        uint64_t base = entry->index + i * half;
        put = put && xapool_put_store(&batch, base, entry->order - 1u, entry->entry);
        for (unsigned mark = 0; mark < XAPOOL_MARKS; mark++)
            if (entry->marks >> mark & 1)
                put = put && xapool_put_mark(&batch, base, mark);
    }
    return put && run_whole(pool, copy, pool_words, &batch);
}

/* What the check says and does not say */

/* Whether words from elsewhere are the pool that was kept: well-formed, and of its digest. */
static int is_the_pool(const uint64_t *pool, size_t pool_words, uint32_t kept)
{
    return xapool_check(pool, pool_words).answer == XAPOOL_DONE &&
           xapool_crc32c(0, (const uint8_t *)pool, 8 * pool_words) == kept;
}

/* And tried. */

static int failures;
#define CHECK(condition) ((condition) ? (void)0 : (void)(failures++, printf("recipes.c:%d: %s\n", __LINE__, #condition)))

enum { NODES = 60 };
#define WORDS XAPOOL_WORDS(NODES)
static uint64_t pool[WORDS], other[WORDS], copy[WORDS];
static uint8_t bytes[XAPOOL_BATCH_BYTES], replies[XAPOOL_REPLIES(XAPOOL_MAX_COMMANDS)];

/* Regions 0 to 99 and 4096 in a new pool, with mark 2 on all but one. */
static void fill(uint64_t *words, uint64_t unmarked)
{
    CHECK(xapool_init(words, WORDS).answer == XAPOOL_DONE);
    xapool_job job = xapool_job_over(words, WORDS, bytes, sizeof bytes, replies, sizeof replies);
    int put = 1;
    for (uint64_t i = 0; i <= 100; i++) {
        uint64_t index = i < 100 ? i : 4096;
        put = put && xapool_job_store(&job, index, 0, XAPOOL_VALUE(i));
        if (index != unmarked)
            put = put && xapool_job_mark(&job, index, XAPOOL_MATCHED_MARK);
    }
    CHECK(xapool_job_end(&job) && put);
}

static void gates(void)
{
    CHECK(job_passes(9990, 10, 10000, 0.999, 0.001) && !job_passes(9989, 10, 10000, 0.999, 0.001));
    CHECK(!job_passes(9990, 11, 10000, 0.999, 0.001) && !job_passes(0, 0, 0, 0, 1));
    CHECK(job_passes(UINT32_MAX, 0, UINT32_MAX, 1, 0) && !job_passes(UINT32_MAX - 1, 0, UINT32_MAX, 1, 0));
    CHECK(!job_passes(2, 0, 1, 0, 1) && !job_passes(1, 0, 1, 2, 1));
}

/* Cut after every write, and cut again, it ends where a run that is not cut does. */
static void scripts(void)
{
    static uint8_t record[32];
    xapool_batch one = xapool_batch_over(record, sizeof record);
    fill(pool, 70);
    memcpy(copy, pool, sizeof copy);
    CHECK(xapool_put_store(&one, 1 << 20, 0, XAPOOL_VALUE(7)));
    xapool_result r;
    uint64_t *script = prepare_one(pool, WORDS, &one, &r);
    CHECK(script && r.answer == XAPOOL_DONE && memcmp(pool, copy, sizeof copy) == 0);
    CHECK(xapool_run(copy, WORDS, one.bytes, one.used, replies, sizeof replies).number == 1);
    size_t used = r.number, cut_pools = 0;
    uint32_t digest = digest_of_script(script, used);
    CHECK(used > 20 && digest != digest_of_script(script, used - 1));
    for (size_t cut = 0; cut < used; cut += 2) {
        fill(pool, 70);
        CHECK(xapool_apply(pool, WORDS, script, cut).answer == XAPOOL_DONE);
        cut_pools += xapool_check(pool, WORDS).answer == XAPOOL_NOT_WELL_FORMED;
        CHECK(xapool_apply(pool, WORDS, script, used - cut).answer == XAPOOL_DONE);
        CHECK(go_on(pool, WORDS, script, used) && memcmp(pool, copy, sizeof copy) == 0);
    }
    CHECK(cut_pools > 0 && xapool_apply(pool, WORDS, NULL, 0).answer == XAPOOL_DONE);
    script[used - 2] = WORDS;
    CHECK(digest != digest_of_script(script, used));
    CHECK(xapool_apply(pool, WORDS, script, used).answer == XAPOOL_BAD_SCRIPT && memcmp(pool, copy, sizeof copy) == 0);
    CHECK(xapool_apply(pool, WORDS, script, 1).answer == XAPOOL_BAD_SCRIPT);
    CHECK(xapool_apply(pool, WORDS - 1, script, 2).answer == XAPOOL_POOL_LENGTH);
    free(script);
    CHECK(!prepare_one(pool, WORDS, &one, &r) && r.answer == XAPOOL_DONE && r.number == 0); /* it is stored already */
    one = xapool_batch_over(record, sizeof record);
    CHECK(xapool_put_erase(&one, 1 << 21) && !prepare_one(pool, WORDS, &one, &r) && r.answer == XAPOOL_ABSENT);
}

static void evidence(void)
{
    size_t size = 0, matched = 0;
    uint32_t digest = 0;
    FILE *file = tmpfile();
    fill(pool, 70);
    CHECK(file && write_evidence(file, pool, WORDS, &size, &digest) && size == 21 * 101);
    rewind(file);
    CHECK(fread(bytes, 1, sizeof bytes, file) == size && fclose(file) == 0);
    CHECK(xapool_crc32c(0, bytes, size) == digest && count_matched(bytes, size, &matched) && matched == 100);
    CHECK(!count_matched(bytes, size - 1, &matched) && matched == 0);
    pool[3] = 1;
    CHECK(!write_evidence(stderr, pool, WORDS, &size, &digest));
}

static void room(void)
{
    static const uint64_t plan[] = { 0, 64, 65 }, far[] = { 1, UINT64_MAX }, taken[] = { 2, 64 };
    CHECK(xapool_init(pool, XAPOOL_WORDS(3)).answer == XAPOOL_DONE);
    CHECK(reserve_all(pool, copy, XAPOOL_WORDS(3), plan, 3));
    memcpy(other, pool, sizeof pool);
    CHECK(!reserve_all(pool, copy, XAPOOL_WORDS(3), far, 2) && !reserve_all(pool, copy, XAPOOL_WORDS(3), taken, 2));
    CHECK(!reserve_all(pool, copy, XAPOOL_WORDS(3), plan, 0));
    CHECK(memcmp(other, pool, 8 * XAPOOL_WORDS(3)) == 0);
    CHECK(xapool_list(pool, XAPOOL_WORDS(3), 0, UINT64_MAX, NULL, 0).number == 3);
}

static void comparison(void)
{
    const uint8_t page[] = "page", pace[] = "pace";
    CHECK(may_go(page, 4, page, 4) && !may_go(page, 4, pace, 4) && !may_go(page, 4, page, 3));
    CHECK(!may_go(page, 0, page, 0) && !may_go(NULL, 0, NULL, 0) && !may_go(page, 4, NULL, 0));
}

static void written(void)
{
    static const uint8_t base[] = { 48, 0, 11, 0, 0, 0, 0, 0, 0, 0, 7, 'o', 'l', 'd', 48, 0, 9, 0, 0, 0, 0, 0, 0, 0, 8, 'x' };
    static const uint8_t later[] = { 48, 0, 8, 0, 0, 0, 0, 0, 0, 0, 7 };
    size_t length = 1;
    CHECK(text_of(base, sizeof base, NULL, 0, 7, &length) == base + 11 && length == 3);
    CHECK(text_of(base, sizeof base, later, sizeof later, 7, &length) == later + 11 && length == 0);
    CHECK(text_of(base, sizeof base, later, sizeof later, 8, &length) == base + 25 && length == 1);
    CHECK(!text_of(base, sizeof base, later, sizeof later, 9, &length) && length == 0);
    CHECK(!text_of(base, sizeof base - 1, later, sizeof later, 7, &length) && length == 0);
    CHECK(!text_of(base, sizeof base, later, sizeof later - 1, 7, &length) && !text_of(NULL, 0, NULL, 0, 7, &length));
}

/* Whether it is signed, with all marked on both sides but one (200: none is left out). */
static int signs(const run *plan, size_t runs, uint64_t on_old, uint64_t on_new)
{
    fill(pool, on_old);
    fill(other, on_new);
    xapool_taken old_list = xapool_take(pool, WORDS, 0, UINT64_MAX), new_list = xapool_take(other, WORDS, 0, UINT64_MAX);
    CHECK(old_list.bytes && new_list.bytes);
    int is = may_sign(plan, runs, &old_list, &new_list);
    free(old_list.bytes);
    free(new_list.bytes);
    return is;
}

static void signature(void)
{
    static const run plan[] = { { 0, 99 }, { 4096, 4096 } }, more[] = { { 0, 100 }, { 4096, 4096 } };
    static const run crooked[] = { { 4096, 4096 }, { 0, 99 } }, swapped[] = { { 0, 99 }, { 4096, 4096 }, { 1, 0 } };
    CHECK(signs(plan, 2, 200, 200));
    CHECK(!signs(plan, 2, 64, 200) && !signs(plan, 2, 200, 0) && !signs(plan, 2, 4096, 4096));
    CHECK(!signs(more, 2, 200, 200)); /* 100 is nowhere */
    CHECK(!signs(plan, 1, 200, 200)); /* 4096 is not planned */
    CHECK(!signs(plan, 0, 200, 200) && !signs(crooked, 2, 200, 200) && !signs(swapped, 3, 200, 200));
    /* Nothing planned, and nothing on either side. */
    static uint8_t none[1];
    xapool_taken empty = { none, 0, 0, XAPOOL_NO_TROUBLE, { XAPOOL_DONE, 0 } };
    CHECK(!may_sign(plan, 0, &empty, &empty) && !may_sign(plan, 2, &empty, &empty));
}

static void whole_batches(void)
{
    xapool_batch batch = xapool_batch_over(bytes, sizeof bytes);
    CHECK(xapool_init(pool, XAPOOL_WORDS(2)).answer == XAPOOL_DONE);
    CHECK(xapool_put_store(&batch, 0, 0, 3) && xapool_put_store(&batch, 1, 0, 3));
    CHECK(run_whole(pool, copy, XAPOOL_WORDS(2), &batch));
    CHECK(xapool_put_erase(&batch, 0) && xapool_put_store(&batch, UINT64_C(1) << 30, 0, 3));
    memcpy(other, pool, sizeof pool);
    CHECK(!run_whole(pool, copy, XAPOOL_WORDS(2), &batch) && memcmp(other, pool, 8 * XAPOOL_WORDS(2)) == 0);
    CHECK(!run_whole(pool, copy, XAPOOL_WORDS(2) - 1, &batch) && memcmp(other, pool, 8 * XAPOOL_WORDS(2)) == 0);
}

static void large_pools(void)
{
    size_t words = 0;
    uint64_t *made = pool_for(0, 1032127, &words);
    CHECK(made && words == XAPOOL_WORDS(16384) && xapool_check(made, words).answer == XAPOOL_DONE);
    free(made);
    CHECK(!pool_for(0, 1032128, &words) && !pool_for(1, 0, &words));
    made = pool_for(0, 0, &words);
    CHECK(made && words == XAPOOL_WORDS(1));
    free(made);
}

static void many_finds(void)
{
    static run ranges[2000];
    static xapool_reply found[2000];
    fill(pool, 70);
    for (uint64_t i = 0; i < 2000; i++)
        ranges[i] = (run){ i, i < 100 ? 99 : 4095 };
    xapool_job job = xapool_job_over(pool, WORDS, bytes, sizeof bytes, replies, sizeof replies);
    CHECK(find_in_each(&job, ranges, 2000, XAPOOL_MATCHED_MARK, found) && job.batches == 2);
    for (uint64_t i = 0; i < 2000; i++)
        CHECK(i < 100 ? found[i].answer == XAPOOL_DONE && found[i].index == i + (i == 70) : found[i].answer == XAPOOL_ENDED);
}

/* One entry far away comes, and one behind the walk goes. */
static int come_and_go(uint64_t *words, size_t pool_words, uint64_t met)
{
    xapool_job job = xapool_job_over(words, pool_words, bytes, sizeof bytes, replies, sizeof replies);
    return xapool_job_store(&job, 8192 + met % 64, 0, 3) && xapool_job_erase(&job, met) && xapool_job_end(&job);
}

static int refuse(uint64_t *words, size_t pool_words, uint64_t met)
{
    (void)words, (void)pool_words;
    return met != 50;
}

static void walks(void)
{
    fill(pool, 70);
    CHECK(walk_matched(pool, WORDS, refuse) == -1);
    CHECK(walk_matched(pool, WORDS, come_and_go) == 100);
    CHECK(walk_matched(pool, WORDS, come_and_go) == 0);
}

static void pool_files(void)
{
    char path[] = "/tmp/xapool-recipe-XXXXXX";
    int file = mkstemp(path);
    fill(pool, 70);
    CHECK(file >= 0 && close(file) == 0 && save_and_load(path, pool, other, WORDS) && memcmp(pool, other, sizeof pool) == 0);
    CHECK(unlink(path) == 0 && !save_and_load("/nowhere/at/all", pool, other, WORDS));
    uint32_t kept = xapool_crc32c(0, (const uint8_t *)pool, sizeof pool);
    CHECK(is_the_pool(pool, WORDS, kept) && !is_the_pool(pool, WORDS, kept ^ 1));
    for (size_t i = 0; i < WORDS; i++)
        if (pool[i] == XAPOOL_VALUE(5))
            other[i] = XAPOOL_VALUE(2000);
    CHECK(xapool_check(other, WORDS).answer == XAPOOL_DONE && !is_the_pool(other, WORDS, kept));
}

static void halves(void)
{
    xapool_reply entry;
    xapool_batch batch = xapool_batch_over(bytes, sizeof bytes);
    CHECK(xapool_init(pool, WORDS).answer == XAPOOL_DONE && xapool_put_store(&batch, 8, 3, 3));
    CHECK(xapool_put_mark(&batch, 8, 2) && xapool_put_mark(&batch, 8, 0) && xapool_put_load(&batch, 10));
    CHECK(xapool_run(pool, WORDS, bytes, batch.used, replies, sizeof replies).number == 4);
    CHECK(xapool_read_reply(replies, sizeof replies, 3, &entry) && split(pool, copy, WORDS, &entry));
    static const uint8_t wanted[] = { 32, 0, 18, 0, 0, 0, 0, 0, 0, 0, 8,  2, 0, 0, 0, 0, 0, 0, 0, 3, 5,
                                      32, 0, 18, 0, 0, 0, 0, 0, 0, 0, 12, 2, 0, 0, 0, 0, 0, 0, 0, 3, 5 };
    xapool_taken list = xapool_take(pool, WORDS, 0, UINT64_MAX);
    CHECK(list.bytes && list.size == sizeof wanted && memcmp(list.bytes, wanted, sizeof wanted) == 0);
    free(list.bytes);
    entry.order = 0;
    CHECK(!split(pool, copy, WORDS, &entry));
}

static void second_opinion(void)
{
    static uint64_t rows[4][2];
    static uint8_t space[XAPOOL_REPLIES(8)];
    xapool_batch batch = xapool_batch_over(bytes, sizeof bytes);
    CHECK(xapool_init(pool, WORDS).answer == XAPOOL_DONE);
    CHECK(xaplain_init(rows[0], 2, rows[1], 2, rows[2], 2, rows[3], 2).answer == XAPOOL_DONE);
    CHECK(xapool_put_store(&batch, 64, 3, 5) && xapool_put_reserve(&batch, 7) && xapool_put_load(&batch, 71));
    CHECK(xapool_put_find(&batch, 0, UINT64_MAX, XAPOOL_FIND_ANY, 1000) && xapool_put_mark(&batch, 64, 1));
    CHECK(xapool_run(pool, WORDS, bytes, batch.used, replies, sizeof replies).number == 5);
    CHECK(says_the_same(rows[0], 2, &batch, replies, space, sizeof space));
    CHECK(rows[0][0] == 7 && rows[0][1] == 64 && rows[1][1] == 3 && rows[2][0] == XAPOOL_RESERVED_WORD && rows[3][1] == 2);
    batch = xapool_batch_over(bytes, sizeof bytes);
    CHECK(xapool_put_load(&batch, 64) && xapool_run(pool, WORDS, bytes, batch.used, replies, sizeof replies).number == 1);
    CHECK(says_the_same(rows[0], 2, &batch, replies, space, sizeof space));
    rows[2][1] = 9; /* another word than the tree's */
    CHECK(!says_the_same(rows[0], 2, &batch, replies, space, sizeof space));
    rows[0][0] = 65; /* no list */
    CHECK(!says_the_same(rows[0], 2, &batch, replies, space, sizeof space));
}

int main(void)
{
    if (!freopen("/dev/null", "w", stderr)) /* what the recipes say where they must fail */
        return 1;
    evidence();
    gates();
    scripts();
    room();
    comparison();
    written();
    second_opinion();
    signature();
    whole_batches();
    large_pools();
    many_finds();
    walks();
    pool_files();
    halves();
    puts(failures ? "some do not hold" : "all hold");
    return failures != 0;
}
