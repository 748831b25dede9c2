/* An inspection of two sides, from the plan to the verdict. What must be there is a plan, a list of runs,
 * which is walked; a region counts as matched only if a record with mark 2 is found for it on both sides.
 * So what was lost, altered, read as nothing, reserved or never stored is named, and none of it passes.
 *
 * Losses are planted in the first pass; the program fails if one of them is not named, or if anything else
 * is. host/examples/inspection.rs is the same job in Rust and prints the same lines. */
#include "xapool_job.h"

#define FAR (UINT64_C(1) << 40)
#define REGION_BYTES 64
#define NODES 200
#define REGIONS 5000 /* of the plan */
#define RUNS 3
#define MATCHED XAPOOL_MATCHED_MARK /* set after a comparison said matched, and by nothing else; a store clears it */

typedef struct run {
    uint64_t first, last;
    const char *reason;
} run;

/* What must be there, by the source's own catalogue and not by what a side has. */
static const run plan[RUNS] = { { 0, 2999, NULL }, { 8192, 9191, NULL }, { FAR, FAR + 999, NULL } };

enum { READ_EMPTY = 500, RESERVED = 1000, NEVER = 1500, EXTRA = 5000 };

static const char no_new[] = "no record on the new side", no_old[] = "no record on the old side";
static const char neither[] = "no record on either side";
static const char extra_new[] = "on the new side, not in the plan", extra_old[] = "on the old side, not in the plan";

/* What the first pass must name, in this order, and nothing else. */
static const run planted[] = {
    { 7, 7, no_new },
    { 100, 100, "different" },
    { READ_EMPTY, READ_EMPTY, "nothing to compare" },
    { RESERVED, RESERVED, neither },
    { NEVER, NEVER, neither },
    { 2999, 2999, "different" },
    { 8256, 8319, no_new },
    { FAR + 999, FAR + 999, no_new },
    { EXTRA, EXTRA, extra_new },
};

typedef struct side {
    uint64_t pool[XAPOOL_WORDS(NODES)];
    /* The bytes of a region, and 1; or 0 where the side has nothing, not even an empty region. */
    int (*read)(uint64_t region, uint8_t *bytes, size_t *count);
    uint8_t has[REGIONS]; /* by a load: a record of each planned region */
    xapool_taken list;    /* all that the pool has */
} side;

static int repaired; /* before the second pass */

static void fail(const char *what)
{
    fprintf(stderr, "inspection: %s\n", what);
    exit(1);
}

static void data(uint64_t region, uint8_t *bytes)
{
    for (uint64_t j = 0; j < REGION_BYTES; j++)
        bytes[j] = (uint8_t)(((region + 1) * UINT64_C(2654435761) + j * 97) >> 8);
}

static int read_old(uint64_t region, uint8_t *bytes, size_t *count)
{
    data(region, bytes);
    *count = region == READ_EMPTY && !repaired ? 0 : REGION_BYTES;
    return repaired || (region != RESERVED && region != NEVER);
}

static int read_new(uint64_t region, uint8_t *bytes, size_t *count)
{
    int has = read_old(region, bytes, count);
    if (repaired)
        return has;
    if (region == 100)
        bytes[63] ^= 1;
    if (region == 2999)
        bytes[0] ^= 128;
    return has && region != 7 && region != FAR + 999 && (region < 8256 || region > 8319);
}

static side old_side = { .read = read_old }, new_side = { .read = read_new };

static xapool_job job_on(side *s)
{
    static uint8_t bytes[XAPOOL_BATCH_BYTES], replies[XAPOOL_REPLIES(XAPOOL_MAX_COMMANDS)];
    return xapool_job_over(s->pool, XAPOOL_WORDS(NODES), bytes, sizeof bytes, replies, sizeof replies);
}

/* Every command of the job must be done. */
static void must_be_done(xapool_job *job, int put)
{
    int done = xapool_job_end(job);
    if (put && done)
        return;
    xapool_job_print(job, stderr);
    fail("a command was not done");
}

/* How many regions are planned. */
static size_t planned_regions(void)
{
    size_t regions = 0;
    for (size_t r = 0; r < RUNS; r++)
        regions += plan[r].last - plan[r].first + 1;
    return regions;
}

/* The planned region of this number, from 0. */
static uint64_t planned(uint64_t number)
{
    size_t r = 0;
    while (number > plan[r].last - plan[r].first) {
        number -= plan[r].last - plan[r].first + 1;
        r++;
    }
    return plan[r].first + number;
}

/* The record of a region: the digest of what was read, which of nothing is 0. The comparison decides, and
 * not the record. */
static int put_record(xapool_job *job, uint64_t region, const uint8_t *bytes, size_t count)
{
    return xapool_job_store(job, region, 0, XAPOOL_VALUE(xapool_crc32c(0, bytes, count)));
}

/* Enters a record for each planned region that the side has. */
static void enter(side *s)
{
    xapool_job job = job_on(s);
    int put = 1;
    for (uint64_t n = 0; n < REGIONS; n++) {
        uint8_t bytes[REGION_BYTES];
        size_t count;
        if (s->read(planned(n), bytes, &count))
            put = put && put_record(&job, planned(n), bytes, count);
    }
    must_be_done(&job, put);
}

static void note_record(void *with, uint64_t command, const xapool_reply *reply)
{
    side *s = with;
    if (reply->answer != XAPOOL_DONE && reply->answer != XAPOOL_ABSENT)
        fail(xapool_answer_text(reply->answer));
    s->has[command] = reply->answer == XAPOOL_DONE;
}

/* Which planned regions have a record, by loads. */
static void load_all(side *s)
{
    xapool_job job = job_on(s);
    int put = 1;
    job.each = note_record;
    job.with = s;
    for (uint64_t n = 0; n < REGIONS; n++)
        put = put && xapool_job_load(&job, planned(n));
    if (!xapool_job_flush(&job) || !put || job.ran != REGIONS)
        fail("the loads did not run");
}

/* What is read of both sides, compared. */
static uint64_t verdict(uint64_t region)
{
    uint8_t old_bytes[REGION_BYTES], new_bytes[REGION_BYTES];
    size_t old_count, new_count;
    if (!read_old(region, old_bytes, &old_count) || !read_new(region, new_bytes, &new_count))
        return XAPOOL_NOTHING_TO_COMPARE;
    return xapool_compare(old_bytes, old_count, new_bytes, new_count).verdict;
}

static void mark_all(side *s, const uint8_t *matched)
{
    xapool_job job = job_on(s);
    int put = 1;
    for (uint64_t n = 0; n < REGIONS; n++)
        if (matched[n])
            put = put && xapool_job_mark(&job, planned(n), MATCHED);
    must_be_done(&job, put);
}

/* Compares every planned region that has a record on both sides, and marks those that match. */
static void pass(void)
{
    static uint8_t matched[REGIONS];
    load_all(&old_side);
    load_all(&new_side);
    for (uint64_t n = 0; n < REGIONS; n++)
        matched[n] = old_side.has[n] && new_side.has[n] && verdict(planned(n)) == XAPOOL_MATCHED;
    mark_all(&old_side, matched);
    mark_all(&new_side, matched);
}

/* Takes the list of a side; gives how many records it has. What is reserved is none. */
static size_t take(side *s)
{
    size_t records = 0;
    xapool_listed e;
    s->list = xapool_take(s->pool, XAPOOL_WORDS(NODES), 0, UINT64_MAX);
    if (!s->list.bytes)
        fail(xapool_trouble_text(s->list.trouble));
    for (size_t i = 0; i < s->list.entries; i++) {
        if (!xapool_read_listed(s->list.bytes, s->list.size, i, &e))
            fail("a listed entry is none");
        records += !xapool_is_reserved(&e);
    }
    return records;
}

/* The record of exactly this region, in *e; gives 0, and nothing in *e, if there is none. */
static int record(const side *s, uint64_t region, xapool_listed *e)
{
    size_t low = 0, high = s->list.entries;
    while (low < high) {
        size_t middle = low + (high - low) / 2;
        if (!xapool_read_listed(s->list.bytes, s->list.size, middle, e))
            return 0;
        if (e->index == region)
            return e->order == 0 && !xapool_is_reserved(e);
        if (e->index < region)
            low = middle + 1;
        else
            high = middle;
    }
    return 0;
}

/* Why a region is not matched, by the records of both sides; NULL if it is. */
static const char *open_reason(uint64_t region)
{
    xapool_listed in_old, in_new;
    int on_old = record(&old_side, region, &in_old), on_new = record(&new_side, region, &in_new);
    if (!on_old || !on_new)
        return on_old ? no_new : on_new ? no_old : neither;
    if (xapool_is_matched(&in_old) && xapool_is_matched(&in_new))
        return NULL;
    /* Only the reason is asked for anew. Whatever it is, without both marks it is no match. */
    uint64_t is = verdict(region);
    return is == XAPOOL_MATCHED ? "not marked on both sides" : xapool_verdict_text(is);
}

static size_t planted_run, named_in_run; /* how far the planted list is named */

/* Prints what keeps the inspection from passing, and holds it against what was planted. */
static void name(uint64_t region, const char *reason)
{
    const run *next = &planted[planted_run];
    printf("region %" PRIu64 ": %s\n", region, reason);
    if (repaired)
        fail("something is left after the repair");
    if (planted_run == sizeof planted / sizeof *planted || region != next->first + named_in_run ||
        strcmp(reason, next->reason) != 0)
        fail("it was not planted, or another before it is not named");
    named_in_run++;
    if (region == next->last) {
        planted_run++;
        named_in_run = 0;
    }
}

static int is_planned(const xapool_listed *e)
{
    for (size_t r = 0; r < RUNS; r++)
        if (e->index >= plan[r].first && xapool_last_index(e->index, e->order) <= plan[r].last)
            return 1;
    return 0;
}

/* Names the records of a side that are not in the plan; gives how many. */
static size_t name_extras(const side *s, const char *reason)
{
    size_t extras = 0;
    for (size_t i = 0; i < s->list.entries; i++) {
        xapool_listed e;
        if (!xapool_read_listed(s->list.bytes, s->list.size, i, &e))
            fail("a listed entry is none");
        if (xapool_is_reserved(&e) || is_planned(&e))
            continue;
        name(e.index, reason);
        extras++;
    }
    return extras;
}

/* The account, from the pools and the plan alone: all that keeps the inspection from passing, by name; then the
 * verdict. Gives 1 for PASS. */
static int account(const char *pass_name)
{
    size_t regions = planned_regions(), matched = 0, extras, in_old = take(&old_side), in_new = take(&new_side);
    if (!repaired) {
        printf("planned %zu regions in %d runs\n", regions, RUNS);
        printf("old side: %zu records, new side: %zu records\n", in_old, in_new);
    }
    for (uint64_t n = 0; n < regions; n++) {
        const char *reason = open_reason(planned(n));
        if (reason)
            name(planned(n), reason);
        else
            matched++;
    }
    extras = name_extras(&old_side, extra_old);
    extras += name_extras(&new_side, extra_new);
    int passes = regions > 0 && matched == regions && extras == 0;
    printf("%s pass: %zu of %zu matched: %s\n", pass_name, matched, regions, passes ? "PASS" : "FAIL");
    free(old_side.list.bytes);
    free(new_side.list.bytes);
    return passes;
}

/* A region is reserved on each side, and one more is on the new side than the plan has. */
static void begin(side *s)
{
    uint8_t bytes[REGION_BYTES];
    xapool_result r = xapool_init(s->pool, XAPOOL_WORDS(NODES));
    if (r.answer != XAPOOL_DONE)
        fail(xapool_answer_text(r.answer));
    xapool_job job = job_on(s);
    int put = xapool_job_reserve(&job, RESERVED);
    data(EXTRA, bytes);
    if (s == &new_side)
        put = put && put_record(&job, EXTRA, bytes, sizeof bytes);
    must_be_done(&job, put);
    enter(s);
}

/* Every record is entered anew, which clears its mark; the one too many goes. */
static void repair(void)
{
    repaired = 1;
    enter(&old_side);
    enter(&new_side);
    xapool_job job = job_on(&new_side);
    must_be_done(&job, xapool_job_erase(&job, EXTRA));
}

int main(void)
{
    if (planned_regions() != REGIONS)
        fail("the plan has another number of regions");
    begin(&old_side);
    begin(&new_side);
    pass();
    if (account("first") || planted_run != sizeof planted / sizeof *planted)
        fail("what was planted is not named");
    repair();
    pass();
    if (!account("second"))
        fail("not matched after the repair");
    if (fflush(stdout) != 0 || ferror(stdout))
        fail("the account could not be written");
    return 0;
}
