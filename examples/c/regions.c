/* The records of one side of a migration of 10,000 regions: store them (growing the pool where nodes run
 * short), mark what was compared, split what differs, save and load, account for every region, and
 * list them as evidence. inspection.c compares two sides.
 *
 * Mark 2 is 'matched', set after a comparison and cleared by a store. A region counts as matched only if a
 * record with mark 2 is found for it: that is looked at region by region, by the plan.
 * host/examples/regions.rs is the same job in Rust and prints the same lines. */
#include "xapool_job.h"

#define REGIONS 10000
#define ENTRIES (2 * REGIONS) /* a region is split into two at most */
#define LANES (XAPOOL_BATCH_BYTES / XAPOOL_FIND_BYTES)

enum { REVIEW, DIFFERENT, MATCHED = XAPOOL_MATCHED_MARK };

typedef struct pool {
    uint64_t *words;
    size_t nodes;
} pool;

typedef struct entry {
    uint64_t base, word;
    uint8_t order, marks;
} entry;

static entry entries[ENTRIES], expected[ENTRIES];
static xapool_reply replies[4 * ENTRIES]; /* to each command of the last job */

static void fail(const char *what)
{
    fprintf(stderr, "regions: %s\n", what);
    exit(1);
}

static pool new_pool(size_t nodes)
{
    pool p = { calloc(XAPOOL_WORDS(nodes), 8), nodes };
    if (!p.words)
        fail("no memory");
    xapool_result r = xapool_init(p.words, XAPOOL_WORDS(nodes));
    if (r.answer != XAPOOL_DONE)
        fail(xapool_answer_text(r.answer));
    return p;
}

static void keep(void *with, uint64_t command, const xapool_reply *reply)
{
    (void)with;
    if (command >= sizeof replies / sizeof *replies)
        fail("too many commands");
    replies[command] = *reply;
}

/* A job on a pool, all of whose replies are kept. */
static xapool_job job_on(pool *p)
{
    static uint8_t bytes[XAPOOL_BATCH_BYTES], space[XAPOOL_REPLIES(XAPOOL_MAX_COMMANDS)];
    xapool_job job = xapool_job_over(p->words, XAPOOL_WORDS(p->nodes), bytes, sizeof bytes, space, sizeof space);
    job.each = keep;
    return job;
}

/* Every command of a job must have run. */
static void must_run(xapool_job *job, int put)
{
    int ran = xapool_job_flush(job);
    if (put && ran)
        return;
    xapool_job_print(job, stderr);
    fail("the commands did not run");
}

/* And been done. */
static void must_be_done(xapool_job *job, int put)
{
    must_run(job, put);
    if (job->not_done == 0)
        return;
    xapool_job_print(job, stderr);
    fail("a command was not done");
}

static int put_entry(xapool_job *job, entry e)
{
    int put = xapool_job_store(job, e.base, e.order, e.word);
    for (uint8_t mark = 0; mark < XAPOOL_MARKS; mark++)
        if (e.marks >> mark & 1)
            put = put && xapool_job_mark(job, e.base, mark);
    return put;
}

static int by_base(const void *a, const void *b)
{
    uint64_t left = ((const entry *)a)->base, right = ((const entry *)b)->base;
    return (left > right) - (left < right);
}

/* Lists the entries that have the filter. Each batch checks the whole pool, so one find a batch would
 * be dear: the range is cut into lanes, and a batch has a find for each lane that is not done. Each lane is a walk,
 * which goes on after a run or at a pause, so it misses nothing (no_index_missed, budgets_agree of crates/walks). */
static size_t list(pool *p, uint8_t filter)
{
    static uint64_t start[LANES], first[LANES], last[LANES];
    size_t lane[LANES], lanes = LANES, found = 0;
    for (size_t i = 0; i < LANES; i++) {
        start[i] = first[i] = 120 * i;
        last[i] = i + 1 < LANES ? 120 * i + 119 : UINT64_MAX;
        lane[i] = i;
    }
    while (lanes > 0) {
        xapool_job job = job_on(p);
        int put = 1;
        for (size_t i = 0; i < lanes; i++)
            put = put && xapool_job_find(&job, first[lane[i]], last[lane[i]], filter, 1000);
        must_run(&job, put);
        size_t left = 0;
        for (size_t i = 0; i < lanes; i++) {
            const xapool_reply *r = &replies[i];
            size_t l = lane[i];
            if (r->answer != XAPOOL_DONE && r->answer != XAPOOL_PAUSED && r->answer != XAPOOL_ENDED)
                fail(xapool_answer_text(r->answer));
            /* Where a run reaches into the next lane, that lane finds it again. */
            if (r->answer == XAPOOL_DONE && r->index >= start[l] && found < ENTRIES)
                entries[found++] = (entry){ r->index, r->entry, r->order, r->marks };
            if (xapool_next_first(r, last[l], &first[l]))
                lane[left++] = l;
        }
        lanes = left;
    }
    qsort(entries, found, sizeof(entry), by_base);
    return found;
}

/* A pool of twice the nodes with the same entries and marks. */
static void grow(pool *p)
{
    pool bigger = new_pool(2 * p->nodes < XAPOOL_MAX_NODES ? 2 * p->nodes : XAPOOL_MAX_NODES);
    size_t found = list(p, XAPOOL_FIND_ANY);
    xapool_job job = job_on(&bigger);
    int put = 1;
    for (size_t i = 0; i < found; i++)
        put = put && put_entry(&job, entries[i]);
    must_be_done(&job, put);
    free(p->words);
    *p = bigger;
    printf("a pool of %zu nodes for %zu entries\n", p->nodes, found);
}

/* The plan. Region r: small ones side by side, nine large ones far away, and one at the last index. */
static entry region(uint64_t r)
{
    entry e = { 4 * r, XAPOOL_VALUE(r), (uint8_t)(r % 3), 0 };
    if (r % 1000 == 999) {
        e.base = r == REGIONS - 1 ? UINT64_MAX : (r / 1000 + 1) << 40;
        e.order = r == REGIONS - 1 ? 0 : (uint8_t)(10 + r / 1000);
    }
    return e;
}

/* Stores the regions. Those for which nodes run short are stored again in a larger pool; the other
 * commands of their batch have run. Gives how many were refused. */
static size_t store_all(pool *p)
{
    static uint64_t waiting[REGIONS];
    size_t left = REGIONS, shortages = 0;
    for (uint64_t r = 0; r < REGIONS; r++)
        waiting[r] = r;
    for (;;) {
        xapool_job job = job_on(p);
        int put = 1;
        for (size_t i = 0; i < left; i++)
            put = put && put_entry(&job, region(waiting[i]));
        must_run(&job, put);
        size_t refused = 0;
        for (size_t i = 0; i < left; i++)
            if (replies[i].answer == XAPOOL_TOO_FEW_NODES)
                waiting[refused++] = waiting[i];
        if (job.ran != left || job.not_done != refused)
            fail("a store was answered with something else");
        shortages += refused;
        if (refused == 0)
            return shortages;
        left = refused;
        grow(p);
    }
}

static int is_different(uint64_t r) { return r % 7 == 3; }
static int is_unread(uint64_t r) { return r % 13 == 6 && !is_different(r); }
static int is_for_review(uint64_t r) { return r % 11 == 5; }

/* What was compared: a region that matches gets mark 2, one that was not read gets no mark. */
static void compare_all(pool *p)
{
    xapool_job job = job_on(p);
    int put = 1;
    for (uint64_t r = 0; r < REGIONS; r++) {
        uint64_t index = region(r).base;
        if (!is_unread(r))
            put = put && xapool_job_mark(&job, index, is_different(r) ? DIFFERENT : MATCHED);
        if (is_for_review(r))
            put = put && xapool_job_mark(&job, index, REVIEW);
    }
    must_be_done(&job, put);
}

/* An entry in two halves. A store inside it would replace its word alone, so it goes first. */
static int put_split(xapool_job *job, entry e)
{
    entry half = e, other;
    half.order--;
    other = half;
    other.base += UINT64_C(1) << half.order;
    return xapool_job_erase(job, e.base) && put_entry(job, half) && put_entry(job, other);
}

/* Splits what differs. On a copy: if a store is refused after its erase, the pool still has it. */
static size_t split_different(pool *p)
{
    size_t found = list(p, DIFFERENT), split = 0;
    pool copy = new_pool(p->nodes);
    memcpy(copy.words, p->words, 8 * XAPOOL_WORDS(p->nodes));
    xapool_job job = job_on(&copy);
    int put = 1;
    for (size_t i = 0; i < found; i++)
        if (entries[i].order > 0) {
            put = put && put_split(&job, entries[i]);
            split++;
        }
    must_be_done(&job, put);
    free(p->words);
    *p = copy;
    return split;
}

/* Saves the pool to a file and loads it into other words, by its digest: the check knows the structure,
 * not the entries. */
static void save_and_load(pool *p)
{
    char path[64];
    pool loaded = new_pool(p->nodes);
    snprintf(path, sizeof path, "/tmp/regions-%ld.pool", (long)getpid());
    xapool_filed saved = xapool_save(path, p->words, XAPOOL_WORDS(p->nodes));
    if (saved.trouble != XAPOOL_NO_TROUBLE)
        fail(xapool_trouble_text(saved.trouble));
    xapool_filed f = xapool_load(path, loaded.words, XAPOOL_WORDS(loaded.nodes), saved.digest);
    if (unlink(path) != 0 || f.trouble != XAPOOL_NO_TROUBLE)
        fail(xapool_trouble_text(f.trouble));
    free(p->words);
    *p = loaded;
    printf("saved and loaded %zu bytes, digest %08" PRIx32 "\n", 8 * XAPOOL_WORDS(p->nodes), saved.digest);
}

/* Goes through the matched regions below 4,000, ten steps at a time. */
static void walk_with_pauses(pool *p)
{
    xapool_walk walk = xapool_walk_over(p->words, XAPOOL_WORDS(p->nodes), 0, 3999, MATCHED);
    walk.budget = 10;
    while (xapool_walk_next(&walk) == XAPOOL_WALK_FOUND) {
    }
    if (walk.outcome != XAPOOL_WALK_ENDED)
        fail(xapool_trouble_text(walk.trouble));
    printf("matched below 4000: %" PRIu64 ", with %" PRIu64 " pauses\n", walk.found, walk.pauses);
}

/* The entries that the rules above call for, by no other means than these rules. */
static size_t expect_all(void)
{
    size_t number = 0;
    for (uint64_t r = 0; r < REGIONS; r++) {
        entry e = region(r);
        e.marks = (uint8_t)(is_for_review(r) << REVIEW | is_different(r) << DIFFERENT |
                            (!is_different(r) && !is_unread(r)) << MATCHED);
        if (is_different(r) && e.order > 0) {
            e.order--;
            expected[number++] = e;
            e.base += UINT64_C(1) << e.order;
        }
        expected[number++] = e;
    }
    qsort(expected, number, sizeof(entry), by_base);
    return number;
}

/* All entries once more, as an auditor gets them: the bytes of one list. */
static xapool_taken keep_evidence(const pool *p, size_t number)
{
    xapool_taken list = xapool_take(p->words, XAPOOL_WORDS(p->nodes), 0, UINT64_MAX);
    if (!list.bytes)
        fail(xapool_trouble_text(list.trouble));
    if (list.entries != number)
        fail("the list is longer or shorter");
    for (size_t i = 0; i < number; i++) {
        xapool_listed is;
        if (!xapool_read_listed(list.bytes, list.size, i, &is))
            fail("the list is too short");
        entry to_be = expected[i];
        if (is.index != to_be.base || is.order != to_be.order || is.entry != to_be.word || is.marks != to_be.marks)
            fail("the list has another entry");
    }
    printf("%zu bytes of evidence, digest %08" PRIx32 "\n", list.size, xapool_crc32c(0, list.bytes, list.size));
    return list;
}

static size_t account_for_all(pool *p)
{
    size_t number = expect_all(), found = list(p, XAPOOL_FIND_ANY), marked[XAPOOL_MARKS] = { 0 };
    if (found != number)
        fail("there are more or fewer entries");
    for (size_t i = 0; i < found; i++) {
        entry is = entries[i], to_be = expected[i];
        if (is.base != to_be.base || is.order != to_be.order || is.word != to_be.word || is.marks != to_be.marks)
            fail("an entry is another");
        for (int mark = 0; mark < XAPOOL_MARKS; mark++)
            marked[mark] += is.marks >> mark & 1;
    }
    printf("%zu entries: %zu for review, %zu different, %zu matched\n", found, marked[0], marked[1], marked[2]);
    for (uint8_t mark = 0; mark < XAPOOL_MARKS; mark++)
        if (list(p, mark) != marked[mark])
            fail("a find by mark misses some");
    return number;
}

/* The record over an index, in a list; there must be one. */
static xapool_listed record(const xapool_taken *list, uint64_t index)
{
    xapool_listed e;
    size_t low = 0, high = list->entries;
    while (high - low > 1) {
        size_t middle = low + (high - low) / 2;
        if (xapool_read_listed(list->bytes, list->size, middle, &e) && e.index <= index)
            low = middle;
        else
            high = middle;
    }
    if (!xapool_read_listed(list->bytes, list->size, low, &e) || !xapool_is_storable(e.entry) || e.index > index ||
        xapool_last_index(e.index, e.order) < index)
        fail("a region has no record");
    return e;
}

/* Whether all of a region has records with this mark. One that was split has two. */
static int has_mark(const xapool_taken *list, entry region, int mark)
{
    uint64_t index = region.base, last = xapool_last_index(region.base, region.order);
    int has = 1;
    for (;;) {
        xapool_listed over = record(list, index);
        uint64_t end = xapool_last_index(over.index, over.order);
        has = has && over.marks >> mark & 1;
        if (end >= last)
            return has;
        index = end + 1;
    }
}

/* Region by region, by the plan: what has no record with mark 2 is not matched, whatever the reason. */
static void walk_the_plan(const xapool_taken *list)
{
    size_t matched = 0, different = 0;
    for (uint64_t r = 0; r < REGIONS; r++) {
        if (has_mark(list, region(r), MATCHED))
            matched++;
        if (has_mark(list, region(r), DIFFERENT))
            different++;
    }
    printf("%zu of %d regions matched, %zu different, %zu not read: %s\n", matched, REGIONS, different,
           REGIONS - matched - different, matched == REGIONS ? "to be signed" : "not to be signed");
}

int main(void)
{
    pool p = new_pool(100);
    size_t shortages = store_all(&p);
    printf("stored %d regions; %zu stores met a shortage on the way\n", REGIONS, shortages);
    compare_all(&p);
    printf("split %zu regions\n", split_different(&p));
    save_and_load(&p);
    walk_with_pauses(&p);
    xapool_taken list = keep_evidence(&p, account_for_all(&p));
    walk_the_plan(&list);
    free(list.bytes);
    free(p.words);
    puts("every region is accounted for");
    if (fflush(stdout) != 0 || ferror(stdout))
        fail("the account could not be written");
    return 0;
}
