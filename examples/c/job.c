/* The helpers of xapool_job.h, tried. Compiled as C99 and as C++. Calls of the system that put a file on disk go
 * through here: their order is kept, and one of them can be made to fail. */
#define _XOPEN_SOURCE 700
#include <errno.h>
#include <signal.h>
#include <stdio.h>
#include <string.h>
#include <sys/resource.h>
#include <unistd.h>

static char order[32]; /* f: fsync, r: rename */
static size_t to_fail = 99; /* the place in it */

static int fails(char call)
{
    size_t place = strlen(order);
    if (place + 1 < sizeof order)
        order[place] = call;
    errno = EIO;
    return place == to_fail;
}

static int tried_fsync(int file)
{
    return fails('f') ? -1 : fsync(file);
}

static int tried_rename(const char *from, const char *to)
{
    return fails('r') ? -1 : rename(from, to);
}

static int a_write_fails; /* the next, and that one alone */

static size_t tried_fwrite(const void *memory, size_t size, size_t count, FILE *file)
{
    if (!a_write_fails)
        return fwrite(memory, size, count, file);
    a_write_fails = 0;
    errno = EIO;
    return 0;
}

#define fsync tried_fsync
#define rename tried_rename
#define fwrite tried_fwrite
#include "xapool_job.h"

static int failures = 0;

static void check(int holds, const char *what, int line)
{
    if (holds)
        return;
    failures++;
    printf("job.c:%d: %s\n", line, what);
}

#define CHECK(condition) check(condition, #condition, __LINE__)

#define NODES 100

static uint64_t pool[XAPOOL_WORDS(NODES)], other[XAPOOL_WORDS(NODES)];
static uint8_t bytes[XAPOOL_BATCH_BYTES], replies[XAPOOL_REPLIES(XAPOOL_MAX_COMMANDS)];

static xapool_job job_on(size_t nodes, size_t batch_bytes, size_t reply_bytes)
{
    CHECK(xapool_init(pool, XAPOOL_WORDS(nodes)).answer == XAPOOL_DONE);
    return xapool_job_over(pool, XAPOOL_WORDS(nodes), bytes, batch_bytes, replies, reply_bytes);
}

static size_t entries_of(const uint64_t *words, size_t nodes)
{
    return xapool_list(words, XAPOOL_WORDS(nodes), 0, UINT64_MAX, NULL, 0).number;
}

/* 5,000 stores need four batches of 1,638; every one is there. */
static void more_than_a_batch(void)
{
    xapool_job job = job_on(NODES, sizeof bytes, sizeof replies);
    int going = 1;
    for (uint64_t i = 0; i < 5000; i++)
        going = going && xapool_job_store(&job, i, 0, XAPOOL_VALUE(i));
    CHECK(going && job.ran == 3 * 1638 && job.batches == 3 && job.batch.commands == 86);
    CHECK(xapool_job_end(&job) && job.ran == 5000 && job.batches == 4 && job.not_done == 0);
    CHECK(entries_of(pool, NODES) == 5000);
    /* More may be put; the end is asked again. */
    CHECK(xapool_job_store(&job, 5000, 0, XAPOOL_VALUE(1)) && xapool_job_end(&job) && job.ran == 5001);
}

/* Whatever is lent: a batch is run when bytes or replies have no more room. */
static void with_little_room(void)
{
    /* Bytes, bytes for replies, and the batches of the seven commands below: 20, 11, 12, 12, 22, 11 and 11 bytes. */
    static const size_t lent[][3] = { { 22, 24, 7 }, { 22, 10000, 6 }, { 32768, 24, 7 }, { 32768, 47, 7 }, { 45, 71, 4 },
                                      { 98, 10000, 2 }, { 99, 167, 2 }, { 99, 168, 1 } };
    for (unsigned i = 0; i < sizeof lent / sizeof *lent; i++) {
        xapool_job job = job_on(NODES, lent[i][0], lent[i][1]);
        CHECK(xapool_job_store(&job, 64, 3, XAPOOL_VALUE(2)) && xapool_job_load(&job, 70) && xapool_job_mark(&job, 65, 1));
        CHECK(xapool_job_unmark(&job, 66, 1) && xapool_job_find(&job, 0, 99, 3, 5) && xapool_job_reserve(&job, 7));
        CHECK(xapool_job_erase(&job, 71) && xapool_job_end(&job) && job.ran == 7);
        CHECK(job.batches == lent[i][2] && entries_of(pool, NODES) == 1);
    }
    xapool_job none = job_on(NODES, 19, 24);
    CHECK(xapool_job_load(&none, 1) && !xapool_job_store(&none, 1, 0, 3) && none.trouble == XAPOOL_NO_ROOM);
    CHECK(!xapool_job_load(&none, 1) && !xapool_job_end(&none) && none.trouble == XAPOOL_NO_ROOM);
    none = job_on(NODES, 22, 23);
    CHECK(!xapool_job_load(&none, 1) && none.trouble == XAPOOL_NO_ROOM && !xapool_job_end(&none));
}

/* Two nodes: the stores at 2^30 (commands 1 and 4) are short, the mark between them finds nothing. A batch of 52
 * bytes holds a store, a store and a mark; so command 4 is the second of batch 1. */
static void which_was_not_done(void)
{
    uint64_t far = UINT64_C(1) << 30;
    xapool_job job = job_on(2, 52, sizeof replies);
    CHECK(xapool_job_store(&job, 0, 0, 3) && xapool_job_store(&job, 1, 0, 3) && xapool_job_mark(&job, 1, 0));
    CHECK(xapool_job_store(&job, 2, 0, 3) && xapool_job_store(&job, far, 0, 3) && xapool_job_mark(&job, far, 0));
    CHECK(xapool_job_store(&job, 3, 0, 3));
    CHECK(!xapool_job_end(&job) && job.trouble == XAPOOL_NO_TROUBLE && job.ran == 7 && job.not_done == 2);
    CHECK(job.command == 4 && job.number == 1 && job.place == XAPOOL_STORE_BYTES);
    CHECK(job.reply.tag == XAPOOL_STORE && job.reply.answer == XAPOOL_TOO_FEW_NODES);
    CHECK(entries_of(pool, 2) == 4);
    /* What was not done stays so, whatever is done after it. */
    CHECK(xapool_job_store(&job, 4, 0, 3) && !xapool_job_end(&job) && job.ran == 8 && job.command == 4);
}

/* A call that is refused stops the job: what was put runs neither then nor later, and the end says so. */
static void a_refused_call_is_not_lost(void)
{
    xapool_job job = job_on(NODES, 40, sizeof replies);
    CHECK(xapool_job_store(&job, 1, 0, 3) && xapool_job_store(&job, 2, 0, 3) && xapool_job_store(&job, 3, 0, 3));
    pool[3] = 1; /* the words are damaged between two batches */
    CHECK(xapool_job_store(&job, 4, 0, 3) && !xapool_job_store(&job, 5, 0, 3));
    CHECK(job.trouble == XAPOOL_CALL_REFUSED && job.refusal.answer == XAPOOL_NOT_WELL_FORMED && job.batch.commands == 2);
    pool[3] = 0;
    CHECK(!xapool_job_store(&job, 6, 0, 3) && !xapool_job_flush(&job) && !xapool_job_end(&job));
    CHECK(job.ran == 2 && job.not_done == 0 && entries_of(pool, NODES) == 2);
    /* Nor is anything put after it, where there is room in the batch. */
    job = job_on(NODES, sizeof bytes, sizeof replies);
    job.pool_words--;
    CHECK(xapool_job_store(&job, 1, 0, 3) && !xapool_job_flush(&job) && !xapool_job_store(&job, 2, 0, 3));
    CHECK(job.batch.commands == 1 && job.refusal.answer == XAPOOL_POOL_LENGTH && !xapool_job_end(&job));
}

/* No command is no success: and a job that nobody put anything into does not end well. */
static void nothing_put_is_not_all_done(void)
{
    xapool_job job = job_on(NODES, sizeof bytes, sizeof replies);
    CHECK(xapool_job_flush(&job) && !xapool_job_end(&job) && job.trouble == XAPOOL_NOTHING_PUT);
    CHECK(xapool_job_store(&job, 1, 0, 3) && xapool_job_end(&job) && job.trouble == XAPOOL_NO_TROUBLE);
}

typedef struct seen {
    uint64_t number, done, absent;
} seen;

static void see(void *with, uint64_t command, const xapool_reply *reply)
{
#ifdef __cplusplus
    seen *s = static_cast<seen *>(with);
#else
    seen *s = with;
#endif
    CHECK(command == s->number && reply->tag == XAPOOL_LOAD);
    s->number++;
    s->done += reply->answer == XAPOOL_DONE;
    s->absent += reply->answer == XAPOOL_ABSENT;
}

static void each_reply_is_seen(void)
{
    seen s = { 0, 0, 0 };
    int going = 1;
    xapool_job job = job_on(NODES, sizeof bytes, sizeof replies);
    for (uint64_t i = 0; i < 4000; i += 2)
        going = going && xapool_job_store(&job, i, 0, XAPOOL_VALUE(i));
    CHECK(going && xapool_job_end(&job));
    job = xapool_job_over(pool, XAPOOL_WORDS(NODES), bytes, sizeof bytes, replies, sizeof replies);
    job.each = see;
    job.with = &s;
    for (uint64_t i = 0; i < 4000; i++)
        going = going && xapool_job_load(&job, i);
    CHECK(going && xapool_job_flush(&job) && !xapool_job_end(&job));
    CHECK(s.number == 4000 && s.done == 2000 && s.absent == 2000 && job.not_done == 2000 && job.command == 1);
}

static void a_job_is_told(void)
{
    char text[400] = "";
    FILE *file = tmpfile();
    xapool_job job = job_on(1, sizeof bytes, sizeof replies);
    CHECK(file && xapool_job_store(&job, 0, 0, 3) && xapool_job_store(&job, 64, 0, 3) && !xapool_job_end(&job));
    CHECK(xapool_job_load(&job, 0));
    pool[0] = 7;
    CHECK(!xapool_job_end(&job));
    if (!file)
        return;
    xapool_job_print(&job, file);
    rewind(file);
    CHECK(fread(text, 1, sizeof text - 1, file) > 0 && fclose(file) == 0);
    CHECK(strcmp(text, "commands that ran: 2, batches: 1, not done: 1\n"
                       "the first not done: command 1, batch 0, place 20: too few free nodes\n"
                       "stopped: a call was refused: pool is not well-formed, number 0; "
                       "commands of that batch, which did not run: 1\n") == 0);
    for (unsigned t = XAPOOL_NO_TROUBLE; t <= XAPOOL_FILE_DIGEST; t++)
        CHECK(strcmp(xapool_trouble_text(t), xapool_trouble_text(99)) != 0);
}

/* The numbers of docs/HOST.md, 'Choosing N', and of the cases: 11 nodes for the last index (R110), 3 for 0 to 64. */
static void nodes_of_a_range(void)
{
    static const uint64_t ranges[][3] = {
        { 0, 0, 0 },          { 0, 1, 1 },        { 0, 63, 1 },           { 0, 64, 3 },
        { 63, 63, 1 },        { 64, 64, 2 },      { 4095, 4096, 5 },      { 0, 62911, 1000 },
        { 0, 1032127, 16384 }, { 0, 1032128, 16385 }, { UINT64_MAX, UINT64_MAX, 11 },
        { UINT64_C(1) << 40, (UINT64_C(1) << 40) + 999, 16 + 6 },
    };
    for (unsigned i = 0; i < sizeof ranges / sizeof *ranges; i++)
        CHECK(xapool_nodes_for(ranges[i][0], ranges[i][1]) == ranges[i][2]);
    CHECK(xapool_nodes_for(1, 0) == UINT64_MAX);
    CHECK(xapool_nodes_for(0, UINT64_MAX) > XAPOOL_MAX_NODES);
}

/* So many nodes are enough, and one less is not. */
static void stores(uint64_t first, uint64_t last, size_t nodes, int enough)
{
    xapool_job job = job_on(nodes, sizeof bytes, sizeof replies);
    int going = 1;
    for (uint64_t i = last; going && i >= first && i <= last; i--)
        going = xapool_job_store(&job, i, 0, 3);
    CHECK(going && xapool_job_end(&job) == enough && job.trouble == XAPOOL_NO_TROUBLE);
    CHECK(enough || job.reply.answer == XAPOOL_TOO_FEW_NODES);
}

/* Of several ranges the sum and 10 more is enough; for the first and the last index all of it is needed (R111). */
static void nodes_of_two_ranges(void)
{
    size_t nodes = xapool_nodes_for(0, 0) + xapool_nodes_for(UINT64_MAX, UINT64_MAX) + 10;
    for (size_t less = 0; less < 2; less++) {
        xapool_job job = job_on(nodes - less, sizeof bytes, sizeof replies);
        CHECK(xapool_job_store(&job, 0, 0, 3) && xapool_job_store(&job, UINT64_MAX, 0, 3));
        CHECK(xapool_job_end(&job) == !less && job.not_done == less);
    }
}

static void nodes_of_a_range_hold_it(void)
{
    static const uint64_t ranges[][2] = { { 0, 70 },     { 100, 200 },      { 4000, 4200 },       { 5000, 5000 },
                                          { 0, 4999 },   { 262100, 262200 }, { 64, 127 },
                                          { UINT64_C(1) << 40, (UINT64_C(1) << 40) + 999 },
                                          { UINT64_MAX - 100, UINT64_MAX } };
    for (unsigned i = 0; i < sizeof ranges / sizeof *ranges; i++) {
        size_t nodes = xapool_nodes_for(ranges[i][0], ranges[i][1]);
        CHECK(nodes <= NODES);
        stores(ranges[i][0], ranges[i][1], nodes, 1);
        if (nodes > 1)
            stores(ranges[i][0], ranges[i][1], nodes - 1, 0);
    }
}

/* 1,100 regions with the mark, far behind the range's beginning. */
static void fill_for_a_walk(void)
{
    xapool_job job = job_on(NODES, sizeof bytes, sizeof replies);
    int going = 1;
    for (uint64_t i = 262143 - 1099; i <= 262143; i++)
        going = going && xapool_job_store(&job, i, 0, XAPOOL_VALUE(i)) && xapool_job_mark(&job, i, XAPOOL_MATCHED_MARK);
    CHECK(going && xapool_job_store(&job, 8, 3, 3) && xapool_job_end(&job));
}

/* Found by a walk of this budget, each once and in order. */
static void walked(uint64_t filter, uint64_t last, uint64_t budget, uint64_t found, int pauses)
{
    xapool_walk walk = xapool_walk_over(pool, XAPOOL_WORDS(NODES), 0, last, filter);
    uint64_t before = 0;
    walk.budget = budget;
    while (xapool_walk_next(&walk) == XAPOOL_WALK_FOUND) {
        CHECK(walk.reply.index > before && walk.outcome == XAPOOL_WALK_FOUND);
        before = walk.reply.index;
    }
    CHECK(walk.outcome == XAPOOL_WALK_ENDED && walk.found == found && (walk.pauses > 0) == pauses);
    CHECK(xapool_walk_next(&walk) == XAPOOL_WALK_ENDED && walk.trouble == XAPOOL_NO_TROUBLE);
}

static void a_pause_is_never_the_end(void)
{
    fill_for_a_walk();
    walked(XAPOOL_MATCHED_MARK, UINT64_MAX, 1, 1100, 1);
    walked(XAPOOL_MATCHED_MARK, UINT64_MAX, 10, 1100, 1);
    walked(XAPOOL_MATCHED_MARK, UINT64_MAX, 100, 1100, 1); /* 63 slots of the head, and then 46 of a node below it */
    walked(XAPOOL_MATCHED_MARK, UINT64_MAX, 200, 1100, 0);
    walked(XAPOOL_MATCHED_MARK, 262143 - 1000, 10, 100, 1);
    walked(XAPOOL_FIND_ANY, UINT64_MAX, 65536, 1101, 0);
    walked(0, UINT64_MAX, 1, 0, 1);
}

/* While it walks, what it found is taken out, and what comes next is moved to an entry of order 1 over it: every region is
 * met all the same, for some entry with the mark covers it at each find until it is reported. */
static void a_walk_over_changes(void)
{
    const uint64_t first = 262144 - 1100, count = 1100;
    static unsigned char met[1100];
    fill_for_a_walk();
    memset(met, 0, sizeof met);
    xapool_walk walk = xapool_walk_over(pool, XAPOOL_WORDS(NODES), 0, UINT64_MAX, XAPOOL_MATCHED_MARK);
    walk.budget = 3;
    while (xapool_walk_next(&walk) == XAPOOL_WALK_FOUND) {
        xapool_job job = xapool_job_over(pool, XAPOOL_WORDS(NODES), bytes, sizeof bytes, replies, sizeof replies);
        uint64_t index = walk.reply.index, last = xapool_last_index(index, walk.reply.order), next = (last + 1) & ~UINT64_C(1);
        for (uint64_t i = index; i <= last && i < first + count; i++)
            met[i - first] = 1;
        int put = xapool_job_erase(&job, index);
        if (next > last && next < first + count)
            put = put && xapool_job_store(&job, next, 1, 3) && xapool_job_mark(&job, next, XAPOOL_MATCHED_MARK);
        CHECK(put && xapool_job_end(&job));
        walk.budget = 1 + walk.found % 7;
    }
    CHECK(walk.outcome == XAPOOL_WALK_ENDED && walk.pauses > 0);
    for (uint64_t i = 0; i < count; i++)
        CHECK(met[i]);
}

/* Trouble is no end either. */
static void trouble_is_not_the_end(void)
{
    xapool_walk walk = xapool_walk_over(pool, XAPOOL_WORDS(NODES), 0, UINT64_MAX, 4);
    CHECK(xapool_walk_next(&walk) == XAPOOL_WALK_TROUBLE && walk.trouble == XAPOOL_FIELD_REFUSED);
    CHECK(walk.reply.answer == XAPOOL_BAD_MARK && xapool_walk_next(&walk) == XAPOOL_WALK_TROUBLE);
    walk = xapool_walk_over(pool, XAPOOL_WORDS(NODES), 2, 1, 3);
    CHECK(xapool_walk_next(&walk) == XAPOOL_WALK_TROUBLE && walk.reply.answer == XAPOOL_FIRST_ABOVE_LAST);
    walk = xapool_walk_over(pool, XAPOOL_WORDS(NODES), 0, UINT64_MAX, 3);
    walk.budget = 0;
    CHECK(xapool_walk_next(&walk) == XAPOOL_WALK_TROUBLE && walk.reply.answer == XAPOOL_NO_BUDGET);
    walk = xapool_walk_over(pool, XAPOOL_WORDS(NODES), 0, UINT64_MAX, 3);
    CHECK(xapool_walk_next(&walk) == XAPOOL_WALK_FOUND);
    pool[3] = 1;
    CHECK(xapool_walk_next(&walk) == XAPOOL_WALK_TROUBLE && walk.trouble == XAPOOL_CALL_REFUSED);
    pool[3] = 0;
    CHECK(xapool_walk_next(&walk) == XAPOOL_WALK_TROUBLE && walk.refusal.answer == XAPOOL_NOT_WELL_FORMED);
    static xapool_walk nobody_wrote;
    CHECK(nobody_wrote.outcome == XAPOOL_WALK_TROUBLE);
}

static void a_list_has_its_memory(void)
{
    fill_for_a_walk();
    xapool_taken list = xapool_take(pool, XAPOOL_WORDS(NODES), 0, UINT64_MAX);
    CHECK(list.bytes && list.trouble == XAPOOL_NO_TROUBLE && list.entries == 1101 && list.size == 21 * 1101);
    xapool_result read = xapool_read_list(list.bytes, list.size);
    CHECK(read.answer == XAPOOL_DONE && read.number == 1101);
    free(list.bytes);
    list = xapool_take(pool, XAPOOL_WORDS(NODES), 20, 30);
    CHECK(list.bytes && list.trouble == XAPOOL_NO_TROUBLE && list.entries == 0 && list.size == 0);
    free(list.bytes);
    list = xapool_take(pool, XAPOOL_WORDS(NODES), 2, 1);
    CHECK(!list.bytes && list.trouble == XAPOOL_CALL_REFUSED && list.refusal.answer == XAPOOL_FIRST_ABOVE_LAST);
    list = xapool_take(pool, XAPOOL_WORDS(NODES) - 1, 0, 1);
    CHECK(!list.bytes && list.trouble == XAPOOL_CALL_REFUSED && list.refusal.answer == XAPOOL_POOL_LENGTH);
}

static char folder[] = "/tmp/xapool-job-XXXXXX", file_name[64], link_name[64];

/* Changes or adds a byte of the pool file. */
static void spoil(long place, int value)
{
    FILE *file = fopen(file_name, "r+b");
    CHECK(file && fseek(file, place, place < 0 ? SEEK_END : SEEK_SET) == 0 && fputc(value, file) == value);
    CHECK(file && fclose(file) == 0);
}

/* A load that is refused leaves the words that were lent. */
static void not_loaded(const char *path, size_t nodes, uint32_t digest, unsigned trouble)
{
    memset(other, 0xee, sizeof other);
    xapool_filed f = xapool_load(path, other, XAPOOL_WORDS(nodes), digest);
    CHECK(f.trouble == trouble && (trouble == XAPOOL_SYSTEM) == (f.error != 0));
    for (size_t i = 0; i < XAPOOL_WORDS(NODES); i++)
        CHECK(other[i] == UINT64_C(0xeeeeeeeeeeeeeeee));
}

/* The bytes are the words, lowest byte first, and the digest is theirs. */
static void saved_and_loaded(void)
{
    fill_for_a_walk();
    xapool_filed f = xapool_save(file_name, pool, XAPOOL_WORDS(NODES));
    CHECK(f.trouble == XAPOOL_NO_TROUBLE && f.error == 0);
    xapool_filed g = xapool_load(file_name, other, XAPOOL_WORDS(NODES), f.digest);
    CHECK(g.trouble == XAPOOL_NO_TROUBLE && g.digest == f.digest && memcmp(pool, other, sizeof pool) == 0);
    uint8_t first[16] = { 0 };
    FILE *file = fopen(file_name, "rb");
    CHECK(file && fread(first, 1, 16, file) == 16 && first[0] == NODES && first[1] == 0 && first[8] == (pool[1] & 255));
    CHECK(file && fseek(file, 0, SEEK_END) == 0 && ftell(file) == 8 * XAPOOL_WORDS(NODES) && fclose(file) == 0);
    not_loaded(file_name, NODES, f.digest ^ 1, XAPOOL_FILE_DIGEST);
    not_loaded(file_name, NODES - 1, f.digest, XAPOOL_FILE_LENGTH);
    not_loaded(folder, NODES, f.digest, XAPOOL_SYSTEM);
    not_loaded("/nowhere/at/all", NODES, f.digest, XAPOOL_SYSTEM);
    spoil(8 * XAPOOL_WORDS(2), 0x55);
    not_loaded(file_name, NODES, f.digest, XAPOOL_FILE_DIGEST);
    g = xapool_load(file_name, other, XAPOOL_WORDS(NODES), f.digest);
    not_loaded(file_name, NODES, g.digest, XAPOOL_CALL_REFUSED);
    spoil(8 * XAPOOL_WORDS(NODES), 0);
    not_loaded(file_name, NODES, f.digest, XAPOOL_FILE_LENGTH);
    CHECK(truncate(file_name, 8 * XAPOOL_WORDS(NODES) - 1) == 0);
    not_loaded(file_name, NODES, f.digest, XAPOOL_FILE_LENGTH);
    CHECK(truncate(file_name, 0) == 0);
    not_loaded(file_name, NODES, 0, XAPOOL_FILE_LENGTH);
}

/* A save that is refused leaves the old file and no other. */
static void not_saved(const char *path, unsigned trouble, int error)
{
    xapool_filed f = xapool_save(path, pool, XAPOOL_WORDS(NODES));
    CHECK(f.trouble == trouble && f.error == error);
}

static void saves_that_fail(void)
{
    fill_for_a_walk();
    uint32_t digest = xapool_save(file_name, pool, XAPOOL_WORDS(NODES)).digest;
    CHECK(symlink(file_name, link_name) == 0 && chmod(file_name, 0640) == 0);
    not_saved("/nowhere/at/all", XAPOOL_SYSTEM, ENOENT);
    not_saved(link_name, XAPOOL_SYSTEM, EINVAL);
    not_saved(folder, XAPOOL_SYSTEM, EINVAL);
    pool[3] = 1;
    not_saved(file_name, XAPOOL_CALL_REFUSED, 0);
    pool[3] = 0;
    CHECK(xapool_load(file_name, other, XAPOOL_WORDS(NODES), digest).trouble == XAPOOL_NO_TROUBLE);
    struct stat after;
    CHECK(xapool_save(file_name, pool, XAPOOL_WORDS(NODES)).trouble == XAPOOL_NO_TROUBLE);
    CHECK(stat(file_name, &after) == 0 && (after.st_mode & 07777) == 0640);
    CHECK(unlink(link_name) == 0 && unlink(file_name) == 0);
    CHECK(chdir(folder) == 0 && xapool_save("p", pool, XAPOOL_WORDS(NODES)).trouble == XAPOOL_NO_TROUBLE);
    CHECK(xapool_load("p", other, XAPOOL_WORDS(NODES), digest).trouble == XAPOOL_NO_TROUBLE && unlink("p") == 0);
}

/* The file is flushed before it is renamed and its folder after. Where the first or the second fails the old file is there,
 * where the third fails the new one; and nothing else is in the folder. */
static void calls_that_fail(void)
{
    for (to_fail = 0; to_fail < 4; to_fail++) {
        xapool_job job = job_on(NODES, sizeof bytes, sizeof replies);
        memset(order, 0, sizeof order);
        memset(order, '-', 4);
        uint32_t before = xapool_save(file_name, pool, XAPOOL_WORDS(NODES)).digest;
        CHECK(strcmp(order, "----frf") == 0 && xapool_job_store(&job, 1, 0, 3) && xapool_job_end(&job));
        memset(order, 0, sizeof order);
        xapool_filed f = xapool_save(file_name, pool, XAPOOL_WORDS(NODES));
        CHECK(f.trouble == (to_fail < 2 ? XAPOOL_SYSTEM : to_fail == 2 ? XAPOOL_NOT_FLUSHED : XAPOOL_NO_TROUBLE));
        CHECK(f.error == (to_fail < 3 ? EIO : 0) && strncmp(order, "frf", strlen(order)) == 0 && f.digest != before);
        uint32_t there = to_fail < 2 ? before : f.digest;
        CHECK(xapool_load(file_name, other, XAPOOL_WORDS(NODES), there).trouble == XAPOOL_NO_TROUBLE);
        CHECK(unlink(file_name) == 0 && rmdir(folder) == 0 && mkdir(folder, 0700) == 0);
    }
    to_fail = 99;
}

/* A file that cannot be written whole: the old one is there, and no other. */
static void a_disk_that_is_full(void)
{
    struct rlimit before = { 0, 0 }, small;
    fill_for_a_walk();
    uint32_t digest = xapool_save(file_name, pool, XAPOOL_WORDS(NODES)).digest;
    CHECK(signal(SIGXFSZ, SIG_IGN) != SIG_ERR && getrlimit(RLIMIT_FSIZE, &before) == 0);
    small = before;
    small.rlim_cur = 8 * XAPOOL_WORDS(NODES) - 1;
    CHECK(setrlimit(RLIMIT_FSIZE, &small) == 0);
    not_saved(file_name, XAPOOL_SYSTEM, EFBIG);
    CHECK(setrlimit(RLIMIT_FSIZE, &before) == 0);
    a_write_fails = 1;
    not_saved(file_name, XAPOOL_SYSTEM, EIO);
    CHECK(xapool_load(file_name, other, XAPOOL_WORDS(NODES), digest).trouble == XAPOOL_NO_TROUBLE);
    CHECK(unlink(file_name) == 0);
}

static void files(void)
{
    CHECK(mkdtemp(folder) != NULL);
    sprintf(file_name, "%s/a.pool", folder);
    sprintf(link_name, "%s/a.link", folder);
    saved_and_loaded();
    saves_that_fail();
    calls_that_fail();
    a_disk_that_is_full();
    CHECK(chdir("/") == 0 && rmdir(folder) == 0); /* nothing was left in it */
}

int main(void)
{
    more_than_a_batch();
    with_little_room();
    which_was_not_done();
    a_refused_call_is_not_lost();
    nothing_put_is_not_all_done();
    each_reply_is_seen();
    a_job_is_told();
    nodes_of_a_range();
    nodes_of_a_range_hold_it();
    nodes_of_two_ranges();
    a_pause_is_never_the_end();
    a_walk_over_changes();
    trouble_is_not_the_end();
    a_list_has_its_memory();
    files();
    puts(failures ? "some do not hold" : "all hold");
    return failures != 0;
}
