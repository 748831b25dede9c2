/* The evidence for an auditor: every entry of a range as bytes, which can be kept, and as text. It is all
 * of them or none (xapool_take asks how many there are, and then for the list). Mark 2 says 'matched', of the
 * entry's whole run; a region that is not listed, or is reserved, is not matched. */
#include "xapool_job.h"

#define NODES 40
#define MATCHED XAPOOL_MATCHED_MARK

static uint64_t pool[XAPOOL_WORDS(NODES)];

static void fail(const char *what)
{
    fprintf(stderr, "evidence: %s\n", what);
    exit(1);
}

/* Regions 0 to 7 as one entry, region 64, and the last there can be; 64 was compared and is matched. */
static void fill(void)
{
    static uint8_t bytes[XAPOOL_BATCH_BYTES], replies[XAPOOL_REPLIES(4)];
    if (xapool_init(pool, XAPOOL_WORDS(NODES)).answer != XAPOOL_DONE)
        fail("no pool");
    xapool_job job = xapool_job_over(pool, XAPOOL_WORDS(NODES), bytes, sizeof bytes, replies, sizeof replies);
    int put = xapool_job_store(&job, 0, 3, XAPOOL_VALUE(1)) && xapool_job_store(&job, 64, 0, XAPOOL_VALUE(2)) &&
              xapool_job_store(&job, UINT64_MAX, 0, XAPOOL_VALUE(3)) && xapool_job_mark(&job, 64, MATCHED);
    if (!xapool_job_end(&job) || !put) {
        xapool_job_print(&job, stderr);
        fail("a command was not done");
    }
}

static xapool_taken evidence(uint64_t first, uint64_t last)
{
    xapool_taken list = xapool_take(pool, XAPOOL_WORDS(NODES), first, last);
    if (!list.bytes)
        fail(xapool_trouble_text(list.trouble));
    return list;
}

int main(void)
{
    /* What meets 5 to 100: the run of eight from its base on, and 64 with mark 2, which is worth 4. */
    static const uint8_t expected[] = { 32, 0, 18, 0, 0, 0, 0, 0, 0, 0, 0,  3, 0, 0, 0, 0, 0, 0, 0, 3, 0,
                                        32, 0, 18, 0, 0, 0, 0, 0, 0, 0, 64, 0, 0, 0, 0, 0, 0, 0, 0, 5, 4 };
    fill();
    xapool_taken list = evidence(5, 100);
    xapool_result read = xapool_read_list(list.bytes, list.size); /* as the auditor does, who has the bytes alone */
    if (read.answer != XAPOOL_DONE || read.number != list.entries)
        fail("the list is none");
    for (size_t i = 0; i < list.entries; i++) {
        xapool_listed e;
        if (!xapool_read_listed(list.bytes, list.size, i, &e))
            fail("an entry is missing");
        printf("%" PRIu64 " to %" PRIu64 ": value %" PRIu64 ", %s\n", e.index, xapool_last_index(e.index, e.order),
               XAPOOL_VALUE_OF(e.entry), xapool_is_matched(&e) ? "matched" : "not matched");
    }
    int same = list.size == sizeof expected && memcmp(list.bytes, expected, list.size) == 0;
    free(list.bytes);
    list = evidence(0, UINT64_MAX);
    same = same && list.size == XAPOOL_LISTING(3);
    free(list.bytes);
    return !same || fflush(stdout) != 0 || ferror(stdout);
}
