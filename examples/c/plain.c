/* The plain engine beside the tree: the same batch on a pool and on four slices, whose replies are compared but for what load
 * and find count; the list, printed as it stands in the slices; and what is refused. */
#include "xapool.h"
#include <inttypes.h>
#include <stdio.h>
#include <stdlib.h>
#include <string.h>

enum { ROOM = 3, NODES = 40 };

static uint64_t pool[XAPOOL_WORDS(NODES)];
static uint64_t base[ROOM], order[ROOM], word[ROOM], marks[ROOM];
static uint8_t bytes[XAPOOL_BATCH_BYTES], by_tree[XAPOOL_REPLIES(16)], by_list[XAPOOL_REPLIES(16)];

static void expect(int holds, const char *what)
{
    if (!holds) {
        fprintf(stderr, "plain: %s\n", what);
        exit(1);
    }
}

static xapool_result run(const xapool_batch *batch)
{
    return xaplain_run(base, ROOM, order, ROOM, word, ROOM, marks, ROOM, batch->bytes, batch->used, by_list, sizeof by_list);
}

static uint64_t checked(void)
{
    return xaplain_check(base, ROOM, order, ROOM, word, ROOM, marks, ROOM).answer;
}

/* The counts of load and find are 0 here: so many nodes and steps are the tree's own affair. */
static void leave_out_counts(uint8_t *replies, size_t count)
{
    for (size_t i = 0; i < count; i++) {
        uint8_t *reply = replies + XAPOOL_REPLY_BYTES * i;
        if (reply[0] == XAPOOL_REPLY + XAPOOL_LOAD || reply[0] == XAPOOL_REPLY + XAPOOL_FIND)
            memset(reply + XAPOOL_AT_COUNT, 0, 2);
    }
}

static void print_list(void)
{
    puts("place       index order  word marks");
    for (int i = 0; i < ROOM && word[i] != 0; i++)
        printf("%5d %11" PRIu64 " %5" PRIu64 " %5" PRIu64 " %5" PRIu64 "%s\n", i, base[i], order[i], word[i], marks[i],
               word[i] == XAPOOL_RESERVED_WORD ? "  reserved" : "");
}

static void same_replies(void)
{
    xapool_batch batch = xapool_batch_over(bytes, sizeof bytes);
    expect(xapool_put_store(&batch, 64, 3, XAPOOL_VALUE(2)) && xapool_put_reserve(&batch, 7) &&
               xapool_put_store(&batch, 4096, 0, XAPOOL_VALUE(9)) && xapool_put_mark(&batch, 70, 1) &&
               xapool_put_load(&batch, 71) && xapool_put_load(&batch, 7) &&
               xapool_put_find(&batch, 0, UINT64_MAX, 1, 1000) && xapool_put_erase(&batch, 7),
           "no room in the batch");
    expect(xapool_init(pool, XAPOOL_WORDS(NODES)).answer == XAPOOL_DONE, "no pool");
    expect(xaplain_init(base, ROOM, order, ROOM, word, ROOM, marks, ROOM).answer == XAPOOL_DONE, "no slices");
    xapool_result tree = xapool_run(pool, XAPOOL_WORDS(NODES), bytes, batch.used, by_tree, sizeof by_tree);
    xapool_result list = run(&batch);
    expect(tree.answer == XAPOOL_DONE && list.answer == XAPOOL_DONE && tree.number == list.number, "refused");
    leave_out_counts(by_tree, batch.commands);
    expect(memcmp(by_tree, by_list, XAPOOL_REPLIES(batch.commands)) == 0, "the replies differ");
    printf("%" PRIu64 " replies are the tree's, but for counts\n", list.number);
    print_list();
}

/* The answer to one command on the slices as they are. */
static unsigned answer(int put, const xapool_batch *batch)
{
    xapool_reply reply;
    expect(put && run(batch).answer == XAPOOL_DONE && xapool_read_reply(by_list, XAPOOL_REPLIES(1), 0, &reply), "not run");
    return reply.answer;
}

static void room(void)
{
    xapool_batch batch = xapool_batch_over(bytes, sizeof bytes);
    expect(answer(xapool_put_store(&batch, 9000, 0, 3), &batch) == XAPOOL_DONE, "there is room for a third");
    batch = xapool_batch_over(bytes, sizeof bytes);
    expect(answer(xapool_put_store(&batch, 9001, 0, 3), &batch) == XAPOOL_TOO_FEW_NODES, "no room for a fourth");
    batch = xapool_batch_over(bytes, sizeof bytes);
    expect(answer(xapool_put_reserve(&batch, 71), &batch) == XAPOOL_COVERED, "15 comes before 11");
    batch = xapool_batch_over(bytes, sizeof bytes);
    expect(answer(xapool_put_store(&batch, 8192, 12, 5), &batch) == XAPOOL_DONE, "one goes and one comes");
    puts("room for 3: a fourth entry is refused with 11, one in the place of another is not");
}

static void damage(void)
{
    expect(checked() == XAPOOL_DONE, "a list");
    base[1] = 65;
    expect(checked() == XAPOOL_NOT_WELL_FORMED, "65 is inside the entry at 64");
    xapool_batch none = xapool_batch_over(bytes, sizeof bytes);
    expect(run(&none).answer == XAPOOL_NOT_WELL_FORMED, "a run checks first");
    base[1] = 4096;
    expect(checked() == XAPOOL_DONE, "a list again");
    expect(xaplain_check(base, ROOM, order, ROOM, word, ROOM, marks, ROOM - 1).answer == XAPOOL_POOL_LENGTH, "unequal");
    puts("an entry inside another is refused with 2, slices of unequal length with 1");
}

int main(void)
{
    same_replies();
    room();
    damage();
    return 0;
}
