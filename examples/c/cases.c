/* Cases 3 and 14 (R108, R119): store 0 and 64 in a pool of 3 nodes, then load 64. */
#include "xapool.h"
#include <inttypes.h>
#include <stdio.h>
#include <string.h>

#define NODES 3

static void print(const xapool_reply *reply)
{
    printf("tag %d: %s, index %" PRIu64 ", order %d, entry %" PRIu64 ", marks %d, count %d\n", reply->tag,
           xapool_answer_text(reply->answer), reply->index, reply->order, reply->entry, reply->marks, reply->count);
}

int main(void)
{
    static uint64_t pool[XAPOOL_WORDS(NODES)];
    static uint8_t bytes[XAPOOL_BATCH_BYTES], replies[XAPOOL_REPLIES(3)];
    xapool_batch batch = xapool_batch_over(bytes, sizeof bytes);
    if (!xapool_put_store(&batch, 0, 0, XAPOOL_VALUE(1)) || !xapool_put_store(&batch, 64, 0, XAPOOL_VALUE(2)) ||
        !xapool_put_load(&batch, 64) || xapool_init(pool, XAPOOL_WORDS(NODES)).answer != XAPOOL_DONE)
        return 1;
    xapool_result r = xapool_run(pool, XAPOOL_WORDS(NODES), bytes, batch.used, replies, sizeof replies);
    printf("call: %s, number %" PRIu64 "\n", xapool_answer_text(r.answer), r.number);
    for (size_t i = 0; r.answer == XAPOOL_DONE && i < r.number; i++) {
        xapool_reply reply;
        if (!xapool_read_reply(replies, XAPOOL_REPLIES(r.number), i, &reply) || reply.answer != XAPOOL_DONE)
            return 1;
        print(&reply);
    }
    static const uint8_t case14[] = { 0x82, 0, 21, 0, 0, 0, 0, 0, 0, 0, 0, 64, 0, 0, 0, 0, 0, 0, 0, 0, 5, 0, 0, 2 };
    return r.answer != XAPOOL_DONE || r.number != 3 || memcmp(replies + XAPOOL_REPLIES(2), case14, sizeof case14) != 0;
}
