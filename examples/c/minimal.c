#include "xapool.h"
#include <stdio.h>
int main(void)
{
    static uint64_t pool[XAPOOL_WORDS(40)];
    static uint8_t bytes[XAPOOL_BATCH_BYTES], replies[XAPOOL_REPLIES(2)];
    xapool_batch batch = xapool_batch_over(bytes, sizeof bytes);
    if (!xapool_put_store(&batch, 64, 3, XAPOOL_VALUE(2)) || !xapool_put_load(&batch, 70) ||
        xapool_init(pool, XAPOOL_WORDS(40)).answer != XAPOOL_DONE)
        return 1;
    xapool_result r = xapool_run(pool, XAPOOL_WORDS(40), bytes, batch.used, replies, sizeof replies);
    xapool_reply store, load;
    if (r.answer != XAPOOL_DONE || !xapool_read_reply(replies, XAPOOL_REPLIES(r.number), 0, &store) ||
        store.answer != XAPOOL_DONE || !xapool_read_reply(replies, XAPOOL_REPLIES(r.number), 1, &load))
        return 1;
    printf("%s: value %d at %d, order %d\n", xapool_answer_text(load.answer), (int)XAPOOL_VALUE_OF(load.entry),
           (int)load.index, load.order);
    return load.answer != XAPOOL_DONE;
}
