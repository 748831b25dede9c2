/* The header's own functions and what it says of the calls, tried. Compiled as C99 and as C++. */
#include "assoc.h"
#include <stdio.h>
#include <string.h>

/* The word of a value is constant where the value is. */
static const uint64_t words_of_values[] = { XAPOOL_VALUE(0), XAPOOL_VALUE(INT64_MAX), XAPOOL_VALUE(UINT64_C(1) << 63),
                                            XAPOOL_VALUE(UINT64_MAX) };
enum { WORD_OF_2 = XAPOOL_VALUE(2) };

static int failures = 0;

static void check(int holds, const char *what, int line)
{
    if (holds)
        return;
    failures++;
    printf("header.c:%d: %s\n", line, what);
}

#define CHECK(condition) check(condition, #condition, __LINE__)

/* Each builder with exactly its room, and with one byte less. */
static void builders_look_at_the_room(void)
{
    static const unsigned sizes[] = { XAPOOL_STORE_BYTES,  XAPOOL_LOAD_BYTES, XAPOOL_ERASE_BYTES,  XAPOOL_MARK_BYTES,
                                      XAPOOL_UNMARK_BYTES, XAPOOL_FIND_BYTES, XAPOOL_RESERVE_BYTES };
    for (unsigned kind = 0; kind < 7; kind++)
        for (unsigned less = 0; less < 2; less++) {
            uint8_t bytes[32];
            memset(bytes, 0xee, sizeof bytes);
            xapool_batch b = xapool_batch_over(bytes, sizes[kind] - less);
            int put = kind == 0   ? xapool_put_store(&b, 64, 0, XAPOOL_VALUE(2))
                      : kind == 1 ? xapool_put_load(&b, 64)
                      : kind == 2 ? xapool_put_erase(&b, 64)
                      : kind == 3 ? xapool_put_mark(&b, 64, 1)
                      : kind == 4 ? xapool_put_unmark(&b, 64, 1)
                      : kind == 5 ? xapool_put_find(&b, 1, UINT64_MAX, XAPOOL_FIND_ANY, 258)
                                  : xapool_put_reserve(&b, 64);
            unsigned used = less ? 0 : sizes[kind];
            CHECK(put == !less && b.used == used && b.commands == !less);
            for (unsigned i = used; i < sizeof bytes; i++)
                CHECK(bytes[i] == 0xee);
            xapool_result r = xapool_count(bytes, b.used);
            CHECK(r.answer == XAPOOL_DONE && r.number == b.commands);
            CHECK(less || bytes[0] == kind + 1);
        }
}

static void records_are_those_of_the_document(void)
{
    static const uint8_t store[] = { 1, 0, 17, 0, 0, 0, 0, 0, 0, 0, 64, 0, 0, 0, 0, 0, 0, 0, 0, 5 };
    static const uint8_t find[] = { 6, 0, 19, 0, 0, 0, 0, 0, 0, 0, 1, 255, 255, 255, 255, 255, 255, 255, 255, 3, 1, 2 };
    static const uint8_t reserve[] = { 7, 0, 8, 1, 2, 3, 4, 5, 6, 7, 8 };
    uint8_t bytes[XAPOOL_BATCH_BYTES + 100];
    xapool_batch b = xapool_batch_over(bytes, sizeof bytes);
    CHECK(b.room == XAPOOL_BATCH_BYTES);
    CHECK(xapool_put_store(&b, 64, 0, XAPOOL_VALUE(2)) && memcmp(bytes, store, sizeof store) == 0);
    CHECK(xapool_put_find(&b, 1, UINT64_MAX, XAPOOL_FIND_ANY, 258) && memcmp(bytes + 20, find, sizeof find) == 0);
    CHECK(xapool_put_reserve(&b, UINT64_C(0x0102030405060708)) && memcmp(bytes + 42, reserve, sizeof reserve) == 0);
    while (xapool_put_load(&b, 0)) {
    }
    CHECK(b.commands == 3 + (XAPOOL_BATCH_BYTES - 53) / XAPOOL_LOAD_BYTES);
}

/* What is left where there is no reply: an answer that is not 'done', and nothing else. */
static int is_no_reply(const xapool_reply *r)
{
    return r->answer == XAPOOL_NO_REPLY && r->tag == 0 && r->order == 0 && r->marks == 0 && r->count == 0 && r->index == 0 &&
           r->entry == 0;
}

static void not_read(const uint8_t *bytes, size_t count, size_t number)
{
    xapool_reply r = { XAPOOL_STORE, XAPOOL_DONE, 1, 1, 1, 1, 1 };
    CHECK(!xapool_read_reply(bytes, count, number, &r) && is_no_reply(&r));
}

static void replies_are_read_or_not(void)
{
    uint8_t bytes[48] = { 0x82, 0, 21, 10, 1, 2, 3, 4, 5, 6, 7, 8, 9, 0, 0, 0, 0, 0, 0, 1, 5, 7, 1, 2 };
    xapool_reply r;
    memset(&r, 0, sizeof r);
    CHECK(xapool_read_reply(bytes, 24, 0, &r));
    CHECK(r.tag == XAPOOL_LOAD && r.answer == XAPOOL_ABSENT && r.index == UINT64_C(0x0102030405060708));
    CHECK(r.order == 9 && r.entry == 261 && r.marks == 7 && r.count == 258);
    not_read(bytes, 23, 0);
    not_read(bytes, 24, 1);
    not_read(bytes, 48, 1);
    not_read(bytes, 48, SIZE_MAX);
    not_read(NULL, 0, 0);
    static const uint8_t wrong[][2] = { { 0, 128 }, { 0, 136 }, { 1, 1 }, { 2, 20 }, { 3, 16 }, { 3, 255 } };
    for (unsigned i = 0; i < sizeof wrong / sizeof *wrong; i++) {
        uint8_t old = bytes[wrong[i][0]];
        bytes[wrong[i][0]] = wrong[i][1];
        not_read(bytes, 24, 0);
        bytes[wrong[i][0]] = old;
    }
    bytes[0] = 135;
    bytes[3] = 15;
    CHECK(xapool_read_reply(bytes, 24, 0, &r) && r.tag == XAPOOL_RESERVE && r.answer == XAPOOL_COVERED);
}

static void marks_alone_match_nothing(void)
{
    static const xapool_listed bare[] = { { 0, 7, 1, 0 }, { 0, 7, 1, XAPOOL_NO_ENTRY }, { 0, 7, 1, XAPOOL_RESERVED_WORD } };
    for (unsigned i = 0; i < 3; i++)
        CHECK(!xapool_is_matched(&bare[i]));
}

/* What is left where nothing was listed is no entry, not reserved and not matched. */
static void not_listed(const uint8_t *bytes, size_t count, size_t number)
{
    xapool_listed e = { 1, 7, 1, 1 };
    CHECK(xapool_is_matched(&e) && !xapool_read_listed(bytes, count, number, &e));
    CHECK(e.entry == XAPOOL_NO_ENTRY && e.marks == 0 && e.order == 0 && e.index == 0);
    CHECK(!xapool_is_storable(e.entry) && !xapool_is_reserved(&e) && !xapool_is_matched(&e));
}

static void listed_entries_are_read_or_not(void)
{
    uint8_t bytes[42] = { 32, 0, 18, 1, 2, 3, 4, 5, 6, 7, 8, 3, 0, 0, 0, 0, 0, 0, 1, 5, 7 };
    xapool_listed e;
    memset(&e, 0, sizeof e);
    CHECK(XAPOOL_LISTING(2) == sizeof bytes);
    CHECK(xapool_read_listed(bytes, 21, 0, &e));
    CHECK(e.index == UINT64_C(0x0102030405060708) && e.order == 3 && e.entry == 261 && e.marks == 7);
    CHECK(xapool_is_storable(e.entry) && !xapool_is_reserved(&e) && xapool_is_matched(&e));
    not_listed(bytes, 20, 0);
    not_listed(bytes, 21, 1);
    not_listed(bytes, 42, 1);
    not_listed(bytes, 42, SIZE_MAX);
    memcpy(bytes + 21, bytes, 21);
    bytes[31] = 16;
    bytes[41] = 3;
    CHECK(xapool_read_listed(bytes, 42, 1, &e) && e.index == UINT64_C(0x0102030405060710) && !xapool_is_matched(&e));
    /* Tag, length, order, marks; a base that is no multiple of 8; words that end in binary 10. */
    static const uint8_t wrong[][2] = { { 0, 33 }, { 1, 1 },  { 2, 17 }, { 11, 64 }, { 11, 255 }, { 11, 4 },
                                        { 20, 8 }, { 10, 9 }, { 10, 4 }, { 19, 6 },  { 19, 2 } };
    for (unsigned i = 0; i < sizeof wrong / sizeof *wrong; i++) {
        uint8_t old = bytes[wrong[i][0]];
        bytes[wrong[i][0]] = wrong[i][1];
        not_listed(bytes, 21, 0);
        bytes[wrong[i][0]] = old;
    }
    /* Entry 0 is a reserved index: of order 0, without marks. */
    bytes[18] = bytes[19] = 0;
    not_listed(bytes, 21, 0);
    bytes[20] = 0;
    not_listed(bytes, 21, 0);
    bytes[11] = 0;
    CHECK(xapool_read_listed(bytes, 21, 0, &e) && xapool_is_reserved(&e) && e.index == UINT64_C(0x0102030405060708));
    CHECK(!xapool_is_matched(&e) && !xapool_is_storable(e.entry));
    bytes[20] = 4;
    not_listed(bytes, 21, 0);
}

/* A list of these records, each its base, order, word and marks; 'bad' is the number of the first that no pool gives. */
static void list_of(const uint64_t (*records)[4], unsigned count, unsigned bad)
{
    uint8_t bytes[4 * XAPOOL_LISTED_BYTES];
    xapool_batch b = xapool_batch_over(bytes, sizeof bytes);
    for (unsigned i = 0; i < count; i++) {
        xapool_put_number(&b, XAPOOL_LISTED, 1);
        xapool_put_number(&b, XAPOOL_LISTED_BYTES - 3, 2);
        xapool_put_number(&b, records[i][0], 8);
        xapool_put_number(&b, records[i][1], 1);
        xapool_put_number(&b, records[i][2], 8);
        xapool_put_number(&b, records[i][3], 1);
    }
    xapool_result r = xapool_read_list(bytes, b.used);
    CHECK(bad < count ? r.answer == XAPOOL_BAD_BATCH && r.number == XAPOOL_LISTING(bad)
                      : r.answer == XAPOOL_DONE && r.number == count);
    for (unsigned cut = 1; cut < XAPOOL_LISTED_BYTES && bad >= count; cut++) {
        r = xapool_read_list(bytes, b.used - cut);
        CHECK(r.answer == XAPOOL_BAD_BATCH && r.number == XAPOOL_LISTING(count - 1));
    }
}

/* Lists that no pool can give are refused, with the place of the first such record. */
static void lists_are_looked_at_as_a_whole(void)
{
    static const struct {
        uint64_t records[3][4];
        unsigned bad;
    } lists[] = {
        { { { 0, 0, 3, 0 }, { 8, 3, 5, 7 }, { 16, 0, 4, 1 } }, 3 },
        { { { 0, 63, 3, 0 }, { UINT64_C(1) << 63, 63, 3, 0 }, { UINT64_MAX, 0, 3, 0 } }, 2 },
        { { { 5, 0, 0, 0 }, { 6, 0, 0, 0 }, { UINT64_MAX, 0, UINT64_MAX, 0 } }, 3 },
        { { { 64, 0, 3, 0 }, { 63, 0, 3, 0 }, { 65, 0, 3, 0 } }, 1 }, /* unsorted */
        { { { 64, 0, 3, 0 }, { 64, 0, 3, 0 }, { 65, 0, 3, 0 } }, 1 }, /* doubled */
        { { { 5, 0, 0, 0 }, { 5, 0, 3, 0 }, { 65, 0, 3, 0 } }, 1 },   /* reserved, and an entry */
        { { { 0, 0, 3, 0 }, { 0, 0, 3, 0 }, { 1, 0, 3, 0 } }, 1 },
        { { { 8, 3, 3, 0 }, { 15, 0, 3, 0 }, { 16, 0, 3, 0 } }, 1 },  /* overlapping */
        { { { 0, 0, 3, 0 }, { 8, 3, 3, 0 }, { 12, 2, 3, 0 } }, 2 },
        { { { 0, 0, 3, 0 }, { 9, 3, 3, 0 }, { 16, 0, 3, 0 } }, 1 },   /* a crooked base */
        { { { 0, 0, 3, 0 }, { 9, 0, 6, 0 }, { 16, 0, 3, 0 } }, 1 },   /* words that cannot be stored */
        { { { 0, 0, 3, 0 }, { 9, 0, 3, 0 }, { 16, 0, 1030, 0 } }, 2 },
        { { { 0, 0, 2, 0 }, { 9, 0, 3, 0 }, { 16, 0, 3, 0 } }, 0 },
        { { { 0, 64, 3, 0 }, { 9, 0, 3, 0 }, { 16, 0, 3, 0 } }, 0 },  /* an order, marks */
        { { { 0, 0, 3, 8 }, { 9, 0, 3, 0 }, { 16, 0, 3, 0 } }, 0 },
        { { { 0, 0, 3, 0 }, { 8, 1, 0, 0 }, { 16, 0, 3, 0 } }, 1 },   /* reserved, with an order or marks */
        { { { 0, 0, 3, 0 }, { 8, 0, 0, 1 }, { 16, 0, 3, 0 } }, 1 },
    };
    for (unsigned i = 0; i < sizeof lists / sizeof *lists; i++)
        list_of(lists[i].records, 3, lists[i].bad);
    static const uint8_t wrong[2][21] = { { 33, 0, 18 }, { 32, 0, 17 } };
    CHECK(xapool_read_list(wrong[0], 21).answer == XAPOOL_BAD_BATCH && xapool_read_list(wrong[1], 21).answer == XAPOOL_BAD_BATCH);
    CHECK(xapool_read_list(NULL, 0).answer == XAPOOL_DONE && xapool_read_list(NULL, 0).number == 0);
}

/* A call that lists into 'bytes' bytes; 'written' of them change, all others stay. */
static void lists(const uint64_t *pool, uint64_t first, uint64_t last, size_t bytes, uint64_t answer, uint64_t number,
                  const uint8_t *written)
{
    uint8_t buffer[64];
    memset(buffer, 0xee, sizeof buffer);
    xapool_result r = xapool_list(pool, XAPOOL_WORDS(3), first, last, buffer, bytes);
    CHECK(r.answer == answer && r.number == number);
    size_t used = answer == XAPOOL_DONE ? XAPOOL_LISTING(r.number) : 0;
    CHECK(used == 0 || memcmp(buffer, written, used) == 0);
    for (size_t i = used; i < sizeof buffer; i++)
        CHECK(buffer[i] == 0xee);
}

/* Three nodes hold a run of eight at 8 and value 2 at 64, which has marks 0 and 2: 1 + 4. */
static void a_list_is_whole_or_not_at_all(void)
{
    static const uint8_t both[] = { 32, 0, 18, 0, 0, 0, 0, 0, 0, 0, 8,  3, 0, 0, 0, 0, 0, 0, 0, 3, 0,
                                    32, 0, 18, 0, 0, 0, 0, 0, 0, 0, 64, 0, 0, 0, 0, 0, 0, 0, 0, 5, 5 };
    static uint64_t pool[XAPOOL_WORDS(3)];
    uint8_t bytes[100], replies[XAPOOL_REPLIES(4)] = { 0 };
    xapool_batch b = xapool_batch_over(bytes, sizeof bytes);
    CHECK(xapool_put_store(&b, 8, 3, XAPOOL_VALUE(1)));
    CHECK(xapool_put_store(&b, 64, 0, XAPOOL_VALUE(2)));
    CHECK(xapool_put_mark(&b, 64, 0));
    CHECK(xapool_put_mark(&b, 64, 2));
    CHECK(xapool_init(pool, XAPOOL_WORDS(3)).answer == XAPOOL_DONE);
    CHECK(xapool_run(pool, XAPOOL_WORDS(3), bytes, b.used, replies, sizeof replies).number == 4);
    lists(pool, 0, UINT64_MAX, 64, XAPOOL_DONE, 2, both);
    CHECK(xapool_read_list(both, sizeof both).number == 2);
    lists(pool, 15, 64, 42, XAPOOL_DONE, 2, both);
    lists(pool, 15, 64, 41, XAPOOL_REPLY_SPACE, 2, NULL);
    lists(pool, 15, 64, 0, XAPOOL_REPLY_SPACE, 2, NULL);
    lists(pool, 9, 9, 21, XAPOOL_DONE, 1, both);
    lists(pool, 16, UINT64_MAX, 21, XAPOOL_DONE, 1, both + 21);
    lists(pool, 16, 63, 0, XAPOOL_DONE, 0, NULL);
    lists(pool, 65, 64, 0, XAPOOL_FIRST_ABOVE_LAST, 0, NULL);
    CHECK(xapool_list(pool, XAPOOL_WORDS(3), 0, 8, NULL, 0).number == 1);
    CHECK(xapool_list(NULL, 0, 1, 0, NULL, 0).answer == XAPOOL_POOL_LENGTH);
    pool[3] = 1;
    lists(pool, 65, 64, 0, XAPOOL_NOT_WELL_FORMED, 0, NULL);
}

/* A script of the one command in a batch, into so many words; 'written' of them change, all others stay. */
static void prepares(const uint64_t *pool, const xapool_batch *b, size_t words, uint64_t answer, uint64_t number,
                     const uint64_t *written)
{
    uint64_t script[8];
    memset(script, 0xee, sizeof script);
    xapool_result r = xapool_prepare(pool, XAPOOL_WORDS(3), b->bytes, b->used, script, words);
    CHECK(r.answer == answer && r.number == number);
    size_t used = answer == XAPOOL_DONE ? r.number : 0;
    CHECK(used == 0 || memcmp(script, written, used * sizeof *script) == 0);
    for (size_t i = used; i < 8; i++)
        CHECK(script[i] == UINT64_C(0xeeeeeeeeeeeeeeee));
}

/* Node 0 has 8 to 15; node 1 grew over it, and has node 2, with 64, in slot 1. So mark 1 of 64 is in slot 0 of node 2, in
 * slot 1 of node 1, and in the anchor. The pool has no node left. */
static void a_script_is_whole_or_not_at_all(void)
{
    static const uint64_t marked[] = { 2, 2, XAPOOL_WORDS(1) + XAPOOL_MARK_FIELD + 1, 2, XAPOOL_WORDS(2) + XAPOOL_MARK_FIELD + 1, 1 };
    static uint64_t pool[XAPOOL_WORDS(3)], before[XAPOOL_WORDS(3)];
    uint8_t bytes[100], replies[XAPOOL_REPLIES(2)] = { 0 };
    xapool_batch b = xapool_batch_over(bytes, sizeof bytes);
    CHECK(xapool_put_store(&b, 8, 3, XAPOOL_VALUE(1)) && xapool_put_store(&b, 64, 0, XAPOOL_VALUE(2)));
    CHECK(xapool_init(pool, XAPOOL_WORDS(3)).answer == XAPOOL_DONE);
    CHECK(xapool_run(pool, XAPOOL_WORDS(3), bytes, b.used, replies, sizeof replies).number == 2);
    memcpy(before, pool, sizeof pool);
    prepares(pool, &b, 8, XAPOOL_BAD_BATCH, 0, NULL); /* two commands */
    static const struct {
        unsigned kind; /* a tag */
        uint64_t index, more, word, answer, number;
    } cases[] = {
        { XAPOOL_MARK, 64, 1, 0, XAPOOL_DONE, 6 },
        { XAPOOL_UNMARK, 64, 1, 0, XAPOOL_DONE, 0 },
        { XAPOOL_LOAD, 64, 0, 0, XAPOOL_BAD_BATCH, 0 },
        { XAPOOL_STORE, 1, 64, 2, XAPOOL_BAD_ORDER, 0 },
        { XAPOOL_STORE, 1, 1, 2, XAPOOL_NOT_ALIGNED, 0 },
        { XAPOOL_STORE, 2, 1, 2, XAPOOL_BAD_ENTRY, 0 },
        { XAPOOL_MARK, 7, 3, 0, XAPOOL_BAD_MARK, 0 },
        { XAPOOL_MARK, 7, 2, 0, XAPOOL_ABSENT, 0 },
        { XAPOOL_ERASE, 7, 0, 0, XAPOOL_ABSENT, 0 },
        { XAPOOL_STORE, 4096, 0, 3, XAPOOL_TOO_FEW_NODES, 0 },
        { XAPOOL_RESERVE, 4096, 0, 0, XAPOOL_TOO_FEW_NODES, 0 },
        { XAPOOL_RESERVE, 9, 0, 0, XAPOOL_COVERED, 0 },
    };
    for (unsigned i = 0; i < sizeof cases / sizeof *cases; i++) {
        b = xapool_batch_over(bytes, sizeof bytes);
        int put = cases[i].kind == XAPOOL_STORE   ? xapool_put_store(&b, cases[i].index, cases[i].more, cases[i].word)
                  : cases[i].kind == XAPOOL_MARK   ? xapool_put_mark(&b, cases[i].index, cases[i].more)
                  : cases[i].kind == XAPOOL_UNMARK ? xapool_put_unmark(&b, cases[i].index, cases[i].more)
                  : cases[i].kind == XAPOOL_ERASE  ? xapool_put_erase(&b, cases[i].index)
                  : cases[i].kind == XAPOOL_LOAD   ? xapool_put_load(&b, cases[i].index)
                                                   : xapool_put_reserve(&b, cases[i].index);
        CHECK(put);
        prepares(pool, &b, 8, cases[i].answer, cases[i].number, marked);
        if (cases[i].answer != XAPOOL_DONE)
            prepares(pool, &b, 0, cases[i].answer, 0, NULL); /* before it is 4 */
        b.used--;
        prepares(pool, &b, 8, XAPOOL_BAD_BATCH, 0, NULL);
    }
    b = xapool_batch_over(bytes, sizeof bytes);
    CHECK(xapool_put_mark(&b, 64, 1));
    prepares(pool, &b, 6, XAPOOL_DONE, 6, marked);
    for (size_t words = 0; words < 6; words++)
        prepares(pool, &b, words, XAPOOL_REPLY_SPACE, 6, NULL);
    CHECK(xapool_prepare(pool, XAPOOL_WORDS(3), bytes, b.used, NULL, 0).number == 6);
    CHECK(xapool_prepare(pool, XAPOOL_WORDS(3) - 1, NULL, 0, NULL, 0).answer == XAPOOL_POOL_LENGTH);
    CHECK(memcmp(pool, before, sizeof pool) == 0);
    CHECK(xapool_apply(pool, XAPOOL_WORDS(3), marked, 6).answer == XAPOOL_DONE);
    CHECK(xapool_run(before, XAPOOL_WORDS(3), bytes, b.used, replies, sizeof replies).number == 1);
    CHECK(memcmp(pool, before, sizeof pool) == 0);
    b.used--;
    pool[3] = 1;
    prepares(pool, &b, 0, XAPOOL_NOT_WELL_FORMED, 0, NULL);
}

/* What the commands of a batch are answered with. */
static void answers(uint64_t *pool, xapool_batch *b, const uint8_t *wanted)
{
    uint8_t replies[XAPOOL_REPLIES(8)] = { 0 };
    xapool_result r = xapool_run(pool, XAPOOL_WORDS(2), b->bytes, b->used, replies, sizeof replies);
    CHECK(r.answer == XAPOOL_DONE && r.number == b->commands);
    for (size_t i = 0; i < b->commands; i++) {
        xapool_reply reply;
        CHECK(xapool_read_reply(replies, sizeof replies, i, &reply) && reply.answer == wanted[i]);
    }
    b->used = b->commands = 0;
}

/* Indices 5 and 70 together need three nodes, and there are two. */
static void a_reserved_index_is_held_and_absent(void)
{
    static const uint8_t held[] = { 0, 15, 11, 10, 10, 10, 12, 0 };
    static const uint8_t taken[] = { 15, 0, 0, 0, 10 };
    static const uint8_t listed[] = { 32, 0, 18, 0, 0, 0, 0, 0, 0, 0, 5, 0, 0, 0, 0, 0, 0, 0, 0, 0, 0 };
    static uint64_t pool[XAPOOL_WORDS(2)];
    uint8_t bytes[200], list[21] = { 0 };
    xapool_batch b = xapool_batch_over(bytes, sizeof bytes);
    CHECK(xapool_init(pool, XAPOOL_WORDS(2)).answer == XAPOOL_DONE);
    CHECK(xapool_put_reserve(&b, 5));
    CHECK(xapool_put_reserve(&b, 5));
    CHECK(xapool_put_reserve(&b, 70));
    CHECK(xapool_put_load(&b, 5));
    CHECK(xapool_put_mark(&b, 5, 0));
    CHECK(xapool_put_unmark(&b, 5, 0));
    CHECK(xapool_put_find(&b, 0, UINT64_MAX, XAPOOL_FIND_ANY, 100));
    CHECK(xapool_put_reserve(&b, 6));
    answers(pool, &b, held);
    CHECK(pool[XAPOOL_WORDS(0) + XAPOOL_SLOT_FIELD + 5] == XAPOOL_RESERVED_WORD);
    xapool_result r = xapool_list(pool, XAPOOL_WORDS(2), 0, 5, list, sizeof list);
    CHECK(r.answer == XAPOOL_DONE && r.number == 1 && memcmp(list, listed, sizeof list) == 0);
    CHECK(xapool_put_reserve(&b, 6));
    CHECK(xapool_put_store(&b, 5, 0, XAPOOL_VALUE(2)));
    CHECK(xapool_put_load(&b, 5));
    CHECK(xapool_put_erase(&b, 6));
    CHECK(xapool_put_erase(&b, 6));
    answers(pool, &b, taken);
}

/* A reply to a find, and where it goes on; 0 and 'first' unchanged is the end. */
static void next(uint8_t answer, uint64_t index, uint8_t order, uint64_t last, int goes, uint64_t to)
{
    xapool_reply r = { XAPOOL_FIND, answer, order, 0, 1, index, 1 };
    uint64_t first = 7;
    CHECK(xapool_next_first(&r, last, &first) == goes);
    CHECK(!goes || first == to);
    r.tag = XAPOOL_LOAD;
    CHECK(!xapool_next_first(&r, last, &first));
}

static void finds_go_on_after_the_run(void)
{
    next(XAPOOL_DONE, 8, 3, UINT64_MAX, 1, 16);
    next(XAPOOL_DONE, 8, 3, 16, 1, 16);
    next(XAPOOL_DONE, 8, 3, 15, 0, 0);
    next(XAPOOL_DONE, 8, 3, 12, 0, 0);
    next(XAPOOL_DONE, UINT64_MAX, 0, UINT64_MAX, 0, 0);
    next(XAPOOL_DONE, UINT64_MAX - 1, 0, UINT64_MAX, 1, UINT64_MAX);
    next(XAPOOL_DONE, UINT64_C(1) << 63, 63, UINT64_MAX, 0, 0);
    next(XAPOOL_DONE, 0, 63, UINT64_MAX, 1, UINT64_C(1) << 63);
    next(XAPOOL_DONE, 0, 64, UINT64_MAX, 0, 0);
    next(XAPOOL_PAUSED, 64, 0, UINT64_MAX, 1, 64);
    next(XAPOOL_ENDED, 0, 0, UINT64_MAX, 0, 0);
    next(XAPOOL_BAD_MARK, 0, 0, UINT64_MAX, 0, 0);
}

/* A value below 2^63 has its word; any other, also one below 0, has 0. The value is evaluated once. */
static void values_are_not_cut(void)
{
    static const uint64_t words[] = { 1, UINT64_MAX, 0, 0 };
    static const uint64_t values[] = { 0, UINT64_MAX >> 1, UINT64_C(1) << 63, UINT64_MAX };
    uint64_t value = 7;
    int64_t below = -1;
    for (unsigned i = 0; i < 4; i++)
        CHECK(words_of_values[i] == words[i] && XAPOOL_VALUE(values[i]) == words[i] && xapool_value(values[i]) == words[i]);
    CHECK(WORD_OF_2 == 5 && XAPOOL_VALUE(value++) == 15 && value == 8);
    below -= failures < 0; /* no constant */
#ifdef __cplusplus
    CHECK(XAPOOL_VALUE(static_cast<uint64_t>(below)) == 0);
#else
    CHECK(XAPOOL_VALUE((uint64_t)below) == 0);
#endif
}

/* Fields that do not fit are refused with their number: order 259 is not order 3, nor mark 258 mark 2. */
static void fields_are_not_cut(void)
{
    static const uint8_t wanted[] = { 0, 5, 5, 5, 6, 7, 7, 7 };
    static const uint8_t found[] = { 7, 7, 7, 9, 0, 0 };
    static uint64_t pool[XAPOOL_WORDS(2)];
    uint8_t bytes[200];
    xapool_batch b = xapool_batch_over(bytes, sizeof bytes);
    CHECK(xapool_init(pool, XAPOOL_WORDS(2)).answer == XAPOOL_DONE);
    CHECK(xapool_put_store(&b, 8, 3, XAPOOL_VALUE(2)) && xapool_put_store(&b, 16, 259, XAPOOL_VALUE(2)));
    CHECK(xapool_put_store(&b, 16, 64, XAPOOL_VALUE(2)) && xapool_put_store(&b, 0, UINT64_MAX, XAPOOL_VALUE(2)));
    CHECK(xapool_put_store(&b, 16, 0, XAPOOL_VALUE(UINT64_C(1) << 63 | 2)) && xapool_put_mark(&b, 8, 258));
    CHECK(xapool_put_mark(&b, 8, 256) && xapool_put_unmark(&b, 8, UINT64_C(1) << 32));
    answers(pool, &b, wanted);
    CHECK(xapool_put_find(&b, 0, 99, 259, 5) && xapool_put_find(&b, 0, 99, 256, 5) && xapool_put_find(&b, 0, 99, 4, 5));
    CHECK(xapool_put_find(&b, 0, 99, 3, 0) && xapool_put_find(&b, 0, 99, 3, 65536) && xapool_put_find(&b, 0, 99, 3, 70000));
    CHECK(bytes[22 * 5 + 20] == 255 && bytes[22 * 5 + 21] == 255);
    answers(pool, &b, found);
    CHECK(xapool_list(pool, XAPOOL_WORDS(2), 0, UINT64_MAX, NULL, 0).number == 1);
}

/* The largest pool and one node more; the longest batch and one byte more. */
static void limits(void)
{
    static uint64_t pool[XAPOOL_WORDS(XAPOOL_MAX_NODES + 1)];
    static uint8_t bytes[XAPOOL_BATCH_BYTES + 1], replies[XAPOOL_REPLIES(XAPOOL_MAX_COMMANDS)];
    xapool_batch b = xapool_batch_over(bytes, sizeof bytes);
    while (b.room - b.used > 10 * XAPOOL_MARK_BYTES)
        CHECK(xapool_put_load(&b, 0));
    while (xapool_put_mark(&b, 0, 0)) {
    }
    CHECK(XAPOOL_WORDS(XAPOOL_MAX_NODES) == 1146884 && b.used == 32768 && b.commands == XAPOOL_MAX_COMMANDS);
    CHECK(xapool_init(pool, XAPOOL_WORDS(XAPOOL_MAX_NODES + 1)).answer == XAPOOL_POOL_LENGTH);
    CHECK(xapool_init(pool, XAPOOL_WORDS(XAPOOL_MAX_NODES)).answer == XAPOOL_DONE);
    xapool_result r = xapool_run(pool, XAPOOL_WORDS(1), bytes, b.used, replies, sizeof replies);
    CHECK(r.answer == XAPOOL_NOT_WELL_FORMED);
    CHECK(xapool_init(pool, XAPOOL_WORDS(1)).answer == XAPOOL_DONE);
    r = xapool_run(pool, XAPOOL_WORDS(1), bytes, b.used, replies, sizeof replies);
    CHECK(r.answer == XAPOOL_DONE && r.number == XAPOOL_MAX_COMMANDS);
    r = xapool_run(pool, XAPOOL_WORDS(1), bytes, b.used + 1, replies, sizeof replies);
    CHECK(r.answer == XAPOOL_BAD_BATCH && r.number == 32768);
}

/* The words of case 3, and a count that is one too large. */
static void nodes_count_their_slots(void)
{
    uint64_t pool[XAPOOL_WORDS(4)];
    uint8_t bytes[64], replies[XAPOOL_REPLIES(2)] = { 0 };
    static const uint64_t counts[] = { 2, 1, 1, 0 };
    xapool_batch b = xapool_batch_over(bytes, sizeof bytes);
    CHECK(xapool_put_store(&b, 0, 0, 3));
    CHECK(xapool_put_store(&b, 64, 0, 5));
    CHECK(xapool_init(pool, XAPOOL_WORDS(4)).answer == XAPOOL_DONE);
    CHECK(xapool_run(pool, XAPOOL_WORDS(4), bytes, b.used, replies, sizeof replies).number == 2);
    CHECK(XAPOOL_WORDS(4) == 284 && XAPOOL_NODE_WORDS == XAPOOL_SLOT_FIELD + XAPOOL_SLOTS);
    CHECK(pool[XAPOOL_WORDS(0) + XAPOOL_SLOT_FIELD + 1] == 4106 && pool[XAPOOL_WORDS(2) + XAPOOL_SLOT_FIELD] == 5);
    CHECK(pool[XAPOOL_WORDS(0) + XAPOOL_SHIFT_FIELD] == 7 && pool[XAPOOL_WORDS(2) + XAPOOL_OWNER_FIELD] == 2);
    for (unsigned n = 0; n < 4; n++) {
        uint64_t *count = &pool[XAPOOL_WORDS(n) + XAPOOL_COUNT_FIELD];
        CHECK(*count == counts[n] && xapool_check(pool, XAPOOL_WORDS(4)).answer == XAPOOL_DONE);
        ++*count;
        CHECK(xapool_check(pool, XAPOOL_WORDS(4)).answer == XAPOOL_NOT_WELL_FORMED);
        --*count;
    }
}

static void answers_have_texts(void)
{
    for (unsigned a = XAPOOL_DONE; a <= XAPOOL_COVERED; a++)
        CHECK(strcmp(xapool_answer_text(a), xapool_answer_text(16)) != 0);
    for (unsigned a = XAPOOL_BAD_SCRIPT; a <= XAPOOL_PART_ABOVE_TOTAL; a++)
        CHECK(strcmp(xapool_answer_text(a), xapool_answer_text(16)) != 0);
    CHECK(strcmp(xapool_answer_text(XAPOOL_TOO_FEW_NODES), "too few free nodes") == 0);
    CHECK(strcmp(xapool_answer_text(XAPOOL_POOL_LENGTH), "pool length is not 4 + 70 N words, N from 1 to 16384") == 0);
    CHECK(strcmp(xapool_answer_text(UINT64_MAX), xapool_answer_text(16)) == 0);
    CHECK(strcmp(xapool_answer_text(XAPOOL_NO_REPLY), "no reply") == 0 && XAPOOL_NO_REPLY == 255);
    char version[32];
    sprintf(version, "%d.%d.%d", XAPOOL_VERSION_MAJOR, XAPOOL_VERSION_MINOR, XAPOOL_VERSION_PATCH);
    CHECK(strcmp(version, XAPOOL_VERSION) == 0);
}

/* A verdict of zeros that nobody wrote must not read as a match; regions of zeros that were read do match. */
static void verdicts_have_texts(void)
{
    static xapool_comparison nobody_wrote;
    CHECK(nobody_wrote.verdict == XAPOOL_NOTHING_TO_COMPARE && nobody_wrote.verdict != XAPOOL_MATCHED);
    for (unsigned v = XAPOOL_NOTHING_TO_COMPARE; v <= XAPOOL_DIFFERENT; v++)
        CHECK(strcmp(xapool_verdict_text(v), xapool_verdict_text(3)) != 0);
    CHECK(strcmp(xapool_verdict_text(XAPOOL_MATCHED), "matched") == 0);
    CHECK(strcmp(xapool_verdict_text(UINT64_MAX), xapool_verdict_text(3)) == 0);
    uint8_t page[4] = { 1, 2, 3, 4 }, zeros[2][4] = { { 0 } };
    CHECK(xapool_compare(zeros[0], 4, zeros[1], 4).verdict == XAPOOL_MATCHED);
    CHECK(xapool_compare(page, 4, page, 4).verdict == XAPOOL_MATCHED);
    CHECK(xapool_compare(page, 4, page, 3).verdict == XAPOOL_DIFFERENT);
    CHECK(xapool_compare(page, 3, page + 1, 3).verdict == XAPOOL_DIFFERENT);
    CHECK(xapool_compare(page, 0, page, 0).verdict == XAPOOL_NOTHING_TO_COMPARE);
}

static void gives(uint64_t kind, double a, double b, uint32_t part, uint32_t total, uint64_t answer, uint64_t number)
{
    xapool_result r = xapool_gate(kind, a, b, part, total);
    CHECK(r.answer == answer && r.number == number);
}

/* Figures by hand. A result of zeros that nobody wrote reads as a fail. */
static void gates_are_as_said(void)
{
    static xapool_result nobody_wrote;
    volatile double large = 1e308, infinite = large * 10;
    /* The float nearest a third, and its neighbours: each is a whole number by a power of 2. */
    const double minus_nought = -0.0, third = 6004799503160661.0 / 18014398509481984.0;
    const double above = 3002399751580331.0 / 9007199254740992.0, below = 1501199875790165.0 / 4503599627370496.0;
    CHECK(nobody_wrote.answer == XAPOOL_DONE && nobody_wrote.number == 0);
    CHECK(xapool_floats_are_ieee());
    gives(XAPOOL_MATCHED_AT_LEAST, 0, 2, 0, 1, XAPOOL_DONE, 1);
    gives(XAPOOL_MATCHED_AT_LEAST, 1, 0, 1, 1, XAPOOL_DONE, 1);
    gives(XAPOOL_MATCHED_AT_LEAST, third, 0, 1, 3, XAPOOL_DONE, 1);
    gives(XAPOOL_MATCHED_AT_LEAST, above, 0, 1, 3, XAPOOL_DONE, 0);
    gives(XAPOOL_UNREAD_AT_MOST, 2, third, 1, 3, XAPOOL_DONE, 1);
    gives(XAPOOL_UNREAD_AT_MOST, 2, below, 1, 3, XAPOOL_DONE, 0);
    gives(XAPOOL_MATCHED_BETWEEN, third, third, 1, 3, XAPOOL_DONE, 1);
    gives(XAPOOL_MATCHED_AT_LEAST, 1, 0, UINT32_MAX - 1, UINT32_MAX, XAPOOL_DONE, 0);
    gives(XAPOOL_MATCHED_AT_LEAST, 1, 0, UINT32_MAX, UINT32_MAX, XAPOOL_DONE, 1);
    gives(XAPOOL_UNREAD_AT_MOST, 0, minus_nought, 0, 1, XAPOOL_DONE, 1);
    gives(XAPOOL_MATCHED_AT_LEAST, -4.9406564584124654e-324, 0, 1, 1, XAPOOL_BAD_GATE, 0);
    gives(XAPOOL_MATCHED_AT_LEAST, 4503599627370497.0 / 4503599627370496.0, 0, 1, 1, XAPOOL_BAD_GATE, 0);
    gives(XAPOOL_MATCHED_AT_LEAST, infinite, 0, 1, 1, XAPOOL_BAD_GATE, 0);
    gives(XAPOOL_MATCHED_AT_LEAST, infinite - infinite, 0, 0, 0, XAPOOL_BAD_GATE, 0);
    gives(XAPOOL_MATCHED_BETWEEN, 0.5, 0.25, 2, 1, XAPOOL_BAD_GATE, 0);
    gives(0, 0, 1, 1, 1, XAPOOL_BAD_GATE, 0);
    gives(XAPOOL_MATCHED_AT_LEAST + (UINT64_C(1) << 32), 0, 1, 1, 1, XAPOOL_BAD_GATE, 0);
    gives(XAPOOL_MATCHED_AT_LEAST, 0, 0, 0, 0, XAPOOL_NO_TOTAL, 0);
    gives(XAPOOL_UNREAD_AT_MOST, 0, 1, 1, 0, XAPOOL_NO_TOTAL, 0);
    gives(XAPOOL_MATCHED_AT_LEAST, 0, 0, 2, 1, XAPOOL_PART_ABOVE_TOTAL, 0);
}

static void null_with_length_0_is_fine(void)
{
    static uint64_t pool[XAPOOL_WORDS(1)];
    CHECK(xapool_init(NULL, 0).answer == XAPOOL_POOL_LENGTH);
    CHECK(xapool_check(NULL, 0).answer == XAPOOL_POOL_LENGTH);
    CHECK(xapool_run(NULL, 0, NULL, 0, NULL, 0).answer == XAPOOL_POOL_LENGTH);
    CHECK(xapool_prepare(NULL, 0, NULL, 0, NULL, 0).answer == XAPOOL_POOL_LENGTH);
    CHECK(xapool_apply(NULL, 0, NULL, 0).answer == XAPOOL_POOL_LENGTH);
    CHECK(xapool_count(NULL, 0).answer == XAPOOL_DONE);
    CHECK(xapool_crc32c(7, NULL, 0) == 7);
    CHECK(xapool_compare(NULL, 0, NULL, 0).verdict == XAPOOL_NOTHING_TO_COMPARE);
    CHECK(xapool_evidence(NULL, 0, NULL, 0, 7).answer == XAPOOL_ABSENT);
    CHECK(xaplain_init(NULL, 0, NULL, 0, NULL, 0, NULL, 0).answer == XAPOOL_DONE);
    CHECK(xaplain_check(NULL, 0, NULL, 0, NULL, 0, NULL, 0).answer == XAPOOL_DONE);
    CHECK(xaplain_run(NULL, 0, NULL, 0, NULL, 0, NULL, 0, NULL, 0, NULL, 0).answer == XAPOOL_DONE);
    CHECK(xapool_init(pool, XAPOOL_WORDS(1)).answer == XAPOOL_DONE);
    CHECK(xapool_run(pool, XAPOOL_WORDS(1), NULL, 0, NULL, 0).answer == XAPOOL_DONE);
    CHECK(xapool_prepare(pool, XAPOOL_WORDS(1), NULL, 0, NULL, 0).answer == XAPOOL_BAD_BATCH);
    CHECK(xapool_apply(pool, XAPOOL_WORDS(1), NULL, 0).answer == XAPOOL_DONE);
}

/* Batch, reply and list at every alignment; nothing past replies and list is written. */
static void bytes_may_begin_anywhere(void)
{
    static uint64_t pool[XAPOOL_WORDS(3)];
    for (unsigned at = 0; at < 16; at++) {
        uint8_t bytes[64], replies[80];
        memset(replies, 0xee, sizeof replies);
        xapool_batch b = xapool_batch_over(bytes + at, 40);
        CHECK(xapool_put_store(&b, 64, 0, XAPOOL_VALUE(2)));
        CHECK(xapool_put_load(&b, 64));
        CHECK(xapool_init(pool, XAPOOL_WORDS(3)).answer == XAPOOL_DONE);
        xapool_result r = xapool_run(pool, XAPOOL_WORDS(3), b.bytes, b.used, replies + at, 48);
        xapool_reply load;
        CHECK(r.answer == XAPOOL_DONE && xapool_read_reply(replies + at, 48, 1, &load) && load.entry == 5);
        for (unsigned i = 0; i < sizeof replies; i++)
            CHECK((i >= at && i < at + 48) || replies[i] == 0xee);
        memset(replies, 0xee, sizeof replies);
        xapool_listed e;
        r = xapool_list(pool, XAPOOL_WORDS(3), 64, 64, replies + at, 48);
        CHECK(r.answer == XAPOOL_DONE && xapool_read_listed(replies + at, 48, 0, &e) && e.index == 64 && e.entry == 5);
        for (unsigned i = 0; i < sizeof replies; i++)
            CHECK((i >= at && i < at + 21) || replies[i] == 0xee);
    }
}

/* The limits of the plain engine's slices, and that its list is what the header says. */
static void plain_slices_are_as_said(void)
{
    static uint64_t s[4][XAPLAIN_ENTRIES_MAX + 1];
    static const uint64_t wanted[4][2] = { { 7, 64 }, { 0, 3 }, { XAPOOL_RESERVED_WORD, 5 }, { 0, 2 } };
    uint8_t bytes[64], replies[XAPOOL_REPLIES(3)] = { 0 };
    const size_t n = XAPLAIN_ENTRIES_MAX;
    memset(s, 0xee, sizeof s);
    CHECK(n == 4096 && xaplain_init(s[0], n + 1, s[1], n + 1, s[2], n + 1, s[3], n + 1).answer == XAPOOL_POOL_LENGTH);
    CHECK(xaplain_init(s[0], n, s[1], n, s[2], n - 1, s[3], n).answer == XAPOOL_POOL_LENGTH);
    CHECK(s[0][0] != 0 && s[3][n - 1] != 0);
    CHECK(xaplain_check(s[0], n, s[1], n, s[2], n, s[3], n).answer == XAPOOL_NOT_WELL_FORMED);
    xapool_result r = xaplain_init(s[0], n, s[1], n, s[2], n, s[3], n);
    CHECK(r.answer == XAPOOL_DONE && r.number == 0 && s[3][n - 1] == 0 && s[3][n] != 0);
    xapool_batch b = xapool_batch_over(bytes, sizeof bytes);
    CHECK(xapool_put_store(&b, 64, 3, XAPOOL_VALUE(2)) && xapool_put_reserve(&b, 7) && xapool_put_mark(&b, 71, 1));
    r = xaplain_run(s[0], n, s[1], n, s[2], n, s[3], n, bytes, b.used, replies, sizeof replies - 1);
    CHECK(r.answer == XAPOOL_REPLY_SPACE && r.number == 3 && s[2][0] == 0);
    r = xaplain_run(s[0], n, s[1], n, s[2], n, s[3], n, bytes, b.used - 1, replies, sizeof replies);
    CHECK(r.answer == XAPOOL_BAD_BATCH && r.number == 31 && s[2][0] == 0);
    r = xaplain_run(s[0], n, s[1], n, s[2], n, s[3], n, bytes, b.used, replies, sizeof replies);
    CHECK(r.answer == XAPOOL_DONE && r.number == 3);
    for (unsigned field = 0; field < 4; field++)
        CHECK(memcmp(s[field], wanted[field], sizeof wanted[field]) == 0 && s[field][2] == 0 && s[field][n - 1] == 0);
    CHECK(xaplain_check(s[0], n, s[1], n, s[2], n, s[3], n).answer == XAPOOL_DONE);
    s[3][0] = 1; /* a reservation has no mark */
    CHECK(xaplain_check(s[0], n, s[1], n, s[2], n, s[3], n).answer == XAPOOL_NOT_WELL_FORMED);
}

/* What a pool of names shows of one key, and of the calls on it. */
static void looks_up(const uint64_t *pool, size_t words, const char *key, size_t bytes, uint64_t answer, uint64_t object)
{
    uint8_t copy[ASSOC_KEY_MAX + 2];
    CHECK(bytes < sizeof copy);
    memcpy(copy + 1, key, bytes); /* a key may begin anywhere */
    assoc_result r = assoc_lookup(pool, words, copy + 1, bytes);
    CHECK(r.answer == answer && r.number == object);
}

/* By R344, R347 and R352 to R358: two keys are two leaves under the root, a node of tier 66 whose base is 0. The number of
 * "a" has 1 (its length) and 0x61 as its two highest bytes of 33, so they are the lowest byte of the fifth word and the
 * highest of the fourth. */
static void put_two_names(uint64_t *pool)
{
    uint64_t *root = pool + ASSOC_WORDS(0), *leaf = pool + ASSOC_WORDS(1), *last = pool + ASSOC_WORDS(2);
    memset(pool, 0, 8 * ASSOC_WORDS(3));
    pool[0] = 3;
    pool[1] = 1;
    root[ASSOC_TIER_FIELD] = 67;
    root[ASSOC_VALUE_FIELD] = 2;
    root[ASSOC_SLOT_FIELD] = 2;
    root[ASSOC_SLOT_FIELD + 1] = 3;
    leaf[ASSOC_TIER_FIELD] = last[ASSOC_TIER_FIELD] = 1;
    leaf[ASSOC_VALUE_FIELD] = XAPOOL_VALUE(7);
    leaf[ASSOC_BASE_FIELD + 3] = UINT64_C(0x6100000000000000);
    leaf[ASSOC_BASE_FIELD + 4] = 1;
    last[ASSOC_VALUE_FIELD] = 0x1000; /* a handle */
    last[ASSOC_BASE_FIELD + 3] = UINT64_C(0x6100000000000000); /* "a\0": longer, so it comes after "a" */
    last[ASSOC_BASE_FIELD + 4] = 2;
}

static void names_are_as_said(void)
{
    static const char long_key[] = "123456789012345678901234567890123";
    const size_t n = ASSOC_WORDS(3);
    static uint64_t pool[ASSOC_WORDS(3)], before[ASSOC_WORDS(3)];
    CHECK(ASSOC_WORDS(1) == 26 && ASSOC_SLOT_FIELD + ASSOC_SLOTS == ASSOC_BLOCK_WORDS && sizeof long_key == 34);
    CHECK(ASSOC_BASE_FIELD + ASSOC_BASE_WORDS == ASSOC_SLOT_FIELD);
    put_two_names(pool);
    memcpy(before, pool, sizeof pool);
    CHECK(assoc_check(pool, n).answer == XAPOOL_DONE && assoc_check(pool, n).number == 0);
    looks_up(pool, n, "a", 1, XAPOOL_DONE, 15);
    looks_up(pool, n, "a\0", 2, XAPOOL_DONE, 0x1000);
    looks_up(pool, n, "a\0\0", 3, XAPOOL_ABSENT, 0);
    looks_up(pool, n, "b", 1, XAPOOL_ABSENT, 0);
    looks_up(pool, n, long_key, 32, XAPOOL_ABSENT, 0);
    looks_up(pool, n, long_key, 33, XAPOOL_BAD_KEY, 0);
    looks_up(pool, n, "", 0, XAPOOL_BAD_KEY, 0);
    looks_up(pool, n - 1, "", 0, XAPOOL_POOL_LENGTH, 0);
    CHECK(assoc_clear(pool, n - 1).answer == XAPOOL_POOL_LENGTH && memcmp(pool, before, sizeof pool) == 0);
    pool[ASSOC_WORDS(0) + ASSOC_VALUE_FIELD] = 3;
    CHECK(assoc_check(pool, n).answer == XAPOOL_NOT_WELL_FORMED && assoc_check(pool, n).number == 0);
    looks_up(pool, n, "", 0, XAPOOL_NOT_WELL_FORMED, 0);
    memset(pool, 0xee, sizeof pool);
    CHECK(assoc_clear(pool, n).answer == XAPOOL_DONE && assoc_clear(pool, n).number == 0 && pool[0] == 3);
    for (size_t i = 1; i < n; i++)
        CHECK(pool[i] == 0);
    looks_up(pool, n, "a", 1, XAPOOL_ABSENT, 0);
    CHECK(assoc_lookup(pool, n, NULL, 0).answer == XAPOOL_BAD_KEY);
    CHECK(assoc_clear(NULL, 0).answer == XAPOOL_POOL_LENGTH && assoc_check(NULL, 0).answer == XAPOOL_POOL_LENGTH);
    CHECK(assoc_lookup(NULL, 0, NULL, 0).answer == XAPOOL_POOL_LENGTH);
}

static void answers_of_names_have_texts(void)
{
    static const char length[] = "pool of names: length is not 2 + 24 N words, N from 1 to 16384";
    CHECK(strcmp(assoc_answer_text(XAPOOL_POOL_LENGTH), length) == 0);
    CHECK(strcmp(assoc_answer_text(XAPOOL_NOT_WELL_FORMED), "pool of names is not well-formed") == 0);
    CHECK(strcmp(assoc_answer_text(XAPOOL_ABSENT), "no such key") == 0);
    CHECK(strcmp(assoc_answer_text(XAPOOL_BAD_KEY), "key has no byte, or more than 32") == 0 && XAPOOL_BAD_KEY == 16);
    CHECK(strcmp(assoc_answer_text(XAPOOL_DONE), "done") == 0);
}

int main(void)
{
    builders_look_at_the_room();
    records_are_those_of_the_document();
    replies_are_read_or_not();
    listed_entries_are_read_or_not();
    marks_alone_match_nothing();
    lists_are_looked_at_as_a_whole();
    values_are_not_cut();
    fields_are_not_cut();
    a_list_is_whole_or_not_at_all();
    a_script_is_whole_or_not_at_all();
    a_reserved_index_is_held_and_absent();
    finds_go_on_after_the_run();
    nodes_count_their_slots();
    limits();
    answers_have_texts();
    verdicts_have_texts();
    gates_are_as_said();
    plain_slices_are_as_said();
    names_are_as_said();
    answers_of_names_have_texts();
    null_with_length_0_is_fine();
    bytes_may_begin_anywhere();
    puts(failures ? "some do not hold" : "all hold");
    return failures != 0;
}
