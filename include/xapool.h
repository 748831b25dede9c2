/* xapool.h: entries kept by 64-bit index in a pool of words that the host lends, or by a plain
 * second engine in four slices of words; and digests and comparisons of regions of bytes, texts of
 * evidence looked up in two sheets, gates over counts, and commands cut in two for power cuts.
 *
 * The library has no memory of its own and keeps nothing between two calls: all state is in the
 * pool. A pool may be moved, saved and loaded: it has no addresses in it.
 *
 * The word of an entry has 64 bits: it is odd (2v + 1 for the value v), or a multiple of 4 other than
 * 0 (a handle, which is not followed). An entry of order k, 0 to 63, covers 2^k indices; its base is a
 * multiple of 2^k. It has three marks, together a byte: mark m is worth 2^m. A single index may also
 * be reserved, before there is anything to store: it then has its place in the tree and no entry.
 *
 * What a host must know:
 *
 * Platform   x86-64 Linux. libxapool.a is position-independent, so it can go into a shared library;
 *            of other libraries it needs memset alone. It never allocates.
 * Alignment  a pool and a script begin at a multiple of 8, as any array of uint64_t does, and so does each
 *            slice of the plain engine. Batch, reply, list and regions and sheets may begin anywhere.
 * Memory     all that is lent must have been written before, the space for replies and lists too: static,
 *            calloc, or = { 0 }.
 * NULL       with length 0 any pointer may be NULL: an empty batch, no reply space, no space for a
 *            list or a script, empty regions, empty sheets and an empty script are fine, a pool of no words
 *            is refused with 1. Four
 *            slices of length 0 are fine: they have room for no entry.
 * Stack      a call needs less than 8 KiB of it, whatever the pool holds; xapool_crc32c and
 *            xapool_compare, which keep tables there, less than 16 KiB, and xapool_prepare less than 24 KiB.
 * Threads    calls on different pools may run at the same time. Two calls at the same time must not
 *            share a pool, not even for finds, unless both are xapool_check, xapool_list or xapool_prepare,
 *            which only read it; nor slices, unless both are xaplain_check. No two buffers of one call may overlap, but for the two regions of
 *            xapool_compare and the two sheets of xapool_evidence, which are only read.
 * Time       each run and each list checks the whole pool first, so many commands in one batch are
 *            far cheaper than one command in each of many. All else follows what is asked: a list
 *            takes its time for the entries and nodes of its range, not for those of the pool.
 * Floats     xapool_gate alone has any. It is proved for floats as IEEE 754 has them: rounded to nearest,
 *            subnormals kept. Where fesetround or -ffast-math (at the link, too) set the thread to
 *            something else, its answer is worth nothing: ask xapool_floats_are_ieee first.
 * Power cut  a run writes word by word and is not atomic: a pool in a mapped file that loses power
 *            in mid-run may be lost. Where that matters, run on a copy and put the copy in place
 *            when it is on disk, as the tool 'xabatch run' does; or have xapool_prepare make a script of
 *            the words that change, keep it on disk, and have xapool_apply write them: cut anywhere, it is
 *            called again.
 */
#ifndef XAPOOL_H
#define XAPOOL_H

#include <stddef.h>
#include <stdint.h>

/* On every function here that gives something: gcc and clang warn where it is dropped. A command that was
 * not put, a call that was refused and a reply that is not there are told in no other way. */
#if defined(__GNUC__) || defined(__clang__)
#define XAPOOL_MUST_USE __attribute__((warn_unused_result))
#else
#define XAPOOL_MUST_USE
#endif

#ifdef __cplusplus
extern "C" {
#endif

/* ---- Version ---- */

#define XAPOOL_VERSION_MAJOR 0
#define XAPOOL_VERSION_MINOR 3
#define XAPOOL_VERSION_PATCH 0
#define XAPOOL_VERSION "0.3.0"

/* ---- Limits ---- */

#define XAPOOL_ANCHOR_WORDS 4     /* word 0: N; 1: the head; 2: the marks; 3: zero */
#define XAPOOL_NODE_WORDS 70      /* the words of a node, below */
#define XAPOOL_MIN_NODES 1
#define XAPOOL_MAX_NODES 16384
#define XAPOOL_BATCH_BYTES 32768  /* a batch has at most so many bytes */
#define XAPOOL_PROGRAM_BYTES 8192 /* and so many if it is for the program tamburish */
#define XAPOOL_REPLY_BYTES 24     /* each command's reply has exactly so many */
#define XAPOOL_LISTED_BYTES 21    /* each entry of a list has exactly so many */
#define XAPOOL_REFUSAL_BYTES 6    /* a refused call, as the program tamburish writes it */
#define XAPOOL_MAX_COMMANDS 2978  /* no batch has more: the shortest record has 11 bytes */
#define XAPOOL_MAX_ORDER 63
#define XAPOOL_MARKS 3

/* The words of a pool of n nodes, n from 1 to XAPOOL_MAX_NODES. One node is enough for entries at indices 0
 * to 63; a store needs at most 21 new nodes (proved: needed_most, crates/tree/proofs/MostLaws.antt). */
#define XAPOOL_WORDS(n) (XAPOOL_ANCHOR_WORDS + XAPOOL_NODE_WORDS * (n))

/* The words of a node, for who inspects a raw pool. Node n, 0 to N - 1, begins at word
 * XAPOOL_WORDS(n); a node that is free is all 0. */
#define XAPOOL_SHIFT_FIELD 0 /* shift + 1 */
#define XAPOOL_OWNER_FIELD 1 /* 0 in the head, else 1 + 64 * parent + slot */
#define XAPOOL_COUNT_FIELD 2 /* how many of its slots are not 0 */
#define XAPOOL_MARK_FIELD 3  /* a word for each mark, bit j for slot j */
#define XAPOOL_SLOT_FIELD 6  /* its slots */
#define XAPOOL_SLOTS 64

/* The plain engine's slices have at most so many elements each, one for each entry. */
#define XAPLAIN_ENTRIES_MAX 4096

/* The bytes of the replies to c commands. */
#define XAPOOL_REPLIES(c) (XAPOOL_REPLY_BYTES * (c))

/* The bytes of a list of n entries. */
#define XAPOOL_LISTING(n) (XAPOOL_LISTED_BYTES * (n))

/* What a reserved index has in the pool, as its slot's word or as the head, and as its word in the plain
 * engine's slices. No store takes it, and
 * replies and lists have 0 in its place. */
#define XAPOOL_RESERVED_WORD 1030

/* The mark that says 'matched', the only one that a store clears. It is not the verdict XAPOOL_MATCHED. */
#define XAPOOL_MATCHED_MARK 2

/* The word of value v, v from 0 to 2^63 - 1. Of any other, also of one below 0, it is 0, which a store
 * refuses with 6: no bit is cut. It is constant where v is. (Compilers other than gcc and clang
 * evaluate v twice.) */
#define XAPOOL_VALUE_OR_0(v) ((UINT64_C(0) + (v)) >> 63 == 0 ? UINT64_C(2) * (v) + 1 : UINT64_C(0))
#if defined(__GNUC__) || defined(__clang__)
#define XAPOOL_VALUE(v) (__builtin_constant_p(v) ? XAPOOL_VALUE_OR_0(v) : xapool_value(v))
#else
#define XAPOOL_VALUE(v) XAPOOL_VALUE_OR_0(v)
#endif

XAPOOL_MUST_USE
static inline uint64_t xapool_value(uint64_t v)
{
    return XAPOOL_VALUE_OR_0(v);
}

/* The value of an odd word. */
#define XAPOOL_VALUE_OF(word) ((word) / 2)

/* ---- Answers ----
 *
 * 0 to 4 are the answer of a call, of xapool_list also 8, 0, 3 or 10 of xapool_evidence, 0 to 7, 10, 11,
 * 14 or 15 of xapool_prepare, 0, 1 or 17 of xapool_apply, and 0 or 18 to 20 of xapool_gate. All but 0 refuse
 * it: nothing ran, and pool, reply and list bytes are as they were, so the reply bytes may still hold the replies to an earlier batch, which
 * read as done: look at the call's answer first. 0 and 5 to 15 are the answer in
 * one command's reply; whatever it is, the next command runs, on a pool without what was refused. Where
 * several apply, the lowest is given, but 14 before 6, 15 before 11, a list is refused with 8 before
 * it is with 4, and xapool_prepare gives 4 last. */
enum xapool_answer {
    XAPOOL_DONE = 0,             /* call: done, number: commands run, or entries listed. reply: done */
    XAPOOL_POOL_LENGTH = 1,      /* pool_words is not XAPOOL_WORDS(N) with N from 1 to XAPOOL_MAX_NODES; number 0.
                                    plain: slices of unequal length, or above XAPLAIN_ENTRIES_MAX */
    XAPOOL_NOT_WELL_FORMED = 2,  /* the words are not those of a pool (never initialised, or damaged); number 0.
                                    plain: the slices do not hold a list and then zeros */
    XAPOOL_BAD_BATCH = 3,        /* a record is cut off, or its tag or length is none; number: the place of
                                    its first byte. Over XAPOOL_BATCH_BYTES: that many.
                                    evidence: a sheet is malformed. prepare: the bytes are not one record of
                                    a command that changes the pool; number 0 */
    XAPOOL_REPLY_SPACE = 4,      /* run: reply_bytes is under 24 a command; number: commands.
                                    list: buffer_bytes is under 21 an entry; number: entries.
                                    prepare: script_words is under the script's; number: its words */
    XAPOOL_BAD_ORDER = 5,        /* store: the order is above 63 */
    XAPOOL_BAD_ENTRY = 6,        /* store: the entry is 0 or ends in binary 10 */
    XAPOOL_BAD_MARK = 7,         /* mark, unmark: above 2. find: filter above 3 */
    XAPOOL_FIRST_ABOVE_LAST = 8, /* find: first is above last. Call, list: the same; number 0 */
    XAPOOL_NO_BUDGET = 9,        /* find: budget 0 */
    XAPOOL_ABSENT = 10,          /* load, mark, unmark: no entry covers the index. erase: nor is it reserved.
                                    evidence: neither sheet names the index */
    XAPOOL_TOO_FEW_NODES = 11,   /* store, reserve: it needs more nodes than are free; nothing is changed.
                                    plain: the new list would have more entries than room */
    XAPOOL_ENDED = 12,           /* find: nothing more to find */
    XAPOOL_PAUSED = 13,          /* find: the budget is used up; index: where to go on */
    XAPOOL_NOT_ALIGNED = 14,     /* store: the index is not a multiple of 2^order */
    XAPOOL_COVERED = 15,         /* reserve: an entry covers the index, or it is reserved already */
    XAPOOL_BAD_KEY = 16,         /* names (assoc.h): the key has no byte, or more than 32; number 0 */
    XAPOOL_BAD_SCRIPT = 17,      /* apply: a place is outside the pool, or the last pair is half; number 0 */
    XAPOOL_BAD_GATE = 18,        /* gate: a limit is no number from 0 to 1, or the first is above the second;
                                    or there is no such kind; number 0 */
    XAPOOL_NO_TOTAL = 19,        /* gate: the total is 0, of which nothing passes; number 0 */
    XAPOOL_PART_ABOVE_TOTAL = 20, /* gate: the part is above the total; number 0 */
    XAPOOL_NO_REPLY = 255        /* no answer of the library: xapool_read_reply found no reply */
};

/* ---- Batches ----
 *
 * A batch is a row of records: a tag (1 byte), the length of its fields (2 bytes), the fields.
 * All numbers are big-endian. An empty batch is a batch.
 *
 *   tag  command  length  fields
 *   1    store    17      index (8 bytes), order (1), entry (8)
 *   2    load      8      index (8)
 *   3    erase     8      index (8)
 *   4    mark      9      index (8), mark (1)
 *   5    unmark    9      index (8), mark (1)
 *   6    find     19      first (8), last (8), and then filter (1), budget (2)
 *   7    reserve   8      index (8)
 *
 * store: one entry over the 2^order indices from index on, which is a multiple of 2^order, in place
 *   of all that lay there; it has marks 0 and 1 of what it replaces. Where an entry of that order or
 *   more covers them, that entry takes the word and keeps marks 0 and 1. Mark 2 ('matched') is clear
 *   after every store, also of the same word.
 * erase, mark, unmark: the whole entry that covers index. An erase also ends a reservation. A mark on
 *   a run is the whole run's, and every index of it loads with it: before mark 2 is set, all of the run
 *   must have been compared.
 * find: the first entry that meets first..last, in index order; filter 0, 1, 2: with that mark,
 *   3: any. It goes at most budget steps. Paused (13) is not ended (12): what comes after was not looked
 *   at. And ended says that there is no entry with the mark, not that there is one without it: an index
 *   that was never stored is not found by any filter.
 * reserve: holds this one index, with the nodes that a store of order 0 there needs. Loads, finds,
 *   marks and unmarks take it for an index without an entry. A store over it, of any order, takes
 *   its place. */
enum xapool_tag {
    XAPOOL_STORE = 1,
    XAPOOL_LOAD = 2,
    XAPOOL_ERASE = 3,
    XAPOOL_MARK = 4,
    XAPOOL_UNMARK = 5,
    XAPOOL_FIND = 6,
    XAPOOL_RESERVE = 7,
    XAPOOL_LISTED = 32,  /* xapool_list only: an entry, or a reserved index */
    XAPOOL_REPLY = 128,  /* a reply's tag is its command's plus this */
    XAPOOL_REFUSAL = 255 /* tamburish only: length 3, then answer 1, number 2 */
};

#define XAPOOL_FIND_ANY 3 /* the filter that takes any entry */

/* The bytes of each record, tag and length included. */
#define XAPOOL_STORE_BYTES 20
#define XAPOOL_LOAD_BYTES 11
#define XAPOOL_ERASE_BYTES 11
#define XAPOOL_MARK_BYTES 12
#define XAPOOL_UNMARK_BYTES 12
#define XAPOOL_FIND_BYTES 22
#define XAPOOL_RESERVE_BYTES 11

/* ---- Replies ----
 *
 * One reply of 24 bytes for each command, in order:
 *
 *   place 0  tag + 128     1 byte
 *         1  length 21     2
 *         3  answer        1
 *         4  index         8   the entry's base; with 13 where to go on
 *        12  order         1
 *        13  entry         8
 *        21  marks         1
 *        22  count         2   load: nodes over the index (also with 10); find: steps
 *
 * store, load, mark and unmark give the entry over the index after the command, find the one that it
 * found, erase the one that it removed. What a command does not give is zero: reserve, and an erase of
 * a reserved index, give that index and no entry. */
#define XAPOOL_AT_ANSWER 3
#define XAPOOL_AT_INDEX 4
#define XAPOOL_AT_ORDER 12
#define XAPOOL_AT_ENTRY 13
#define XAPOOL_AT_MARKS 21
#define XAPOOL_AT_COUNT 22

/* ---- Lists ----
 *
 * xapool_list writes 21 bytes for each entry and for each reserved index, in index order:
 *
 *   place 0  tag 32        1 byte
 *         1  length 18     2
 *         3  index         8   the entry's base, also where that lies before the range
 *        11  order         1
 *        12  entry         8   0: the index is reserved
 *        20  marks         1 */
#define XAPOOL_LISTED_AT_INDEX 3
#define XAPOOL_LISTED_AT_ORDER 11
#define XAPOOL_LISTED_AT_ENTRY 12
#define XAPOOL_LISTED_AT_MARKS 20

/* ---- Calls ---- */

typedef struct xapool_result {
    uint64_t answer; /* enum xapool_answer, 0 to 4; of xapool_list also 8, of xapool_prepare the command's own, of
                        xapool_apply 17, of a gate 18 to 20 */
    uint64_t number; /* see there */
} xapool_result;

/* Makes the words an empty pool, whatever stood there. Gives 0 or 1. */
XAPOOL_MUST_USE
xapool_result xapool_init(uint64_t *pool, size_t pool_words);

/* Whether the words are those of a pool. Gives 0, 1 or 2. */
XAPOOL_MUST_USE
xapool_result xapool_check(const uint64_t *pool, size_t pool_words);

/* Runs a batch. It checks the pool first, so words from anywhere may be given. With answer 0 the
 * first 24 * number bytes of reply hold the replies; bytes past them stay as they were, and with any
 * other answer all of them do. */
XAPOOL_MUST_USE
xapool_result xapool_run(uint64_t *pool, size_t pool_words,
                         const uint8_t *batch, size_t batch_bytes,
                         uint8_t *reply, size_t reply_bytes);

/* How many commands a batch has, by itself: 0 and their number, or 3 and the place of its first bad
 * record, as a run would say. It looks at no pool. */
XAPOOL_MUST_USE
xapool_result xapool_count(const uint8_t *batch, size_t batch_bytes);

/* Lists every entry that covers an index of first to last, both included, and every reserved index
 * among them, in index order and each once; an entry that begins before first or ends after last is
 * listed whole. It checks the pool first and only reads it. With answer 0 the first 21 * number bytes of
 * buffer hold the list; bytes past them stay as they were. Gives 0, or 1, 2, 8, 4 in this order, and then
 * no byte is written: with no buffer (NULL, 0) and answer 4 the number says how many entries there are
 * to make room for. */
XAPOOL_MUST_USE
xapool_result xapool_list(const uint64_t *pool, size_t pool_words,
                          uint64_t first, uint64_t last,
                          uint8_t *buffer, size_t buffer_bytes);

/* ---- The plain engine ----
 *
 * The same batches and replies on a list that can be read at a glance: the entries in index order, one place for
 * each in four slices of equal length, 0 to XAPLAIN_ENTRIES_MAX, and then zeros.
 *
 *   index   its base
 *   order   0 to 63
 *   word    its word; XAPOOL_RESERVED_WORD for a reserved index, whose order and marks are 0
 *   marks   0 to 7
 *
 * The room is that length: a store or a reserve that would leave more entries has answer 11, and no other has. Replies
 * to load and find have count 0, and no find pauses: a budget of 0 is refused with 9, any other is as good as
 * another. Every other byte of a reply is the one that xapool_run gives on a pool that ran the same batches from
 * empty, until a reply of either says 11 or 13 (proved). Its time grows with the entries: a store moves those
 * behind it. There is no list call: the slices are the list. */

/* Makes the slices an empty list, all zeros, whatever stood there. Gives 0, or 1 (the lengths are not equal, or
 * above XAPLAIN_ENTRIES_MAX), and then nothing is written. The number is 0. */
XAPOOL_MUST_USE
xapool_result xaplain_init(uint64_t *index, size_t index_words,
                           uint64_t *order, size_t order_words,
                           uint64_t *word, size_t word_words,
                           uint64_t *marks, size_t marks_words);

/* Whether the slices hold a list and then zeros. Gives 0, 1 as above, or 2: an entry is none, out of order or
 * overlaps the one before it, or something stands behind the list. The number is 0. */
XAPOOL_MUST_USE
xapool_result xaplain_check(const uint64_t *index, size_t index_words,
                            const uint64_t *order, size_t order_words,
                            const uint64_t *word, size_t word_words,
                            const uint64_t *marks, size_t marks_words);

/* Runs a batch. It checks the slices first, so words from anywhere may be given: 1 and 2 as above, 3 and 4
 * as xapool_run's; with any of them slices and reply bytes are as they were. */
XAPOOL_MUST_USE
xapool_result xaplain_run(uint64_t *index, size_t index_words,
                          uint64_t *order, size_t order_words,
                          uint64_t *word, size_t word_words,
                          uint64_t *marks, size_t marks_words,
                          const uint8_t *batch, size_t batch_bytes,
                          uint8_t *reply, size_t reply_bytes);

/* ---- Scripts ----
 *
 * A command that changes the pool (store, erase, mark, unmark or reserve) in two halves: preparing it writes
 * nothing in the pool and gives a script, applying the script does what the command does. A script is the
 * words that change: pairs of a word's place in the pool, from 0, and its new value, one after the other, by
 * rising place. Applying it to the pool that it was prepared from gives the words that xapool_run of the one
 * record leaves; and so it does whatever came of an apply before, which was cut after any number of its writes,
 * any number of times, in whatever order they reached the storage. A host must see to two things, which no call
 * can tell:
 *
 * - no word is ever written in part (true of an aligned store of 8 bytes to memory; of a storage its maker
 *   must say it);
 * - the script is as it was, and nothing but this script was written in the pool since it was prepared from
 *   it: keep the script on storage of its own, with a digest, before the first apply, and forget it only once
 *   the pool's words are on their storage.
 *
 * A pool where an apply was cut is not well-formed, as a rule: until one has ended, apply again and call
 * nothing else on it. */

#define XAPOOL_PAIR_WORDS 2

/* The script of one command, given as its record as in a batch, for this pool, which is only read. It checks the
 * pool first. Gives 0 and the words of the script, which are the first of the slice; the rest of it stays as it
 * was, and with any other answer all of it does. Refused, in this order: 1; 2; 3, the bytes are not exactly
 * one whole record of a command that changes the pool (a load and a find do not); what the command itself would
 * be answered: 5, 14 or 6 of a store, 7 of a mark or an unmark, 10 of those and of an erase, 15 of a reserve, 11
 * of a store or a reserve; 4, the slice is too small. The number is the script's words with 0 and with 4, so with no
 * slice (NULL, 0) it says what to make room for, and 0 with all others. A command that changes nothing, such as
 * a mark that is set already, has a script of no words. */
XAPOOL_MUST_USE
xapool_result xapool_prepare(const uint64_t *pool, size_t pool_words,
                             const uint8_t *record, size_t record_bytes,
                             uint64_t *script, size_t script_words);

/* Writes each value at its place, in order. Gives 0; 1 for a pool of wrong size; 17 for a place outside the
 * pool or half a pair, both looked at before the first write. The number is 0. Whether the words are those of
 * a pool is not looked at, nor whether places rise: xapool_check says the first, once it has given 0. */
XAPOOL_MUST_USE
xapool_result xapool_apply(uint64_t *pool, size_t pool_words, const uint64_t *script, size_t script_words);

/* ---- Regions ----
 *
 * A match is of two regions that are not empty, of one length, with the same bytes; all else that is
 * not empty is different. Where one or both are empty nothing was compared, and that is no match,
 * though digests of no bytes are 0 and so equal: never compare digests alone. A verdict that nobody
 * wrote does not read as a match either: an xapool_comparison of zeros says 'nothing to compare'. That
 * is of the verdict's own word. Two regions of zeros do match, as any equal bytes do; whether they were
 * really read, all of them, and from two places, the host must know. Two lists or two pools that are
 * equal are no evidence either: equal reservations are equal bytes. */
enum xapool_verdict {
    XAPOOL_NOTHING_TO_COMPARE = 0, /* a region is empty */
    XAPOOL_MATCHED = 1,
    XAPOOL_DIFFERENT = 2
};

typedef struct xapool_comparison {
    uint64_t verdict; /* enum xapool_verdict */
    uint64_t old_crc; /* the digest of each region, also where there is nothing to compare */
    uint64_t new_crc;
} xapool_comparison;

/* The digest CRC-32C (RFC 3720) of a region, in pieces or as a whole: crc is 0 to begin, and what the
 * last call gave to go on. */
XAPOOL_MUST_USE
uint32_t xapool_crc32c(uint32_t crc, const uint8_t *region, size_t region_bytes);

/* Compares an old and a new region. */
XAPOOL_MUST_USE
xapool_comparison xapool_compare(const uint8_t *old_region, size_t old_bytes,
                                 const uint8_t *new_region, size_t new_bytes);

/* ---- Written evidence ----
 *
 * What was written down about regions stands in a base sheet, and what was added later in a supplement. Each
 * is records in a row, of any length, also none:
 *
 *   place 0  tag 48        1 byte
 *         1  length        2   of index and text, so 8 or more
 *         3  index         8
 *        11  text              length - 8 bytes, also none
 *
 * each number highest byte first. Of several records of an index in one sheet the last counts, and one
 * in the supplement before those of the base sheet, also where its text is empty. */
#define XAPOOL_EVIDENCE_TAG 48
#define XAPOOL_EVIDENCE_AT_INDEX 3
#define XAPOOL_EVIDENCE_AT_TEXT 11

enum xapool_sheet {
    XAPOOL_BASE_SHEET = 0,
    XAPOOL_SUPPLEMENT = 1
};

typedef struct xapool_part {
    uint64_t answer; /* enum xapool_answer: 0, 3 or 10. With 3 and 10 all else is 0 */
    uint64_t sheet;  /* enum xapool_sheet: which of the two has the text */
    uint64_t place;  /* where the text begins there */
    uint64_t length; /* its bytes; 0 is a text too, if the answer is 0 */
} xapool_part;

/* Where the text of an index stands: a part of your own sheet, never a copy. Answer 0: found. 10: neither
 * sheet names the index, which is no evidence of anything. 3: a sheet is malformed, wherever the damage lies (a
 * record cut off, another tag, a length under 8), and nothing of either is to be relied on. It reads both
 * sheets whole, once each. */
XAPOOL_MUST_USE
xapool_part xapool_evidence(const uint8_t *base, size_t base_bytes,
                            const uint8_t *supplement, size_t supplement_bytes, uint64_t index);

/* ---- Gates ----
 *
 * Whether a share of a job, part by total, is within its limits, from 0 to 1. The share is one division of
 * doubles, rounded once: a share that is exactly at its limit passes, and a limit of 1.0 for matched, or of
 * 0.0 for unread, passes only if all is matched, or none unread, up to the largest total. Each kind looks at its
 * own limits alone. */
enum xapool_gate_kind {
    XAPOOL_MATCHED_AT_LEAST = 1, /* the share is at least a; b is not looked at */
    XAPOOL_UNREAD_AT_MOST = 2,   /* the share is at most b; a is not looked at */
    XAPOOL_MATCHED_BETWEEN = 3   /* the share is from a to b, both included */
};

/* Answer 0: number 1 pass, 0 fail. 18, 19 and 20 refuse, tested in that order, with number 0: so the number
 * is 1 only for a pass, and a total of 0 never passes. Which kind the part is of, matched or unread, the
 * host must know: it is counted by no one here. */
XAPOOL_MUST_USE
xapool_result xapool_gate(uint64_t kind, double a, double b, uint32_t part, uint32_t total);

/* 1 if the calling thread has floats as xapool_gate needs them, else 0: then do not ask it. Divisions are
 * rounded to nearest (1/3 down and 1/5 up: no one division tells all modes), and a subnormal is not read as 0. */
XAPOOL_MUST_USE
static inline int xapool_floats_are_ieee(void)
{
    /* Volatile, so that the thread divides and not the compiler. What it is held to is exact: a whole number
     * by 2^54. */
    volatile double one = 1.0, three = 3.0, five = 5.0, least = 4.9406564584124654e-324, nought = 0.0;
    volatile double third = one / three, fifth = one / five;
    return third == 6004799503160661.0 / 18014398509481984.0 && fifth == 3602879701896397.0 / 18014398509481984.0 &&
           least > nought;
}

/* ---- Building a batch ----
 *
 *     uint8_t bytes[XAPOOL_BATCH_BYTES] = { 0 }, reply[XAPOOL_REPLIES(2)] = { 0 };
 *     xapool_batch batch = xapool_batch_over(bytes, sizeof bytes);
 *     if (!xapool_put_store(&batch, 64, 0, XAPOOL_VALUE(2)) || !xapool_put_load(&batch, 64))
 *         return 1;
 *     xapool_result r = xapool_run(pool, XAPOOL_WORDS(40), batch.bytes, batch.used, reply, sizeof reply);
 *
 * Each xapool_put gives 1, or 0 if there is no room: then the batch is as it was. Run it, set used
 * and commands to 0, and put the same command again (xapool_job.h does that). A number that does not
 * fit its field is put as the largest that does, never cut: order 259 as 255, which a store refuses with
 * 5, mark 258 or filter 259 as 255, refused with 7. A budget above 65,535 is 65,535: the find may pause
 * earlier. */

typedef struct xapool_batch {
    uint8_t *bytes;
    size_t used;     /* bytes */
    size_t room;     /* bytes in all, at most XAPOOL_BATCH_BYTES */
    size_t commands; /* so many replies of 24 bytes a run will write */
} xapool_batch;

/* An empty batch in these bytes; more than XAPOOL_BATCH_BYTES of them are not used. */
XAPOOL_MUST_USE
static inline xapool_batch xapool_batch_over(uint8_t *bytes, size_t room)
{
    xapool_batch batch;
    batch.bytes = bytes;
    batch.used = 0;
    batch.room = room < XAPOOL_BATCH_BYTES ? room : XAPOOL_BATCH_BYTES;
    batch.commands = 0;
    return batch;
}

/* Casts that neither language warns of. */
#ifdef __cplusplus
#define XAPOOL_TO_BYTE(number) static_cast<uint8_t>((number) & 0xff)
#define XAPOOL_TO_SHORT(number) static_cast<uint16_t>((number) & 0xffff)
#else
#define XAPOOL_TO_BYTE(number) ((uint8_t)((number) & 0xff))
#define XAPOOL_TO_SHORT(number) ((uint16_t)((number) & 0xffff))
#endif

/* The lowest bytes of a number, highest first; for the functions below, which look at the room. */
static inline void xapool_put_number(xapool_batch *batch, uint64_t number, unsigned bytes)
{
    while (bytes > 0) {
        bytes--;
        batch->bytes[batch->used] = XAPOOL_TO_BYTE(number >> (8 * bytes));
        batch->used++;
    }
}

/* A number, or the most that its field takes. */
XAPOOL_MUST_USE
static inline uint64_t xapool_at_most(uint64_t number, uint64_t most)
{
    return number < most ? number : most;
}

/* The tag and the length of a record, if all of it has room. */
XAPOOL_MUST_USE
static inline int xapool_put_tag(xapool_batch *batch, unsigned tag, unsigned record_bytes)
{
    if (batch->used > batch->room || batch->room - batch->used < record_bytes)
        return 0;
    xapool_put_number(batch, tag, 1);
    xapool_put_number(batch, record_bytes - 3, 2);
    batch->commands++;
    return 1;
}

XAPOOL_MUST_USE
static inline int xapool_put_store(xapool_batch *batch, uint64_t index, uint64_t order, uint64_t entry)
{
    if (!xapool_put_tag(batch, XAPOOL_STORE, XAPOOL_STORE_BYTES))
        return 0;
    xapool_put_number(batch, index, 8);
    xapool_put_number(batch, xapool_at_most(order, UINT8_MAX), 1);
    xapool_put_number(batch, entry, 8);
    return 1;
}

XAPOOL_MUST_USE
static inline int xapool_put_load(xapool_batch *batch, uint64_t index)
{
    if (!xapool_put_tag(batch, XAPOOL_LOAD, XAPOOL_LOAD_BYTES))
        return 0;
    xapool_put_number(batch, index, 8);
    return 1;
}

XAPOOL_MUST_USE
static inline int xapool_put_erase(xapool_batch *batch, uint64_t index)
{
    if (!xapool_put_tag(batch, XAPOOL_ERASE, XAPOOL_ERASE_BYTES))
        return 0;
    xapool_put_number(batch, index, 8);
    return 1;
}

XAPOOL_MUST_USE
static inline int xapool_put_mark(xapool_batch *batch, uint64_t index, uint64_t mark)
{
    if (!xapool_put_tag(batch, XAPOOL_MARK, XAPOOL_MARK_BYTES))
        return 0;
    xapool_put_number(batch, index, 8);
    xapool_put_number(batch, xapool_at_most(mark, UINT8_MAX), 1);
    return 1;
}

XAPOOL_MUST_USE
static inline int xapool_put_unmark(xapool_batch *batch, uint64_t index, uint64_t mark)
{
    if (!xapool_put_tag(batch, XAPOOL_UNMARK, XAPOOL_UNMARK_BYTES))
        return 0;
    xapool_put_number(batch, index, 8);
    xapool_put_number(batch, xapool_at_most(mark, UINT8_MAX), 1);
    return 1;
}

XAPOOL_MUST_USE
static inline int xapool_put_find(xapool_batch *batch, uint64_t first, uint64_t last, uint64_t filter, uint64_t budget)
{
    if (!xapool_put_tag(batch, XAPOOL_FIND, XAPOOL_FIND_BYTES))
        return 0;
    xapool_put_number(batch, first, 8);
    xapool_put_number(batch, last, 8);
    xapool_put_number(batch, xapool_at_most(filter, UINT8_MAX), 1);
    xapool_put_number(batch, xapool_at_most(budget, UINT16_MAX), 2);
    return 1;
}

XAPOOL_MUST_USE
static inline int xapool_put_reserve(xapool_batch *batch, uint64_t index)
{
    if (!xapool_put_tag(batch, XAPOOL_RESERVE, XAPOOL_RESERVE_BYTES))
        return 0;
    xapool_put_number(batch, index, 8);
    return 1;
}

/* ---- Reading replies ---- */

typedef struct xapool_reply {
    uint8_t tag;    /* of the command: XAPOOL_STORE to XAPOOL_RESERVE */
    uint8_t answer; /* enum xapool_answer, 0 and 5 to 15; 255: there is no reply */
    uint8_t order;
    uint8_t marks;
    uint16_t count;
    uint64_t index;
    uint64_t entry;
} xapool_reply;

/* The big-endian number in so many bytes. */
XAPOOL_MUST_USE
static inline uint64_t xapool_number_at(const uint8_t *bytes, unsigned count)
{
    uint64_t number = 0;
    unsigned i;
    for (i = 0; i < count; i++)
        number = number << 8 | bytes[i];
    return number;
}

/* Reads the reply to command 'number', from 0, out of the replies to a batch. Gives 0 if there is none:
 * the bytes end before it, or are no reply. Then *reply has the answer 255, which is not 'done', and
 * 0 in all other fields. Lend it the bytes that the run wrote, 24 * its number, and no more. */
XAPOOL_MUST_USE
static inline int xapool_read_reply(const uint8_t *replies, size_t bytes, size_t number, xapool_reply *reply)
{
    static const xapool_reply none = { 0, XAPOOL_NO_REPLY, 0, 0, 0, 0, 0 };
    const uint8_t *at;
    *reply = none;
    if (number >= bytes / XAPOOL_REPLY_BYTES)
        return 0;
    at = replies + XAPOOL_REPLY_BYTES * number;
    if (at[0] < XAPOOL_REPLY + XAPOOL_STORE || at[0] > XAPOOL_REPLY + XAPOOL_RESERVE ||
        xapool_number_at(at + 1, 2) != XAPOOL_REPLY_BYTES - 3 || at[XAPOOL_AT_ANSWER] > XAPOOL_COVERED)
        return 0;
    reply->tag = XAPOOL_TO_BYTE(at[0] - XAPOOL_REPLY);
    reply->answer = at[XAPOOL_AT_ANSWER];
    reply->index = xapool_number_at(at + XAPOOL_AT_INDEX, 8);
    reply->order = at[XAPOOL_AT_ORDER];
    reply->entry = xapool_number_at(at + XAPOOL_AT_ENTRY, 8);
    reply->marks = at[XAPOOL_AT_MARKS];
    reply->count = XAPOOL_TO_SHORT(xapool_number_at(at + XAPOOL_AT_COUNT, 2));
    return 1;
}

/* ---- Reading lists ---- */

typedef struct xapool_listed {
    uint8_t order;
    uint8_t marks;
    uint64_t index; /* the base */
    uint64_t entry; /* 0: reserved; then order and marks are 0 as well */
} xapool_listed;

/* The word of what was not read: neither an entry's nor 0, so no entry and not reserved. */
#define XAPOOL_NO_ENTRY 2

/* Whether a word is an entry's: odd, or a multiple of 4 other than 0. */
XAPOOL_MUST_USE
static inline int xapool_is_storable(uint64_t word)
{
    return (word & 1) != 0 || ((word & 3) == 0 && word != 0);
}

/* Reads entry 'number', from 0, out of the bytes of a list. Gives 0 if there is none: the bytes end
 * before it, or are no entry that a pool can have. Then *listed has the entry XAPOOL_NO_ENTRY, and 0 in
 * all other fields: it is no entry, not reserved and not matched. */
XAPOOL_MUST_USE
static inline int xapool_read_listed(const uint8_t *list, size_t bytes, size_t number, xapool_listed *listed)
{
    static const xapool_listed none = { 0, 0, 0, XAPOOL_NO_ENTRY };
    xapool_listed read;
    const uint8_t *at;
    *listed = none;
    if (number >= bytes / XAPOOL_LISTED_BYTES)
        return 0;
    at = list + XAPOOL_LISTED_BYTES * number;
    read.order = at[XAPOOL_LISTED_AT_ORDER];
    read.marks = at[XAPOOL_LISTED_AT_MARKS];
    read.index = xapool_number_at(at + XAPOOL_LISTED_AT_INDEX, 8);
    read.entry = xapool_number_at(at + XAPOOL_LISTED_AT_ENTRY, 8);
    if (at[0] != XAPOOL_LISTED || xapool_number_at(at + 1, 2) != XAPOOL_LISTED_BYTES - 3 ||
        read.order > XAPOOL_MAX_ORDER || read.marks >> XAPOOL_MARKS != 0 ||
        (read.index & ((UINT64_C(1) << read.order) - 1)) != 0)
        return 0;
    if (read.entry == 0 ? read.order != 0 || read.marks != 0 : !xapool_is_storable(read.entry))
        return 0;
    *listed = read;
    return 1;
}

/* Whether what was listed is a reserved index and no entry. */
XAPOOL_MUST_USE
static inline int xapool_is_reserved(const xapool_listed *listed)
{
    return listed->entry == 0;
}

/* Whether it is an entry with the mark 'matched'. That is of its whole run and of this side alone. */
XAPOOL_MUST_USE
static inline int xapool_is_matched(const xapool_listed *listed)
{
    return xapool_is_storable(listed->entry) && (listed->marks >> XAPOOL_MATCHED_MARK & 1) != 0;
}

/* The last index that an entry covers. The one after it is not this plus 1: at 2^64 - 1 there is none. */
XAPOOL_MUST_USE
static inline uint64_t xapool_last_index(uint64_t base, uint8_t order)
{
    return base | (order > XAPOOL_MAX_ORDER ? UINT64_MAX : (UINT64_C(1) << order) - 1);
}

/* Whether the bytes are a list, looked at as a whole: 0 and the number of its entries, or 3 and the place
 * where the first record begins that no pool can give: it is cut, has another tag or length, an
 * order above 63, a base that is no multiple of 2^order, a word that cannot be stored, marks above 7,
 * is reserved with an order or marks, or begins before the record before it ends (unsorted, doubled,
 * overlapping). A list of no bytes is a list, of nothing. That a list is whole it cannot say. */
XAPOOL_MUST_USE
static inline xapool_result xapool_read_list(const uint8_t *list, size_t bytes)
{
    xapool_result result = { XAPOOL_DONE, 0 };
    xapool_listed listed;
    uint64_t end = 0;
    size_t number;
    for (number = 0; XAPOOL_LISTED_BYTES * number < bytes; number++) {
        if (!xapool_read_listed(list, bytes, number, &listed) || (number > 0 && listed.index <= end)) {
            result.answer = XAPOOL_BAD_BATCH;
            result.number = XAPOOL_LISTED_BYTES * number;
            return result;
        }
        end = xapool_last_index(listed.index, listed.order);
        result.number++;
    }
    return result;
}

/* Where a find up to 'last' goes on after this reply to it: after the run of the entry that it found,
 * or where it paused. Gives 1 and sets *first, or 0 if there is nowhere to go: that is the end with
 * answer 12, and with answer 0 where the entry reaches to last; with any other it is trouble.
 * That this is where to go on is the theorem host_next of crates/walks; finds that go this way, also
 * while the pool changes in between, miss nothing that was there throughout: no_index_missed. */
XAPOOL_MUST_USE
static inline int xapool_next_first(const xapool_reply *reply, uint64_t last, uint64_t *first)
{
    uint64_t end;
    if (reply->tag != XAPOOL_FIND)
        return 0;
    if (reply->answer == XAPOOL_PAUSED) {
        *first = reply->index;
        return reply->index <= last;
    }
    end = xapool_last_index(reply->index, reply->order);
    if (reply->answer != XAPOOL_DONE || end >= last)
        return 0;
    *first = end + 1;
    return 1;
}

/* A macro's number as text. */
#define XAPOOL_QUOTED_(number) #number
#define XAPOOL_QUOTED(number) XAPOOL_QUOTED_(number)

/* An answer as text. */
XAPOOL_MUST_USE
static inline const char *xapool_answer_text(uint64_t answer)
{
    switch (answer) {
    case XAPOOL_DONE: return "done";
    case XAPOOL_POOL_LENGTH:
        return "pool length is not " XAPOOL_QUOTED(XAPOOL_ANCHOR_WORDS) " + " XAPOOL_QUOTED(XAPOOL_NODE_WORDS)
               " N words, N from 1 to " XAPOOL_QUOTED(XAPOOL_MAX_NODES);
    case XAPOOL_NOT_WELL_FORMED: return "pool is not well-formed";
    case XAPOOL_BAD_BATCH: return "batch too long, or a record is cut, of unknown tag or wrong length";
    case XAPOOL_REPLY_SPACE: return "space under 24 bytes a command, 21 an entry of a list, or a script's words";
    case XAPOOL_BAD_ORDER: return "order above 63";
    case XAPOOL_BAD_ENTRY: return "entry is 0 or ends in binary 10";
    case XAPOOL_BAD_MARK: return "mark above 2 or filter above 3";
    case XAPOOL_FIRST_ABOVE_LAST: return "first above last";
    case XAPOOL_NO_BUDGET: return "budget 0";
    case XAPOOL_ABSENT: return "no entry covers the index";
    case XAPOOL_TOO_FEW_NODES: return "too few free nodes";
    case XAPOOL_ENDED: return "ended";
    case XAPOOL_PAUSED: return "paused";
    case XAPOOL_NOT_ALIGNED: return "index is not a multiple of 2^order";
    case XAPOOL_COVERED: return "index is covered by an entry or reserved";
    case XAPOOL_BAD_SCRIPT: return "script has a place outside the pool, or half a pair";
    case XAPOOL_BAD_GATE: return "limit is not a number from 0 to 1, a above b, or no such kind of gate";
    case XAPOOL_NO_TOTAL: return "total 0: there is nothing to pass";
    case XAPOOL_PART_ABOVE_TOTAL: return "part above the total";
    case XAPOOL_NO_REPLY: return "no reply";
    default: return "no answer of this library";
    }
}

/* A verdict as text. */
XAPOOL_MUST_USE
static inline const char *xapool_verdict_text(uint64_t verdict)
{
    switch (verdict) {
    case XAPOOL_NOTHING_TO_COMPARE: return "nothing to compare";
    case XAPOOL_MATCHED: return "matched";
    case XAPOOL_DIFFERENT: return "different";
    default: return "no verdict of this library";
    }
}

#ifdef __cplusplus
}
#endif

#endif
