/* xapool_job.h: what a C host needs beside the calls. Hosted C99 with POSIX (x86-64 Linux), or C++.
 *
 *   xapool_job     any number of commands, run whenever the batch is full: all done, else which
 *   xapool_walk    the entries of a range that have a mark, over all pauses
 *   xapool_take    a list, with its memory
 *   xapool_save, xapool_load    a pool file, safe from a power cut, with its digest
 *   xapool_nodes_for            the nodes for a range
 *
 * What is allocated: xapool_take the list, which the caller frees; xapool_save the names of a file and
 * its folder and xapool_load the words of the pool, which they free before they return; the C library,
 * for an open file, what it needs. Save and load take some 5 KiB of stack beside that of the calls.
 * Nothing is kept but in the structs. These are tested, not proved; the calls below them are.
 *
 * Include it first, or compile with -D_POSIX_C_SOURCE=200809L, if the compiler is told -std=c99. */
#ifndef XAPOOL_JOB_H
#define XAPOOL_JOB_H

#if defined(__STRICT_ANSI__) && !defined(_POSIX_C_SOURCE) && !defined(_GNU_SOURCE)
#define _POSIX_C_SOURCE 200809L
#endif

#include "xapool.h"
#include <errno.h>
#include <fcntl.h>
#include <inttypes.h>
#include <stdio.h>
#include <stdlib.h>
#include <string.h>
#include <sys/stat.h>
#include <unistd.h>

#ifndef O_CLOEXEC
#error "include xapool_job.h before all others, or define _POSIX_C_SOURCE as 200809L"
#endif

#ifdef __cplusplus
extern "C" {
#define XAPOOL_TO_BYTES(memory) static_cast<uint8_t *>(memory)
#define XAPOOL_TO_WORDS(memory) static_cast<uint64_t *>(memory)
#define XAPOOL_TO_TEXT(memory) static_cast<char *>(memory)
#else
#define XAPOOL_TO_BYTES(memory) ((uint8_t *)(memory))
#define XAPOOL_TO_WORDS(memory) ((uint64_t *)(memory))
#define XAPOOL_TO_TEXT(memory) ((char *)(memory))
#endif

/* Why a helper stopped; 0 is no trouble. */
enum xapool_trouble {
    XAPOOL_NO_TROUBLE = 0,
    XAPOOL_CALL_REFUSED = 1,   /* 'refusal' has its answer and number; nothing of that call ran */
    XAPOOL_REPLY_MISSING = 2,  /* the bytes lent for replies were written by somebody else */
    XAPOOL_NO_ROOM = 3,        /* the bytes lent are under one record, or under one reply of 24 */
    XAPOOL_NOTHING_PUT = 4,    /* no command was put, so none was done */
    XAPOOL_FIELD_REFUSED = 5,  /* the walk's find: 7 to 9, 'reply' has it */
    XAPOOL_NO_MEMORY = 6,
    XAPOOL_SYSTEM = 7,         /* a call of the system failed: 'error' is its errno; the old file is there */
    XAPOOL_NOT_FLUSHED = 8,    /* the new file has its name, but its folder was not flushed: 'error' */
    XAPOOL_FILE_LENGTH = 9,    /* the file has not 8 bytes for each word lent */
    XAPOOL_FILE_DIGEST = 10    /* the file has another digest */
};

/* Trouble as text. */
XAPOOL_MUST_USE
static inline const char *xapool_trouble_text(unsigned trouble)
{
    switch (trouble) {
    case XAPOOL_NO_TROUBLE: return "no trouble";
    case XAPOOL_CALL_REFUSED: return "a call was refused";
    case XAPOOL_REPLY_MISSING: return "a reply is missing or of another command";
    case XAPOOL_NO_ROOM: return "no room for one command and its reply";
    case XAPOOL_NOTHING_PUT: return "no command was put";
    case XAPOOL_FIELD_REFUSED: return "a field of the find is out of range";
    case XAPOOL_NO_MEMORY: return "no memory";
    case XAPOOL_SYSTEM: return "a call of the system failed";
    case XAPOOL_NOT_FLUSHED: return "the file's folder could not be flushed";
    case XAPOOL_FILE_LENGTH: return "the file has another length";
    case XAPOOL_FILE_DIGEST: return "the file has another digest";
    default: return "no trouble of these helpers";
    }
}

/* ---- Jobs ----
 *
 *     xapool_job job = xapool_job_over(pool, XAPOOL_WORDS(n), bytes, sizeof bytes, replies, sizeof replies);
 *     int going = 1;
 *     for (i = 0; going && i < regions; i++)
 *         going = xapool_job_store(&job, i, 0, XAPOOL_VALUE(crc[i]));
 *     if (!xapool_job_end(&job))
 *         xapool_job_print(&job, stderr);
 *
 * A command that is put has not run yet: only xapool_job_end, or xapool_job_flush, says that it has. */

typedef struct xapool_job {
    uint64_t *pool;
    size_t pool_words;
    xapool_batch batch; /* what was put and has not run */
    uint8_t *replies;   /* to the batch that ran last */
    size_t reply_bytes;
    uint64_t batches;  /* so many batches ran */
    uint64_t ran;      /* so many commands, each with its reply */
    uint64_t not_done; /* so many of them were answered with something else than 0; and of the first of these: */
    uint64_t command;  /* its number in the job, from 0 */
    uint64_t number;   /* its batch's number, from 0 */
    uint64_t place;    /* the place of its first byte in that batch */
    xapool_reply reply;
    unsigned trouble;      /* enum xapool_trouble; but for 0 and 4 the job stopped, and runs nothing more */
    xapool_result refusal; /* of the call that was refused */
    /* If not NULL, gets each reply, with the command's number in the job; set it after xapool_job_over. It must
     * not use the job. */
    void (*each)(void *with, uint64_t command, const xapool_reply *reply);
    void *with;
} xapool_job;

/* A job over a pool, with bytes for a batch (XAPOOL_BATCH_BYTES are best, 22 hold any command) and for its
 * replies (24 for each command of a batch), which are set to 0. */
XAPOOL_MUST_USE
static inline xapool_job xapool_job_over(uint64_t *pool, size_t pool_words, uint8_t *bytes, size_t batch_bytes,
                                         uint8_t *replies, size_t reply_bytes)
{
    xapool_job job;
    memset(&job, 0, sizeof job);
    if (reply_bytes > 0)
        memset(replies, 0, reply_bytes);
    job.pool = pool;
    job.pool_words = pool_words;
    job.batch = xapool_batch_over(bytes, batch_bytes);
    job.replies = replies;
    job.reply_bytes = reply_bytes;
    return job;
}

/* Stops a job; gives 0. */
XAPOOL_MUST_USE
static inline int xapool_job_stop(xapool_job *job, unsigned trouble)
{
    job->trouble = trouble;
    return 0;
}

/* Takes in the reply to the command at this place of the batch; gives the place of the next, 0 if the reply is none. */
XAPOOL_MUST_USE
static inline size_t xapool_job_look(xapool_job *job, size_t command, size_t place)
{
    xapool_reply reply;
    const uint8_t *record = job->batch.bytes + place;
    if (!xapool_read_reply(job->replies, XAPOOL_REPLIES(job->batch.commands), command, &reply) || reply.tag != record[0])
        return 0;
    if (reply.answer != XAPOOL_DONE && job->not_done++ == 0) {
        job->command = job->ran;
        job->number = job->batches;
        job->place = place;
        job->reply = reply;
    }
    if (job->each)
        job->each(job->with, job->ran, &reply);
    job->ran++;
    return place + 3 + xapool_number_at(record + 1, 2);
}

/* Runs what was put. Gives 1 if it ran (also where some commands were not done, or nothing was put), or 0: the
 * job has stopped, now or before. */
XAPOOL_MUST_USE
static inline int xapool_job_flush(xapool_job *job)
{
    size_t command, place = 0;
    if (job->trouble == XAPOOL_NOTHING_PUT)
        job->trouble = XAPOOL_NO_TROUBLE;
    if (job->trouble != XAPOOL_NO_TROUBLE || job->batch.commands == 0)
        return job->trouble == XAPOOL_NO_TROUBLE;
    job->refusal = xapool_run(job->pool, job->pool_words, job->batch.bytes, job->batch.used, job->replies,
                              xapool_at_most(XAPOOL_REPLIES(job->batch.commands), job->reply_bytes));
    if (job->refusal.answer != XAPOOL_DONE)
        return xapool_job_stop(job, XAPOOL_CALL_REFUSED);
    if (job->refusal.number != job->batch.commands)
        return xapool_job_stop(job, XAPOOL_REPLY_MISSING);
    for (command = 0; command < job->batch.commands; command++) {
        place = xapool_job_look(job, command, place);
        if (place == 0)
            return xapool_job_stop(job, XAPOOL_REPLY_MISSING);
    }
    job->batches++;
    job->batch.used = job->batch.commands = 0;
    return 1;
}

/* Makes room for a record and its reply: runs what was put if there is none. */
XAPOOL_MUST_USE
static inline int xapool_job_ready(xapool_job *job, size_t record_bytes)
{
    if (job->trouble != XAPOOL_NO_TROUBLE && job->trouble != XAPOOL_NOTHING_PUT)
        return 0;
    if (record_bytes > job->batch.room || job->reply_bytes < XAPOOL_REPLY_BYTES)
        return xapool_job_stop(job, XAPOOL_NO_ROOM);
    if (job->batch.room - job->batch.used >= record_bytes &&
        job->reply_bytes / XAPOOL_REPLY_BYTES > job->batch.commands)
        return 1;
    return xapool_job_flush(job);
}

/* Each gives 1, or 0 if the job has stopped: then this command was not put. */
XAPOOL_MUST_USE
static inline int xapool_job_store(xapool_job *job, uint64_t index, uint64_t order, uint64_t entry)
{
    return xapool_job_ready(job, XAPOOL_STORE_BYTES) && xapool_put_store(&job->batch, index, order, entry);
}

XAPOOL_MUST_USE
static inline int xapool_job_load(xapool_job *job, uint64_t index)
{
    return xapool_job_ready(job, XAPOOL_LOAD_BYTES) && xapool_put_load(&job->batch, index);
}

XAPOOL_MUST_USE
static inline int xapool_job_erase(xapool_job *job, uint64_t index)
{
    return xapool_job_ready(job, XAPOOL_ERASE_BYTES) && xapool_put_erase(&job->batch, index);
}

XAPOOL_MUST_USE
static inline int xapool_job_mark(xapool_job *job, uint64_t index, uint64_t mark)
{
    return xapool_job_ready(job, XAPOOL_MARK_BYTES) && xapool_put_mark(&job->batch, index, mark);
}

XAPOOL_MUST_USE
static inline int xapool_job_unmark(xapool_job *job, uint64_t index, uint64_t mark)
{
    return xapool_job_ready(job, XAPOOL_UNMARK_BYTES) && xapool_put_unmark(&job->batch, index, mark);
}

XAPOOL_MUST_USE
static inline int xapool_job_find(xapool_job *job, uint64_t first, uint64_t last, uint64_t filter, uint64_t budget)
{
    return xapool_job_ready(job, XAPOOL_FIND_BYTES) && xapool_put_find(&job->batch, first, last, filter, budget);
}

XAPOOL_MUST_USE
static inline int xapool_job_reserve(xapool_job *job, uint64_t index)
{
    return xapool_job_ready(job, XAPOOL_RESERVE_BYTES) && xapool_put_reserve(&job->batch, index);
}

/* Runs what is left and gives 1 exactly if at least one command was put and every one ran and was done, from
 * the job's beginning on. More may be put after it, and then it must be asked again. */
XAPOOL_MUST_USE
static inline int xapool_job_end(xapool_job *job)
{
    if (!xapool_job_flush(job))
        return 0;
    if (job->ran == 0)
        return xapool_job_stop(job, XAPOOL_NOTHING_PUT);
    return job->not_done == 0;
}

/* How a job stands, in one to three lines: what ran, the first command that was not done, why it stopped. */
static inline void xapool_job_print(const xapool_job *job, FILE *to)
{
    fprintf(to, "commands that ran: %" PRIu64 ", batches: %" PRIu64 ", not done: %" PRIu64 "\n", job->ran, job->batches,
            job->not_done);
    if (job->not_done > 0)
        fprintf(to, "the first not done: command %" PRIu64 ", batch %" PRIu64 ", place %" PRIu64 ": %s\n", job->command,
                job->number, job->place, xapool_answer_text(job->reply.answer));
    if (job->trouble == XAPOOL_CALL_REFUSED)
        fprintf(to, "stopped: %s: %s, number %" PRIu64 "; commands of that batch, which did not run: %zu\n",
                xapool_trouble_text(job->trouble), xapool_answer_text(job->refusal.answer), job->refusal.number,
                job->batch.commands);
    else if (job->trouble != XAPOOL_NO_TROUBLE)
        fprintf(to, "stopped: %s\n", xapool_trouble_text(job->trouble));
    else if (job->batch.commands > 0)
        fprintf(to, "commands that were put and have not run: %zu\n", job->batch.commands);
}

/* ---- Walks ----
 *
 *     xapool_walk walk = xapool_walk_over(pool, XAPOOL_WORDS(n), 0, UINT64_MAX, XAPOOL_MATCHED_MARK);
 *     while (xapool_walk_next(&walk) == XAPOOL_WALK_FOUND)
 *         ... walk.reply.index, order, entry, marks
 *     if (walk.outcome != XAPOOL_WALK_ENDED)
 *         ... it is not known what else there is
 *
 * It goes on behind the run of the entry that it reports, or where a find paused, until one ended or a run came to last. So, by
 * the theorem no_index_missed of crates/walks (host_misses_none of a host's calls), the pool may be changed between two steps:
 * no index is missed that at each find is covered by an entry with the mark, the same or another; one may be reported
 * twice. With no change in between any budget above 0 finds the same (budgets_agree), and it ends (walk_ends).
 *
 * A pause is gone over and is none of the three. Each step is a run, which checks the whole pool: for all entries
 * of a large pool, take the list. Where it ended, no further entry has the mark; that says nothing of an
 * index without an entry. */
enum xapool_walked {
    XAPOOL_WALK_TROUBLE = 0, /* 'trouble' says which; it stays so */
    XAPOOL_WALK_FOUND = 1,   /* 'reply' has the entry */
    XAPOOL_WALK_ENDED = 2    /* there is no more; it stays so */
};

typedef struct xapool_walk {
    uint64_t *pool;
    size_t pool_words;
    uint64_t first, last, filter;
    uint64_t budget;       /* of one find, 65,535; may be set to less */
    uint64_t found;        /* so many entries so far */
    uint64_t pauses;       /* and so many pauses, which were gone over */
    int outcome;           /* enum xapool_walked, of the last step */
    unsigned trouble;      /* enum xapool_trouble */
    xapool_result refusal; /* of the call that was refused */
    xapool_reply reply;    /* to the last find */
    int over;              /* the range is used up: the next step is the end */
} xapool_walk;

/* The walk from first to last; filter 0, 1, 2: with that mark, 3: any. */
XAPOOL_MUST_USE
static inline xapool_walk xapool_walk_over(uint64_t *pool, size_t pool_words, uint64_t first, uint64_t last, uint64_t filter)
{
    xapool_walk walk;
    memset(&walk, 0, sizeof walk);
    walk.pool = pool;
    walk.pool_words = pool_words;
    walk.first = first;
    walk.last = last;
    walk.filter = filter;
    walk.budget = UINT16_MAX;
    return walk;
}

/* One find, and where the next begins. Sets trouble if it was refused. */
static inline void xapool_walk_find(xapool_walk *walk)
{
    uint8_t bytes[XAPOOL_FIND_BYTES], replies[XAPOOL_REPLY_BYTES] = { 0 };
    xapool_batch batch = xapool_batch_over(bytes, sizeof bytes);
    if (!xapool_put_find(&batch, walk->first, walk->last, walk->filter, walk->budget)) {
        walk->trouble = XAPOOL_NO_ROOM;
        return;
    }
    walk->refusal = xapool_run(walk->pool, walk->pool_words, bytes, batch.used, replies, sizeof replies);
    if (walk->refusal.answer != XAPOOL_DONE) {
        walk->trouble = XAPOOL_CALL_REFUSED;
        return;
    }
    if (!xapool_read_reply(replies, sizeof replies, 0, &walk->reply) || walk->reply.tag != XAPOOL_FIND)
        walk->trouble = XAPOOL_REPLY_MISSING;
    else if (walk->reply.answer != XAPOOL_DONE && walk->reply.answer != XAPOOL_PAUSED && walk->reply.answer != XAPOOL_ENDED)
        walk->trouble = XAPOOL_FIELD_REFUSED;
    else
        walk->over = !xapool_next_first(&walk->reply, walk->last, &walk->first);
}

/* The next entry, over as many pauses as there are. Gives an enum xapool_walked. */
XAPOOL_MUST_USE
static inline int xapool_walk_next(xapool_walk *walk)
{
    walk->outcome = XAPOOL_WALK_TROUBLE;
    while (walk->trouble == XAPOOL_NO_TROUBLE && walk->outcome == XAPOOL_WALK_TROUBLE) {
        if (walk->over) {
            walk->outcome = XAPOOL_WALK_ENDED;
            break;
        }
        xapool_walk_find(walk);
        if (walk->trouble != XAPOOL_NO_TROUBLE)
            break;
        walk->pauses += walk->reply.answer == XAPOOL_PAUSED;
        if (walk->reply.answer == XAPOOL_DONE) {
            walk->found++;
            walk->outcome = XAPOOL_WALK_FOUND;
        }
    }
    return walk->outcome;
}

/* ---- Lists ---- */

typedef struct xapool_taken {
    uint8_t *bytes; /* NULL exactly with trouble; the caller frees it, also where there are no entries */
    size_t size;    /* its bytes, 21 for each entry */
    size_t entries; /* and reserved indices */
    unsigned trouble;
    xapool_result refusal; /* of the call that was refused */
} xapool_taken;

/* The list of first to last, in memory of its own (malloc). */
XAPOOL_MUST_USE
static inline xapool_taken xapool_take(const uint64_t *pool, size_t pool_words, uint64_t first, uint64_t last)
{
    xapool_taken taken;
    memset(&taken, 0, sizeof taken);
    taken.refusal = xapool_list(pool, pool_words, first, last, NULL, 0);
    if (taken.refusal.answer != XAPOOL_DONE && taken.refusal.answer != XAPOOL_REPLY_SPACE) {
        taken.trouble = XAPOOL_CALL_REFUSED;
        return taken;
    }
    taken.entries = taken.refusal.number;
    taken.size = XAPOOL_LISTING(taken.entries);
    taken.bytes = XAPOOL_TO_BYTES(calloc(taken.size + 1, 1));
    if (!taken.bytes) {
        taken.trouble = XAPOOL_NO_MEMORY;
        return taken;
    }
    taken.refusal = xapool_list(pool, pool_words, first, last, taken.bytes, taken.size);
    if (taken.refusal.answer != XAPOOL_DONE || taken.refusal.number != taken.entries) {
        free(taken.bytes);
        taken.bytes = NULL;
        taken.trouble = XAPOOL_CALL_REFUSED;
    }
    return taken;
}

/* ---- Nodes ---- */

/* The nodes that entries of order 0 at every index of first to last need in an empty pool. One for each block of
 * 64 indices, of 64^2, .. that meets the range, up to the head, which reaches from index 0 to last: so a range
 * that begins far away has a chain above it. Index 0 alone needs none, but a pool has at least 1; more than
 * XAPOOL_MAX_NODES no pool has. Of first above last it is UINT64_MAX. For several ranges in one pool the sum and 10
 * more is enough: each may need a longer chain than by itself, but beyond their own these are the same nodes. */
XAPOOL_MUST_USE
static inline uint64_t xapool_nodes_for(uint64_t first, uint64_t last)
{
    uint64_t nodes = 0;
    if (first > last)
        return UINT64_MAX;
    while (last > 0) {
        first /= XAPOOL_SLOTS;
        last /= XAPOOL_SLOTS;
        nodes += last - first + 1;
    }
    return nodes;
}

/* ---- Pool files ----
 *
 * The words in order, 8 bytes each, lowest byte first: what xabatch reads and writes. The digest (CRC-32C of the
 * file's bytes) is not in the file: keep it elsewhere, and load with it. */

typedef struct xapool_filed {
    unsigned trouble;      /* enum xapool_trouble */
    int error;             /* the errno of the call of the system that failed */
    uint32_t digest;       /* of the file; with 10 the one that it has */
    xapool_result refusal; /* of the check, where that refused the words */
} xapool_filed;

#define XAPOOL_FILE_WORDS 512 /* go through the stack at a time */

/* Writes words to an open file; sets the digest. Gives 1, or 0 if they could not be written. */
XAPOOL_MUST_USE
static inline int xapool_write_words(FILE *file, const uint64_t *words, size_t count, uint32_t *digest)
{
    uint8_t bytes[8 * XAPOOL_FILE_WORDS];
    size_t at, used = 0;
    *digest = 0;
    for (at = 0; at < 8 * count; at++) {
        bytes[used++] = XAPOOL_TO_BYTE(words[at / 8] >> (at % 8 * 8));
        if (used < sizeof bytes && at + 1 < 8 * count)
            continue;
        *digest = xapool_crc32c(*digest, bytes, used);
        if (fwrite(bytes, 1, used, file) != used)
            return 0;
        used = 0;
    }
    return fflush(file) == 0 && fsync(fileno(file)) == 0;
}

/* Flushes the folder that a file is in, so that its name is on disk. */
XAPOOL_MUST_USE
static inline int xapool_flush_folder(const char *path)
{
    const char *slash = strrchr(path, '/');
    size_t length = slash ? strlen(path) - strlen(slash) + 1 : 0;
    char *folder = XAPOOL_TO_TEXT(malloc(length + 2));
    int at, flushed, error;
    if (!folder)
        return 0;
    memcpy(folder, path, length);
    memcpy(folder + length, ".", 2);
    at = open(folder, O_RDONLY | O_DIRECTORY | O_CLOEXEC);
    free(folder);
    if (at < 0)
        return 0;
    flushed = fsync(at) == 0;
    error = errno;
    close(at);
    errno = error;
    return flushed;
}

/* Gives the open file the mode of the one that it will replace, if there is one, which must be no link and no device. */
XAPOOL_MUST_USE
static inline int xapool_keep_mode(int file, const char *path)
{
    struct stat old;
    if (lstat(path, &old) != 0)
        return errno == ENOENT;
    if (S_ISREG(old.st_mode))
        return fchmod(file, old.st_mode & 07777) == 0;
    errno = EINVAL;
    return 0;
}

/* Writes words to a new file of this name, whose last six letters are chosen, flushed; gives 1, or 0 and no file. */
XAPOOL_MUST_USE
static inline int xapool_write_new(char *name, const char *path, const uint64_t *words, size_t count, uint32_t *digest)
{
    int error, at = mkstemp(name);
    FILE *file = at < 0 ? NULL : fdopen(at, "wb");
    int written = file && xapool_keep_mode(at, path) && xapool_write_words(file, words, count, digest);
    error = errno;
    if (file && fclose(file) != 0 && written) {
        written = 0;
        error = errno;
    }
    if (!file && at >= 0)
        close(at);
    if (!written && at >= 0)
        unlink(name);
    errno = error;
    return written;
}

/* Saves a pool: checks it, writes a new file beside the old one (PATH.XXXXXX), flushes it, renames it and flushes the
 * folder. So a power cut leaves the old file or the new one, whole, and without trouble the new one. Of an old file the
 * mode is kept, and not its owner nor extended attributes; a new one is its owner's alone; a link or a device is
 * refused (EINVAL). A save that is killed may leave the new file beside the old one; the next is not hindered by
 * it. There is no lock: one writer at a time. */
XAPOOL_MUST_USE
static inline xapool_filed xapool_save(const char *path, const uint64_t *pool, size_t pool_words)
{
    xapool_filed filed;
    char *name = XAPOOL_TO_TEXT(malloc(strlen(path) + 8));
    memset(&filed, 0, sizeof filed);
    filed.refusal = xapool_check(pool, pool_words);
    if (!name)
        filed.trouble = XAPOOL_NO_MEMORY;
    else if (filed.refusal.answer != XAPOOL_DONE)
        filed.trouble = XAPOOL_CALL_REFUSED;
    else {
        memcpy(name, path, strlen(path));
        memcpy(name + strlen(path), ".XXXXXX", 8);
        if (!xapool_write_new(name, path, pool, pool_words, &filed.digest)) {
            filed.trouble = XAPOOL_SYSTEM;
            filed.error = errno;
        } else if (rename(name, path) != 0) {
            filed.trouble = XAPOOL_SYSTEM;
            filed.error = errno;
            unlink(name);
        } else if (!xapool_flush_folder(path)) {
            filed.trouble = XAPOOL_NOT_FLUSHED;
            filed.error = errno;
        }
    }
    free(name);
    return filed;
}

/* Reads words from an open file; sets the digest. Gives how many bytes there were, at most one more than asked for. */
XAPOOL_MUST_USE
static inline size_t xapool_read_words(FILE *file, uint64_t *words, size_t count, uint32_t *digest)
{
    uint8_t bytes[8 * XAPOOL_FILE_WORDS];
    size_t i, got, at = 0;
    *digest = 0;
    do {
        got = fread(bytes, 1, sizeof bytes, file);
        *digest = xapool_crc32c(*digest, bytes, got);
        for (i = 0; i < got; i++, at++) {
            if (at == 8 * count)
                return at + 1;
            words[at / 8] |= (UINT64_C(0) + bytes[i]) << (at % 8 * 8);
        }
    } while (got == sizeof bytes);
    return at;
}

/* Loads a pool into words that are lent, whose number must be the file's. It is refused, and the words stay as they
 * were, if the file cannot be read, has another length or another digest, or words that the check refuses. */
XAPOOL_MUST_USE
static inline xapool_filed xapool_load(const char *path, uint64_t *pool, size_t pool_words, uint32_t digest)
{
    xapool_filed filed;
    uint64_t *words = XAPOOL_TO_WORDS(calloc(pool_words + 1, 8));
    FILE *file = words ? fopen(path, "rb") : NULL;
    size_t bytes = 0;
    memset(&filed, 0, sizeof filed);
    filed.error = errno;
    if (file)
        bytes = xapool_read_words(file, words, pool_words, &filed.digest);
    if (!words)
        filed.trouble = XAPOOL_NO_MEMORY;
    else if (!file || ferror(file)) {
        filed.trouble = XAPOOL_SYSTEM;
        filed.error = file ? errno : filed.error;
    } else if (bytes != 8 * pool_words)
        filed.trouble = XAPOOL_FILE_LENGTH;
    else if (filed.digest != digest)
        filed.trouble = XAPOOL_FILE_DIGEST;
    else if ((filed.refusal = xapool_check(words, pool_words)).answer != XAPOOL_DONE)
        filed.trouble = XAPOOL_CALL_REFUSED;
    else
        memcpy(pool, words, 8 * pool_words);
    if (filed.trouble != XAPOOL_SYSTEM)
        filed.error = 0;
    if (file)
        fclose(file);
    free(words);
    return filed;
}

#ifdef __cplusplus
}
#endif

#endif
