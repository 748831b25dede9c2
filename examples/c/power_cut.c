/* A pool on storage that may lose its power at any moment, and loses nothing. Two files stand for the storage: the pool's
 * words, and a journal with room for one script. A command is prepared, its script is kept in the journal, applied to the
 * pool's words and forgotten. A child process does so and is killed (SIGKILL) after each number of word writes, also of those
 * in the journal; the next start ends what was begun, is killed in turn, and the one after it leaves exactly the words of
 * the uncut xapool_run, or, where the script was not yet whole, those of before. */
#include "xapool_job.h"
#include <signal.h>
#include <sys/mman.h>
#include <sys/wait.h>

enum { NODES = 40, WORDS = XAPOOL_WORDS(NODES), ROOM = 2 * WORDS };

/* The journal: the script's length, its digest with KEPT, the script. Where the second word is anything else, there is none. */
enum { LENGTH_AT, DIGEST_AT, SCRIPT_AT, JOURNAL = SCRIPT_AT + ROOM };
#define KEPT (UINT64_C(1) << 32) /* so that no digest is the 0 of an empty journal */

static char folder[] = "/tmp/xapool-power-cut-XXXXXX", pool_name[64], journal_name[64];
static uint64_t before[WORDS], wanted[WORDS], found[WORDS];
static uint8_t bytes[XAPOOL_BATCH_BYTES], replies[XAPOOL_REPLIES(XAPOOL_MAX_COMMANDS)];

static void fail(const char *what)
{
    fprintf(stderr, "power_cut: %s\n", what);
    exit(1);
}

#define MUST(holds) ((holds) ? (void)0 : fail(#holds))

/* ---- The storage: words are written whole, and the power goes before one of them ---- */

static size_t writes_left = SIZE_MAX;

static void write_word(int file, size_t place, uint64_t word)
{
    if (writes_left == 0)
        kill(getpid(), SIGKILL);
    writes_left--;
    MUST(pwrite(file, &word, sizeof word, (off_t)(sizeof word * place)) == sizeof word);
}

static int open_words(const char *name, size_t words)
{
    int file = open(name, O_RDWR | O_CREAT | O_CLOEXEC, 0600);
    MUST(file >= 0 && ftruncate(file, (off_t)(sizeof(uint64_t) * words)) == 0);
    return file;
}

static uint64_t *map(int file, size_t words)
{
    void *at = mmap(NULL, sizeof(uint64_t) * words, PROT_READ | PROT_WRITE, MAP_SHARED, file, 0);
    MUST(at != MAP_FAILED);
    return at;
}

/* ---- What a host does ---- */

/* Of the length and the script: one that was cut anywhere, or has parts of an older one, has another digest. */
static uint64_t digest_of(const uint64_t *journal)
{
    uint32_t crc = xapool_crc32c(0, (const uint8_t *)(journal + LENGTH_AT), sizeof *journal);
    return KEPT | xapool_crc32c(crc, (const uint8_t *)(journal + SCRIPT_AT), sizeof *journal * journal[LENGTH_AT]);
}

static int has_script(const uint64_t *journal)
{
    return journal[LENGTH_AT] <= ROOM && journal[DIGEST_AT] == digest_of(journal);
}

/* The script is whole on its storage before its digest is, and that before anything is written in the pool. */
static void keep(int file, const uint64_t *script, size_t words)
{
    static uint64_t journal[JOURNAL];
    journal[LENGTH_AT] = words;
    write_word(file, LENGTH_AT, words);
    for (size_t i = 0; i < words; i++) {
        journal[SCRIPT_AT + i] = script[i];
        write_word(file, SCRIPT_AT + i, script[i]);
    }
    MUST(fdatasync(file) == 0);
    write_word(file, DIGEST_AT, digest_of(journal));
    MUST(fdatasync(file) == 0);
}

/* Only once the pool's words are on their storage. */
static void forget(int pool_file, int journal_file)
{
    MUST(fdatasync(pool_file) == 0);
    write_word(journal_file, DIGEST_AT, 0);
    MUST(fdatasync(journal_file) == 0);
}

/* One command, safe from power cuts. What xapool_apply would write in memory goes to the file word by word. */
static void change(const xapool_batch *one)
{
    static uint64_t script[ROOM];
    int pool_file = open_words(pool_name, WORDS), journal_file = open_words(journal_name, JOURNAL);
    uint64_t *pool = map(pool_file, WORDS);
    xapool_result r = xapool_prepare(pool, WORDS, one->bytes, one->used, script, ROOM);
    MUST(r.answer == XAPOOL_DONE);
    keep(journal_file, script, r.number);
    for (size_t i = 0; i < r.number; i += XAPOOL_PAIR_WORDS)
        write_word(pool_file, script[i], script[i + 1]);
    forget(pool_file, journal_file);
}

/* At each start, before any other call on the pool: a script that is there is applied whole; one that is not whole was never
 * begun. 'cut' of its pairs are written and the power goes again, unless there are fewer. */
static void start(size_t cut)
{
    int pool_file = open_words(pool_name, WORDS), journal_file = open_words(journal_name, JOURNAL);
    uint64_t *pool = map(pool_file, WORDS), *journal = map(journal_file, JOURNAL);
    if (has_script(journal)) {
        size_t words = journal[LENGTH_AT];
        if (XAPOOL_PAIR_WORDS * cut < words) {
            MUST(xapool_apply(pool, WORDS, journal + SCRIPT_AT, XAPOOL_PAIR_WORDS * cut).answer == XAPOOL_DONE);
            kill(getpid(), SIGKILL);
        }
        MUST(xapool_apply(pool, WORDS, journal + SCRIPT_AT, words).answer == XAPOOL_DONE);
        MUST(msync(pool, sizeof(uint64_t) * WORDS, MS_SYNC) == 0);
        forget(pool_file, journal_file);
    }
    MUST(xapool_check(pool, WORDS).answer == XAPOOL_DONE);
    MUST(munmap(pool, sizeof(uint64_t) * WORDS) == 0 && munmap(journal, sizeof(uint64_t) * JOURNAL) == 0);
    MUST(close(pool_file) == 0 && close(journal_file) == 0);
}

/* ---- The trial ---- */

/* The pool as the trial begins, and a journal that has a script of long ago in it, forgotten. */
static void set_up(void)
{
    static uint64_t old[JOURNAL];
    memset(old, 0x5a, sizeof old);
    old[DIGEST_AT] = 0;
    int pool_file = open_words(pool_name, WORDS), journal_file = open_words(journal_name, JOURNAL);
    MUST(pwrite(pool_file, before, sizeof before, 0) == sizeof before);
    MUST(pwrite(journal_file, old, sizeof old, 0) == sizeof old);
    MUST(close(pool_file) == 0 && close(journal_file) == 0);
}

static void read_pool(void)
{
    int file = open_words(pool_name, WORDS);
    MUST(pread(file, found, sizeof found, 0) == sizeof found && close(file) == 0);
}

/* 1: the child came to its end; 0: it was killed. Anything else is a fault. */
static int ends(const xapool_batch *one, size_t cut)
{
    int status;
    pid_t child = fork();
    MUST(child >= 0);
    if (child == 0) {
        if (one) {
            writes_left = cut;
            change(one);
        } else {
            start(cut);
        }
        _exit(0);
    }
    MUST(waitpid(child, &status, 0) == child);
    if (WIFSIGNALED(status) && WTERMSIG(status) == SIGKILL)
        return 0;
    MUST(WIFEXITED(status) && WEXITSTATUS(status) == 0);
    return 1;
}

static void killed_at_every_word(const char *what, const xapool_batch *one)
{
    size_t cut, half_written = 0, as_before = 0, done = 0;
    static uint64_t script[ROOM];
    xapool_result r = xapool_prepare(before, WORDS, one->bytes, one->used, script, ROOM);
    memcpy(wanted, before, sizeof before);
    MUST(r.answer == XAPOOL_DONE && r.number > 0);
    MUST(xapool_run(wanted, WORDS, one->bytes, one->used, replies, sizeof replies).number == 1);
    MUST(replies[XAPOOL_AT_ANSWER] == XAPOOL_DONE && memcmp(wanted, before, sizeof before) != 0);
    for (cut = 0;; cut++) {
        set_up();
        int ended = ends(one, cut);
        read_pool();
        half_written += xapool_check(found, WORDS).answer == XAPOOL_NOT_WELL_FORMED;
        int again = ends(NULL, cut * 7 % (r.number + 1)); /* this start may lose its power, too */
        start(SIZE_MAX);
        read_pool();
        /* The length, the script and its digest are in the journal: from then on the command is as good as done. */
        int is_kept = cut >= 2 + r.number;
        MUST(memcmp(found, is_kept ? wanted : before, sizeof found) == 0);
        MUST(again || is_kept);
        as_before += is_kept ? 0 : 1;
        done += is_kept ? 1 : 0;
        if (ended)
            break;
    }
    /* Each word of the journal and of the pool, and the one that forgets; and once the child was not killed. */
    MUST(cut == 2 + r.number + r.number / XAPOOL_PAIR_WORDS + 1 && as_before + done == cut + 1);
    printf("%s: %zu words; killed after each of %zu writes, %zu pools half written: %zu as before, %zu done\n", what,
           (size_t)r.number / XAPOOL_PAIR_WORDS, cut, half_written, as_before, done);
    MUST(half_written > 0);
}

static void fill(void)
{
    xapool_job job = xapool_job_over(before, WORDS, bytes, sizeof bytes, replies, sizeof replies);
    MUST(xapool_init(before, WORDS).answer == XAPOOL_DONE);
    for (uint64_t i = 0; i < 130; i++)
        MUST(xapool_job_store(&job, i, 0, XAPOOL_VALUE(i)));
    MUST(xapool_job_mark(&job, 64, 0) && xapool_job_mark(&job, 65, 1) && xapool_job_store(&job, 1 << 20, 0, XAPOOL_VALUE(9)));
    MUST(xapool_job_end(&job));
}

int main(void)
{
    xapool_batch one;
    MUST(mkdtemp(folder) != NULL);
    snprintf(pool_name, sizeof pool_name, "%s/pool", folder);
    snprintf(journal_name, sizeof journal_name, "%s/journal", folder);
    fill();
    one = xapool_batch_over(bytes, sizeof bytes);
    MUST(xapool_put_store(&one, UINT64_C(1) << 40, 0, XAPOOL_VALUE(7)));
    killed_at_every_word("a store that grows the head", &one);
    one = xapool_batch_over(bytes, sizeof bytes);
    MUST(xapool_put_erase(&one, 1 << 20));
    killed_at_every_word("an erase that frees nodes", &one);
    one = xapool_batch_over(bytes, sizeof bytes);
    MUST(xapool_put_store(&one, 64, 6, XAPOOL_VALUE(8)));
    killed_at_every_word("a store over 64 entries", &one);
    one = xapool_batch_over(bytes, sizeof bytes);
    MUST(xapool_put_mark(&one, 7, XAPOOL_MATCHED_MARK));
    killed_at_every_word("a mark", &one);
    MUST(unlink(pool_name) == 0 && unlink(journal_name) == 0 && rmdir(folder) == 0);
    puts("nothing is lost");
    return 0;
}
