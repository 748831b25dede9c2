//! The texts of help and version.

use crate::failure::{usage, Failure};
use crate::files;
use std::ffi::OsString;

pub const VERSION: &str = concat!("xabatch ", env!("CARGO_PKG_VERSION"), "\n");

const HELP: &str = "\
usage: xabatch encode [--long | --split PREFIX] [FILE]     text to a batch
       xabatch decode [OPTIONS] [FILE]                     replies, a refused call, a batch, a list or a script to text
       xabatch show [OPTIONS] POOLFILE                     a pool as a tree, and what is wrong with it
       xabatch list [OPTIONS] POOLFILE [FIRST..LAST]       the entries of a pool, as evidence
       xabatch find [OPTIONS] POOLFILE [FIRST..LAST]       the entries of a pool with a mark, the first or all
       xabatch new NODES [POOLFILE]                        an empty pool of 1 to 16,384 nodes
       xabatch new --plain ENTRIES [FILE]                  an empty plain list with room for 0 to 4,096 entries
       xabatch run [OPTIONS] POOLFILE [FILE]               a batch on a pool file; replies to standard output
       xabatch run --plain [OPTIONS] PLAINFILE [FILE]      the same on a plain list, by the plain engine
       xabatch prepare -o SCRIPTFILE POOLFILE [FILE]       one command as a script, safe from power cuts
       xabatch apply [--no-wait] POOLFILE SCRIPTFILE       the script on the pool that it was prepared from
       xabatch crc [FILE..]                                the digest CRC-32C of each file
       xabatch compare [OPTIONS] OLD NEW                   whether two files match: before you erase one
       xabatch evidence BASE SUPPLEMENT INDEX              the text that was written about an index
       xabatch gate KIND LIMIT.. PART TOTAL                whether a share of a job is within its limits
       xabatch names new BLOCKS [FILE]                     an empty pool of names, of 1 to 16,384 blocks
       xabatch names check FILE                            whether a pool of names is well-formed
       xabatch names show [--json] FILE                    a pool of names as a tree, and what is wrong with it
       xabatch names lookup [--json] FILE KEY..            the object of each key
       xabatch help COMMAND                                more on one of these; also xabatch COMMAND -h
       xabatch --version

A FILE that is not named, or is -, is standard input. Results go to standard output. With --json they
are one JSON value; numbers of 64 bits are numbers there, also above 2^53, which some readers round.

Exit status: 0 fine; 1 the input is malformed, the pool is not well-formed, the call was refused,
or a file or the output cannot be read or written; 2 bad usage or a syntax error in the text, which
is named by FILE:LINE:COLUMN; 3 of run, new, prepare and apply: a flush to disk failed; 4 of run --strict
and prepare: not every command was done, and nothing is kept; of evidence: neither sheet names the index; of
names lookup: a key is not there.
Of compare: 0 matched; 1 different; 2 nothing to compare, or a fault. Of gate: 0 pass; 1 fail; 2 refused,
or a fault.
";

const ENCODE: &str = "\
usage: xabatch encode [--long | --split PREFIX] [FILE]

Turns text into a batch. One command a line, # begins a comment. Numbers are decimal or hex (0x40);
max is 2^64 - 1.

  store 64 order 0 value 2         the entry word 2v + 1; v to 2^63 - 1
  store 64 order 3 handle 0x1000   a multiple of 4 above 0; the index a multiple of 2^order
  store 64 order 0 word 5          any word, also one that is refused; mark 2 is clear after a store
  load 64
  erase 64
  mark 64 mark 0
  unmark 64 mark 0
  find 1..max mark 0 budget 100    entries with that mark
  find 1..max any budget 100       any entry
  reserve 64                       holds index 64 until something is stored there

A batch has at most 32,768 bytes; a text that needs more is refused, unless:

  --long           writes all records in a row; 'xabatch run' takes them apart again
  --split PREFIX   writes the batches to PREFIX1, PREFIX2, .. and their names to standard output;
                   a file that is there already is not touched, and nothing is written

Where the text has errors, nothing is written; the first twenty are told, and how many more there are.
";

const DECODE: &str = "\
usage: xabatch decode [--batch BATCHFILE] [--strict] [--json] [FILE]

Writes a line for each record: replies, the record of a refused call, the commands of a batch, or
the entries of a list that was kept as bytes. A file of any length takes a fixed amount of memory. Of a
script, as 'xabatch prepare' writes one, it writes a line for each word that changes: its place, what it
is there, what it was and what it becomes.

  --batch BATCHFILE   the replies are those to this batch: the exit status is 1 unless there is one
                      for each command, of its kind. The program tamburish always exits with 0;
                      this tells whether its output is whole.
  --strict            the exit status is 1 unless there are replies and each is done
  --json              one object: records, replies (how many), not_done (answers, and how many replies
                      have each), fault (what is told on standard error, or null)

A reply is done if its answer is 0, or 12 or 13 of a find, which ended or paused. Any other is not, also
10 of a load: what is absent is no evidence. How many of how many replies are not done, and why, is
told on standard error, also without --strict.

The exit status is 1 if a call was refused or a record is bad; the lines before it are written, and its
place and cause are told: it is cut, of unknown tag, of wrong length, or of a number that no record has.
So it is with a list that no pool gives: an index that is no multiple of 2^order, a word that cannot be
stored, a reserved index with an order or marks, an entry that does not lie behind the one before it. That
a list was cut between two entries, or one was taken out, cannot be told by the list: keep its digest.
";

const SHOW: &str = "\
usage: xabatch show [--summary [--json] | --findings] [--range FIRST..LAST] [--all] POOLFILE

Draws a pool file as a tree and lists what is wrong with it: first what is wrong by itself, then how
much follows from that. A slot that is held without an entry is drawn as 'reserved'; 'filled' is a
node's own count of slots that hold something, as it stands in the pool.

  --summary             counts in place of the tree: entries by order, reserved indices, marks, nodes
                        by shift
  --findings            only what is wrong
  --range FIRST..LAST   only the part of the tree that meets these indices
  --all                 what follows is listed too
  --json                the summary as one object, with the findings

The exit status is 1 if the pool is not well-formed. A well-formed pool can hold wrong entries: the
check knows the structure, not what you stored.
";

const LIST: &str = "\
usage: xabatch list [--bytes | --json] POOLFILE [FIRST..LAST]

Writes a line for each entry that covers an index from FIRST to LAST, both included (all if they are
not named), in index order and each once: its first index, order, word and marks. An entry that
begins before FIRST or ends after LAST is written whole. A reserved index has a line as well: it is
held, and there is no entry. The pool is only read.

  64 order 0 value 2 marks 0,1       index 64 alone, marks 0 and 1 are set
  4096 order 3 handle 0x1000 marks - the 2^3 indices from 4096 on, no mark is set
  4104 reserved                      index 4104 is held

The file may also be a plain list (see 'xabatch help new'): its entries are read from its own rows, which
the library checks first.

  --bytes   the list as the library gives it, 21 bytes an entry: tag 32, length 18 (2 bytes), index
            (8), order, entry (8), marks, each number highest byte first; entry 0 is a reserved
            index. Keep it as evidence; 'xabatch decode' writes its lines
  --json    one object: first, last and entries, each with its index, order, word, value or handle, and
            marks; a reserved index has 'reserved' in their place

The exit status is 1, and nothing is written, if the pool is not well-formed: 'xabatch show' says
what is wrong.
";

const FIND: &str = "\
usage: xabatch find [--all] [--mark MARK] [--budget STEPS] [--json] POOLFILE [FIRST..LAST]

Writes a line for the first entry that covers an index from FIRST to LAST, both included (all if they
are not named), and has the mark, as 'xabatch list' writes it. An entry that begins before FIRST or ends
after LAST is written whole. A reserved index is no entry. The pool is only read. Where there is none
nothing is written: that says nothing of an index without an entry.

  --all      not the first alone, but all of them, in index order and each once
  --mark     0, 1 or 2 (2 is 'matched'); any entry if it is not named
  --budget   so many steps a find, 1 to 65,535, which it is if not named. A find that pauses goes on where it
             paused, so what is written is the same with any
  --json     one object: first, last and entries, as of 'xabatch list'

The exit status is 1, and nothing is written, if the pool is not well-formed: 'xabatch show' says
what is wrong.
";

const NEW: &str = "\
usage: xabatch new NODES [POOLFILE]
       xabatch new --plain ENTRIES [PLAINFILE]

Writes an empty pool of 1 to 16,384 nodes to a new file, or to standard output. A file that is there
already is not touched. A pool file has the pool's 64-bit words in order, each as 8 bytes, lowest
byte first.

The file has its name only when it is whole and flushed to disk; then the folder is flushed. A new
that fails or is killed leaves nothing at that name, or the whole pool. Exit status 3: a flush
failed; what stands is said.

  --plain   an empty plain list in place of a pool, with room for 0 to 4,096 entries. Its file has 16 + 32 N
            bytes for N entries: 'xaplain' and a line feed, N, then four rows of N words, lowest byte first:
            index, order, word and marks of each entry, by rising index, and then zeros
";

const RUN: &str = "\
usage: xabatch run [--plain] [--no-wait] [--strict] [--json] POOLFILE [FILE]

Runs a batch on a pool file and writes the replies to standard output. In this order: the batch is
read; the pool file is locked and read; the batch runs in memory; the new pool is written beside the
old one, flushed to disk and renamed to its name, and the folder is flushed; the lock is given back;
the replies are written. Where the batch changes nothing, the file stays, and it and its folder are
flushed all the same. So a reply that you read is of a pool that is safe, a run that fails or is
killed leaves the old pool or the new one, whole, and runs at the same time go one after another.

  --plain     the file is a plain list, as 'xabatch new --plain' makes one, and the plain engine runs the
              batch: the same replies, but counts of load and find are 0, no find pauses, and 11 ('too few
              free nodes') says that there is no room for another entry. All else here holds of it too. A
              file of the other kind is refused: which engine runs is never guessed
  --no-wait   where another run has the lock, fail in place of waiting
  --strict    nothing is kept unless there is a command and each was done: else the exit status is 4
              and standard error names the commands, up to twenty. No reply is written then: a 'done'
              would be of nothing that is in the pool
  --json      in place of the replies a line of JSON: commands, done, not_done, answers (answer, text
              and replies of each), kept, changed, nodes (of a plain list: room), in_use, free

A command was done if its answer is 0; of a find also 12, ended, and 13, paused. All else was not,
also a load of what is absent. Without --strict the status is 0 then, and a line on standard error
says how many of how many were not done, and why.

A row of records longer than a batch (32,768 bytes) is run as several batches; all or none reach the
file. The new file has the owner, the mode and the extended attributes of the old one, access control
lists among them (but for security.ima and security.evm, which are of the old bytes); where they
cannot be kept, the pool stays as it was. A symbolic link stays and the file that it leads to is
replaced; another hard link of the old file keeps the old pool. A file that may not be written serves
loads and finds.

Exit status 3: the file or its folder cannot be flushed; no reply is written, and what stands is said.
Run the batch again when that is mended; show and list read a pool that cannot be flushed. If the
replies cannot be written, the exit status is 1 and the pool is changed: 'xabatch show' says what it
holds.
";

const PREPARE: &str = "\
usage: xabatch prepare -o SCRIPTFILE [--command TEXT] POOLFILE [FILE]

Makes the script of one command that changes a pool (store, erase, mark, unmark or reserve): the words that
it changes, each with its place, what it was and what it becomes. The pool file is only read. 'xabatch apply'
does what the command does; a program that keeps a pool on raw storage may apply the same script word by
word. The command is the one record of FILE, a batch as 'xabatch encode' writes it, or a text:

  xabatch prepare -o s.script --command 'mark 64 mark 2' p.pool

  -o SCRIPTFILE    the script goes to this file, which has its name only when it is whole and flushed to disk;
                   then the folder is flushed. A file that is there already is not touched
  --command TEXT   the command as text, in place of FILE

The script has a digest of itself, and knows the pool that it was prepared from: its length, a digest of the
words that it does not write, and what stood where it writes. 'xabatch decode' writes its lines.

Exit status: 0 the script is on disk; 4 the command itself would not be done (as a mark where there is no entry);
1 the pool is not well-formed, FILE is not one record of such a command, or a file cannot be read or written;
3 a flush failed, and what stands is said; 2 bad usage. Unless it is 0 or 3 there is no script.
";

const APPLY: &str = "\
usage: xabatch apply [--no-wait] POOLFILE SCRIPTFILE

Writes the words of a script in the pool file that it was prepared from, and says how many were still to be
written. Where an apply on that pool was cut, by whoever, it is ended: the pool is then that of the uncut
command. As 'xabatch run' does, it locks the pool file, writes the new pool beside the old one, flushes it,
renames it and flushes the folder; so one that fails or is killed leaves the file as it was, or the new one.

  --no-wait   where another run has the lock, fail in place of waiting

A script of another pool is refused, also of this one once another command has changed it, and so is one that
is cut or damaged; the pool is then as it was. Applying a script twice is applying it once. It may go when the
exit status is 0: xabatch apply p.pool s.script && rm s.script

Exit status: 0 the pool is on disk; 1 refused, or a file or the output cannot be read or written; 3 a flush
failed, and what stands is said: apply it again when that is mended; 2 bad usage.
";

const CRC: &str = "\
usage: xabatch crc [FILE..]

Writes the digest CRC-32C (RFC 3720) of each file, in eight hex digits, and its name. A file that
cannot be read, or that changes while it is read, is told; the others are written, and the exit
status is 1. Files may be larger than memory. Where standard error is a terminal, a large file has a
bar there.

The digest of an empty file is 00000000, which is told: two digests that are equal do not say that
something was compared. 'xabatch compare' knows the difference.
";

const COMPARE: &str = "\
usage: xabatch compare [--bytes] [--json] OLD NEW

Compares two files byte by byte and writes the length and the digest CRC-32C of each, and then one
of these lines:

  matched                                    both are longer than 0, of one length, all bytes equal
  different: from byte 512                   the first byte, from 0, that differs
  different: from byte 512, where old ends   the other is longer, and the same up to there
  nothing to compare: both are empty         also if one of them is: it is no match
  nothing to compare: one file               OLD is NEW, by a link, a second name or a second device file
  nothing to compare: both are pools ..      pool files, pools of names, plain lists and lists as bytes are an
                                             index, not data: that they are equal is no evidence, and one of them
                                             is enough

  --bytes   compares pool files, pools of names, plain lists and lists as any other files
  --json    one object: verdict, why, old and new (bytes and crc32c of each), first_difference

Exit status: 0 matched, and nothing else; 1 different; 2 nothing to compare, or a fault: bad usage, a
file that cannot be read or that changes while it is read, a report that cannot be written. So
'xabatch compare OLD NEW && rm OLD' erases what has a copy, as far as the file system tells.

Each file is flushed to disk before it is read. A change meanwhile is told by the file and by its name, before
and after: which file it is, its length, and when it was written and changed. What a file system does not
tell is not seen: a write to a disk while that disk itself is compared; a write through a mapping in a file
system in memory, or on another machine; two names of one file on different mounts of a network, a disk and a
part of it, a loop device and its file. A file of holes alone reads as zeros and matches others, which is
told on standard error.

One of both may be -, standard input. Files may be larger than memory. Where standard error is a
terminal, large files have a bar there.
";

const EVIDENCE: &str = "\
usage: xabatch evidence BASE SUPPLEMENT INDEX

Writes the text that the supplement has of an index, or, only if that does not name it, the one that
the base sheet has: its bytes and nothing else. A sheet is records in a row, also none:

  tag 48, length of index and text (2 bytes), index (8), text; each number highest byte first

Of several records of an index in one sheet the last counts. A text may be empty: it is found, and that is
told on standard error. INDEX is decimal or hex (0x40), or max. One of both sheets may be -, standard
input, and either may be empty.

Exit status: 0 found, and the text is written; 4 neither sheet names the index, which is no evidence of
anything; 1 a sheet is malformed, wherever the damage is (a record cut off, another tag, a length under 8),
or a file or the output cannot be read or written; 2 bad usage. Unless it is 0, no text is given.
";

const GATE: &str = "\
usage: xabatch gate at-least A MATCHED TOTAL
       xabatch gate at-most B UNREAD TOTAL
       xabatch gate between A B MATCHED TOTAL

Says whether a share of a job is within its limits, and writes 'pass: ..' or 'fail: ..':

  at-least A    the matched share is at least A
  at-most B     the unread share is at most B
  between A B   the matched share is at least A and at most B

A limit is a decimal from 0 to 1, or the bits of a float as 0x and 16 digits; MATCHED, UNREAD and TOTAL are
counts up to 4,294,967,295, decimal or hex. The share is one division of 64-bit floats, rounded once: one that is
exactly at its limit passes, and 'at-least 1' passes only if all is matched.

Exit status: 0 pass, and nothing else; 1 fail; 2 refused, or a fault: a limit that is not a number from 0 to 1,
or A above B; a total of 0, which never passes; a part above its total; floats that do not round to nearest or
lose subnormals, before anything else; bad usage; a verdict that cannot be written.
";

const NAMES: &str = "\
usage: xabatch names new BLOCKS [FILE]
       xabatch names check FILE
       xabatch names show [--json] FILE
       xabatch names lookup [--json] FILE KEY..

A pool of names has objects by keys of 1 to 32 bytes, and is no pool of entries by index: no batch runs on it, and the other
commands name it. The library checks the whole pool before it gives an object. But for new, the file is only read.

  new      an empty pool of 1 to 16,384 blocks, to a new file or to standard output. A file that is there
           already is not touched, and the new one has its name only when it is whole and on disk
  check    writes 'well-formed'; else says what the library answered
  show     draws the pool as a tree and lists what is wrong with it. A node or a shortcut has the nibbles that
           all numbers of its block begin with: two of the length, then those of the key's bytes, high nibble first
  lookup   writes a line for each key that is there: key, colon, object (value or handle). Each that is not is named
           on standard error, and the exit status is 4: what is absent is no evidence

  --json   of show one object: words, blocks, in_use, free, keys (how many), root (the tree: of each block its kind,
           its number and what it has), well_formed, findings; of lookup: keys (key, found, word, value or handle), absent

A key is a text, of which the bytes count, or 0x and two hex digits for each byte. After text: a text may begin with 0x, with
text: or with a minus: text:0x12 has four bytes, 0x12 has one. Keys are written in the same way, so that what is written can
be given again: as hex if a byte is not printable ASCII or is a quote or a backslash, or if a space is first or last.

A pool of N blocks has 2 + 24 N words, each as 8 bytes, lowest byte first, and nothing else; its first word is N, by which
it is told from a pool file, of 4 + 70 N words.

Exit status: 0 fine; 4 a key is not there; 1 the pool is not well-formed, or of another length or kind, or a file or the output
cannot be read or written; 2 bad usage, as a key without a byte or with more than 32: then nothing is looked up; 3 of new: a
flush failed, and what stands is said.
";

fn text_of(command: &str) -> Option<&'static str> {
    Some(match command {
        "encode" => ENCODE,
        "decode" => DECODE,
        "show" => SHOW,
        "list" => LIST,
        "find" => FIND,
        "new" => NEW,
        "run" => RUN,
        "prepare" => PREPARE,
        "apply" => APPLY,
        "crc" => CRC,
        "compare" => COMPARE,
        "evidence" => EVIDENCE,
        "gate" => GATE,
        "names" => NAMES,
        _ => return None,
    })
}

/// Help for one command, or for all.
pub fn write(command: Option<&OsString>) -> Result<(), Failure> {
    command.map_or_else(|| files::write(HELP.as_bytes()), |name| write_of(&name.to_string_lossy()))
}

pub fn write_of(command: &str) -> Result<(), Failure> {
    let unknown = || usage(format!("'{command}': no such command; try 'xabatch --help'"));
    files::write(text_of(command).ok_or_else(unknown)?.as_bytes())
}
