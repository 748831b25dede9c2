//! The calls of `libxapool.a` over slices. The only `unsafe` code of this crate.

/// What a call gives: the answer, and a number that depends on it.
#[repr(C)]
#[derive(Clone, Copy, Debug, PartialEq, Eq)]
#[must_use]
pub struct RawResult {
    /// 0 done, 1 to 4 refused; of a list also 8, of preparing a script the command's own, of applying one 17, of a
    /// gate 18 to 20, of a look-up of a name 10 and 16.
    pub answer: u64,
    /// Commands, entries, words of a script, or the place of a bad record; see [`Refusal`](crate::Refusal). Of a gate 1 is a pass.
    /// Of a look-up of a name the object.
    pub number: u64,
}

/// What a comparison gives: the verdict, and the digests of both regions.
#[repr(C)]
#[derive(Clone, Copy, Debug, PartialEq, Eq)]
#[must_use]
pub struct RawComparison {
    /// 0 nothing to compare, 1 matched, 2 different.
    pub verdict: u64,
    /// The digest of the old region, below 2^32.
    pub old_crc: u64,
    /// The digest of the new region, below 2^32.
    pub new_crc: u64,
}

/// What a look-up of evidence gives: where the text stands; all 0 but the answer if there is none.
#[repr(C)]
#[derive(Clone, Copy, Debug, PartialEq, Eq)]
#[must_use]
pub struct RawPart {
    /// 0 found, 3 a sheet is malformed, 10 neither names the index.
    pub answer: u64,
    /// 0 base sheet, 1 supplement.
    pub sheet: u64,
    /// Where the text begins in that sheet.
    pub place: u64,
    /// Its bytes.
    pub length: u64,
}

extern "C" {
    fn xapool_init(pool: *mut u64, pool_words: usize) -> RawResult;
    fn xapool_check(pool: *const u64, pool_words: usize) -> RawResult;
    fn xapool_run(
        pool: *mut u64,
        pool_words: usize,
        batch: *const u8,
        batch_bytes: usize,
        reply: *mut u8,
        reply_bytes: usize,
    ) -> RawResult;
    fn xapool_count(batch: *const u8, batch_bytes: usize) -> RawResult;
    fn xapool_list(
        pool: *const u64,
        pool_words: usize,
        first: u64,
        last: u64,
        buffer: *mut u8,
        buffer_bytes: usize,
    ) -> RawResult;
    fn xapool_crc32c(crc: u32, region: *const u8, region_bytes: usize) -> u32;
    fn xapool_compare(
        old: *const u8,
        old_bytes: usize,
        new: *const u8,
        new_bytes: usize,
    ) -> RawComparison;
    fn xapool_evidence(
        base: *const u8,
        base_bytes: usize,
        supplement: *const u8,
        supplement_bytes: usize,
        index: u64,
    ) -> RawPart;
    fn xapool_prepare(
        pool: *const u64,
        pool_words: usize,
        record: *const u8,
        record_bytes: usize,
        script: *mut u64,
        script_words: usize,
    ) -> RawResult;
    fn xapool_apply(
        pool: *mut u64,
        pool_words: usize,
        script: *const u64,
        script_words: usize,
    ) -> RawResult;
    fn xapool_gate(kind: u64, a: f64, b: f64, part: u32, total: u32) -> RawResult;
    fn xaplain_init(
        index: *mut u64,
        index_words: usize,
        order: *mut u64,
        order_words: usize,
        word: *mut u64,
        word_words: usize,
        marks: *mut u64,
        marks_words: usize,
    ) -> RawResult;
    fn xaplain_check(
        index: *const u64,
        index_words: usize,
        order: *const u64,
        order_words: usize,
        word: *const u64,
        word_words: usize,
        marks: *const u64,
        marks_words: usize,
    ) -> RawResult;
    fn xaplain_run(
        index: *mut u64,
        index_words: usize,
        order: *mut u64,
        order_words: usize,
        word: *mut u64,
        word_words: usize,
        marks: *mut u64,
        marks_words: usize,
        batch: *const u8,
        batch_bytes: usize,
        reply: *mut u8,
        reply_bytes: usize,
    ) -> RawResult;
    fn assoc_clear(pool: *mut u64, pool_words: usize) -> RawResult;
    fn assoc_check(pool: *const u64, pool_words: usize) -> RawResult;
    fn assoc_lookup(
        pool: *const u64,
        pool_words: usize,
        key: *const u8,
        key_bytes: usize,
    ) -> RawResult;
}

/// Makes the words an empty pool, whatever stood there.
pub fn init(pool: &mut [u64]) -> RawResult {
    // SAFETY: the pointer and the length are those of a slice borrowed for the call.
    unsafe { xapool_init(pool.as_mut_ptr(), pool.len()) }
}

/// Whether the words are those of a pool.
pub fn check(pool: &[u64]) -> RawResult {
    // SAFETY: as in `init`; the call only reads.
    unsafe { xapool_check(pool.as_ptr(), pool.len()) }
}

/// Runs a batch on a pool; the replies go into `reply`.
pub fn run(pool: &mut [u64], batch: &[u8], reply: &mut [u8]) -> RawResult {
    // SAFETY: three slices borrowed for the call; the two that are written are borrowed alone.
    unsafe {
        xapool_run(
            pool.as_mut_ptr(),
            pool.len(),
            batch.as_ptr(),
            batch.len(),
            reply.as_mut_ptr(),
            reply.len(),
        )
    }
}

/// How many commands a batch has, or the place of its first bad record.
pub fn count(batch: &[u8]) -> RawResult {
    // SAFETY: as in `check`.
    unsafe { xapool_count(batch.as_ptr(), batch.len()) }
}

/// Lists the entries of a pool that meet first to last, and the reserved indices, into `buffer`, 21
/// bytes each.
pub fn list(pool: &[u64], first: u64, last: u64, buffer: &mut [u8]) -> RawResult {
    let (words, bytes) = (pool.len(), buffer.len());
    // SAFETY: two slices borrowed for the call; the one that is written is borrowed alone.
    unsafe { xapool_list(pool.as_ptr(), words, first, last, buffer.as_mut_ptr(), bytes) }
}

/// The digest CRC-32C of a region: `crc` is 0 to begin, the last result to go on.
#[must_use]
pub fn crc32c(crc: u32, region: &[u8]) -> u32 {
    // SAFETY: as in `check`.
    unsafe { xapool_crc32c(crc, region.as_ptr(), region.len()) }
}

/// Compares an old and a new region.
pub fn compare(old: &[u8], new: &[u8]) -> RawComparison {
    // SAFETY: two slices borrowed for the call, which only reads.
    unsafe { xapool_compare(old.as_ptr(), old.len(), new.as_ptr(), new.len()) }
}

/// Where the text of an index stands in a base sheet or a supplement.
pub fn evidence(base: &[u8], supplement: &[u8], index: u64) -> RawPart {
    let (base_bytes, bytes) = (base.len(), supplement.len());
    // SAFETY: two slices borrowed for the call, which only reads.
    unsafe { xapool_evidence(base.as_ptr(), base_bytes, supplement.as_ptr(), bytes, index) }
}

/// Makes the script of one changing command, given as its record, for this pool; it goes into `script`.
pub fn prepare(pool: &[u64], record: &[u8], script: &mut [u64]) -> RawResult {
    // SAFETY: three slices borrowed for the call; the one that is written is borrowed alone.
    unsafe {
        xapool_prepare(
            pool.as_ptr(),
            pool.len(),
            record.as_ptr(),
            record.len(),
            script.as_mut_ptr(),
            script.len(),
        )
    }
}

/// Writes each word of a script, pairs of a place and a value, in the pool.
pub fn apply(pool: &mut [u64], script: &[u64]) -> RawResult {
    // SAFETY: two slices borrowed for the call; the one that is written is borrowed alone.
    unsafe { xapool_apply(pool.as_mut_ptr(), pool.len(), script.as_ptr(), script.len()) }
}

/// Whether a gate of this kind passes. Its answer is worth nothing unless [`floats_are_ieee`](crate::floats_are_ieee).
pub fn gate(kind: u64, a: f64, b: f64, part: u32, total: u32) -> RawResult {
    // SAFETY: numbers alone.
    unsafe { xapool_gate(kind, a, b, part, total) }
}

/// Makes the four slices of the plain engine (index, order, word, marks) an empty list, whatever stood there.
pub fn plain_init(slices: [&mut [u64]; 4]) -> RawResult {
    let [index, order, word, marks] = slices;
    // SAFETY: four slices borrowed for the call, each of them alone.
    unsafe {
        xaplain_init(
            index.as_mut_ptr(),
            index.len(),
            order.as_mut_ptr(),
            order.len(),
            word.as_mut_ptr(),
            word.len(),
            marks.as_mut_ptr(),
            marks.len(),
        )
    }
}

/// Whether the four slices of the plain engine hold a list and then zeros.
pub fn plain_check(slices: [&[u64]; 4]) -> RawResult {
    let [index, order, word, marks] = slices;
    // SAFETY: four slices borrowed for the call, which only reads.
    unsafe {
        xaplain_check(
            index.as_ptr(),
            index.len(),
            order.as_ptr(),
            order.len(),
            word.as_ptr(),
            word.len(),
            marks.as_ptr(),
            marks.len(),
        )
    }
}

/// Runs a batch by the plain engine; the replies go into `reply`.
pub fn plain_run(slices: [&mut [u64]; 4], batch: &[u8], reply: &mut [u8]) -> RawResult {
    let [index, order, word, marks] = slices;
    // SAFETY: six slices borrowed for the call; the five that are written are borrowed alone.
    unsafe {
        xaplain_run(
            index.as_mut_ptr(),
            index.len(),
            order.as_mut_ptr(),
            order.len(),
            word.as_mut_ptr(),
            word.len(),
            marks.as_mut_ptr(),
            marks.len(),
            batch.as_ptr(),
            batch.len(),
            reply.as_mut_ptr(),
            reply.len(),
        )
    }
}

/// Makes the words a pool of names without keys, whatever stood there.
pub fn names_clear(pool: &mut [u64]) -> RawResult {
    // SAFETY: as in `init`.
    unsafe { assoc_clear(pool.as_mut_ptr(), pool.len()) }
}

/// Whether the words are those of a pool of names.
pub fn names_check(pool: &[u64]) -> RawResult {
    // SAFETY: as in `check`.
    unsafe { assoc_check(pool.as_ptr(), pool.len()) }
}

/// The object of a key in a pool of names.
pub fn names_lookup(pool: &[u64], key: &[u8]) -> RawResult {
    // SAFETY: two slices borrowed for the call, which only reads.
    unsafe { assoc_lookup(pool.as_ptr(), pool.len(), key.as_ptr(), key.len()) }
}
