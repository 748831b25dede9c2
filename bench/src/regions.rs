//! Digests and comparisons: how many bytes a second, beside ordinary Rust of the same kinds.

use crate::loads::Random;
use crate::measure::nanoseconds;
use std::hint::black_box;
use std::time::Instant;
use xapool_host::raw::{self, RawComparison};

/// The bytes of a region; the longest ones are larger than a processor keeps near.
const SIZES: [usize; 4] = [64, 4 << 10, 1 << 20, 32 << 20];
/// Small regions many times, so that a clock can tell.
const AT_LEAST: usize = 1 << 20;
const POLYNOMIAL: u32 = 0x82f6_3b78;

/// A row: nanoseconds a call, the shortest of some times.
pub struct Row {
    pub bytes: usize,
    pub crc: f64,
    pub matched: f64,
    /// Of regions of which the last byte differs.
    pub different: f64,
    pub by_8: f64,
    pub by_byte: f64,
}

impl Row {
    /// Bytes a nanosecond are gigabytes a second.
    pub fn pace(&self, time: f64) -> f64 {
        self.bytes as f64 / time
    }
}

/// Regions of so many bytes at most; all ways must give the same digest.
pub fn rows(most: usize, repeats: u32) -> Result<Vec<Row>, String> {
    let tables = Tables::new();
    let sizes = SIZES.into_iter().filter(|bytes| *bytes <= most);
    sizes.map(|bytes| row(&tables, bytes, repeats)).collect()
}

fn row(tables: &Tables, bytes: usize, repeats: u32) -> Result<Row, String> {
    let mut random = Random(22);
    let region: Vec<u8> = (0..bytes).map(|_| random.below(256) as u8).collect();
    let other = region.clone();
    let digests = [raw::crc32c(0, &region), tables.by_8(&region), tables.by_byte(&region)];
    let crc = u64::from(digests[0]);
    let matched = RawComparison { verdict: 1, old_crc: crc, new_crc: crc };
    if digests != [digests[0]; 3] || raw::compare(&region, &other) != matched {
        return Err(format!("{bytes} bytes: other digests, or no match: {digests:08x?}"));
    }
    let mut different = region.clone();
    different[bytes - 1] ^= 1;
    let best = |call: &dyn Fn(&[u8]) -> u32| time(call, &region, repeats);
    Ok(Row {
        bytes,
        crc: best(&|region| raw::crc32c(0, region)),
        matched: best(&|region| raw::compare(region, &other).new_crc as u32),
        different: best(&|region| raw::compare(region, &different).new_crc as u32),
        by_8: best(&|region| tables.by_8(region)),
        by_byte: best(&|region| tables.by_byte(region)),
    })
}

fn time(call: &dyn Fn(&[u8]) -> u32, region: &[u8], repeats: u32) -> f64 {
    let calls = (AT_LEAST / region.len()).max(1);
    let once = |_| {
        let start = Instant::now();
        for _ in 0..calls {
            black_box(call(black_box(region)));
        }
        nanoseconds(start) / calls as f64
    };
    (0..repeats).map(once).fold(f64::MAX, f64::min)
}

/// Eight tables: what a byte does to the digest, followed by 0 to 7 bytes of zeros.
struct Tables([[u32; 256]; 8]);

impl Tables {
    fn new() -> Tables {
        let bit = |crc: u32, _| if crc & 1 == 1 { crc >> 1 ^ POLYNOMIAL } else { crc >> 1 };
        let first: [u32; 256] = std::array::from_fn(|byte| (0..8).fold(byte as u32, bit));
        let mut tables = [first; 8];
        for zeros in 1..8 {
            let one_more = |before: u32| before >> 8 ^ first[before as usize & 255];
            tables[zeros] = tables[zeros - 1].map(one_more);
        }
        Tables(tables)
    }

    #[inline(never)]
    fn by_byte(&self, region: &[u8]) -> u32 {
        !self.bytes(u32::MAX, region)
    }

    fn bytes(&self, crc: u32, region: &[u8]) -> u32 {
        let table = &self.0[0];
        region.iter().fold(crc, |crc, byte| crc >> 8 ^ table[(crc as u8 ^ byte) as usize])
    }

    /// Slicing by 8, as plain as it is known.
    #[inline(never)]
    fn by_8(&self, region: &[u8]) -> u32 {
        let mut crc = u32::MAX;
        let mut parts = region.chunks_exact(8);
        for part in &mut parts {
            let low = crc ^ u32::from_le_bytes([part[0], part[1], part[2], part[3]]);
            let [a, b, c, d] = low.to_le_bytes().map(usize::from);
            let [e, f, g, h] = [part[4], part[5], part[6], part[7]].map(usize::from);
            let tables = &self.0;
            crc = tables[7][a] ^ tables[6][b] ^ tables[5][c] ^ tables[4][d];
            crc ^= tables[3][e] ^ tables[2][f] ^ tables[1][g] ^ tables[0][h];
        }
        !self.bytes(crc, parts.remainder())
    }
}
