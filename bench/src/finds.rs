//! Finds over several trees, for the comparison of two builds and that with the engines.

use crate::loads::*;
use xapool_host::{Command, FIND_ANY};

/// As many as are wanted of a dense load of so many indices.
pub fn loads(indices: u64) -> Vec<Load> {
    let finds = indices / 2;
    vec![
        marked_finds(indices, indices),
        over_runs(indices, finds),
        over_gaps(indices, finds),
        over_sparse(finds, OLDER),
    ]
}

/// Entries of random orders 0 to 5, one after the other, each at the next index that it may have.
pub fn runs(random: &mut Random, indices: u64) -> Vec<(u64, u8)> {
    let mut all = Vec::new();
    let mut next = 0;
    loop {
        let order = random.below(6) as u8;
        let base = u64::next_multiple_of(next, 1 << order);
        next = base + (1 << order);
        if next > indices {
            return all;
        }
        all.push((base, order));
    }
}

pub fn over_runs(indices: u64, finds: u64) -> Load {
    let mut random = Random(4);
    let runs = runs(&mut random, indices);
    let every = MARKED_EVERY.min(runs.len() as u64) as usize;
    let marked: Vec<u64> = runs.iter().skip(every - 1).step_by(every).map(|run| run.0).collect();
    let mut setup: Vec<Command> =
        runs.iter().map(|(base, order)| store_order(*base, *order)).collect();
    setup.extend(marked.iter().map(|index| mark(*index)));
    let most = marked.last().map_or(1, |last| last + 1);
    let timed = (0..finds).map(|_| find(random.below(most), MARK)).collect();
    let about = format!(
        "from random indices, {} entries of orders 0 to 5, one in {every} marked",
        runs.len()
    );
    Load::new("marked finds over runs", about, vec![Work { setup, timed }])
}

pub fn over_gaps(indices: u64, finds: u64) -> Load {
    let mut random = Random(5);
    let setup = one_in_97(indices).map(store).collect();
    // From here on there is an entry.
    let most = indices - indices % MARKED_EVERY;
    let timed = (0..finds).map(|_| find(random.below(most), FIND_ANY)).collect();
    let about = format!("filter 3, one index in {MARKED_EVERY} stored, below {indices}");
    Load::new("finds over gaps", about, vec![Work { setup, timed }])
}

pub fn over_sparse(finds: u64, scatter: Scatter) -> Load {
    let Scatter { entries, nodes } = scatter;
    let mut random = Random(6);
    let indices: Vec<u64> = (0..entries).map(|_| random.below(1 << 24)).collect();
    let most = indices.iter().max().map_or(1, |last| last + 1);
    let timed = (0..finds).map(|_| find(random.below(most), FIND_ANY)).collect();
    let setup = indices.into_iter().map(store).collect();
    let about = format!("filter 3, {entries} entries at random below 2^24");
    Load { nodes, ..Load::new("finds, sparse", about, vec![Work { setup, timed }]) }
}
