//! The nodes of a range, against the library: it takes every index in so many nodes, and not in one fewer.

use super::*;
use std::ops::RangeInclusive;

/// Whether every index has its entry in a pool of so many nodes, stored upwards or downwards.
fn fits(range: RangeInclusive<u64>, nodes: usize, downwards: bool) -> bool {
    let mut pool = Pool::new(nodes).expect("a good size");
    let mut indices: Vec<u64> = range.collect();
    if downwards {
        indices.reverse();
    }
    let replies =
        pool.run_all(indices.iter().map(|index| store(*index, 0, 3))).expect("a good pool");
    match replies.all_done() {
        Ok(done) => done == indices.len() && pool.nodes_in_use() == nodes,
        Err(not_done) => {
            assert_eq!(not_done.answer, Answer::TooFewNodes);
            false
        }
    }
}

#[test]
fn so_many_nodes_and_not_one_fewer() {
    let far = 1 << 40;
    let ranges = [
        (0, 1),
        (0, 63),
        (0, 64),
        (1, 1),
        (63, 64),
        (64, 64),
        (64, 127),
        (100, 5000),
        (4095, 4096),
        (0, 4095),
        (0, 4096),
        (8192, 9191),
        (far, far + 999),
        (far - 1, far),
        (far - 500, far + 500),
        (LAST - 1000, LAST),
        (LAST, LAST),
        (1 << 63, 1 << 63),
    ];
    for (first, last) in ranges {
        let nodes = nodes_for(first..=last);
        for downwards in [false, true] {
            assert!(fits(first..=last, nodes, downwards), "{first}..={last} in {nodes} nodes");
            let short = nodes > 1 && fits(first..=last, nodes - 1, downwards);
            assert!(!short, "{first}..={last} in {} nodes", nodes - 1);
        }
    }
    // By hand (R19, R20). 100 to 5000 are in the blocks 1 to 78 of 64, in 0 and 1 of 4,096, and in one of
    // 2^18: 78 + 2 + 1. From far up there is a node for each shift.
    assert_eq!([nodes_for(..64), nodes_for(..65), nodes_for(100..=5000)], [1, 3, 81]);
    assert_eq!([nodes_for(LAST..), nodes_for(1 << 40..=1 << 40)], [11, 7]);
    assert_eq!([nodes_for(..1), nodes_for(..0), nodes_for(64..64)], [0, 0, 0]);
}

/// The figures of docs/HOST.md, the largest of them in the library too.
#[test]
fn the_largest_pool() {
    assert_eq!(nodes_for(..62_912), 1000);
    assert_eq!((nodes_for(..1_032_128), nodes_for(..1_032_129)), (16_384, 16_385));
    assert!(fits(0..=1_032_127, MOST_NODES, false));
    assert!(!fits(0..=1_032_128, MOST_NODES, false));
    // 64^10 + 64^9 + .. + 1 blocks of 64, 4096, .., and 16 of 2^60.
    let whole: u64 = (0..=58).rev().step_by(6).map(|power| 1u64 << power).sum::<u64>() + 1;
    assert_eq!(nodes_for(..), whole as usize);
}

#[test]
fn several_ranges_need_no_more_than_their_sum_and_ten_each() {
    for seed in 0..300 {
        let bytes = random_bytes(seed, 30);
        let ranges: Vec<RangeInclusive<u64>> = bytes
            .chunks(10)
            .take(2 + seed as usize % 2)
            .map(|part| {
                let first =
                    u64::from_le_bytes(part[..8].try_into().expect("8 bytes")) >> (part[8] % 60);
                first..=first.saturating_add(u64::from(part[9]))
            })
            .collect();
        let sum: usize = ranges.iter().map(|range| nodes_for(range.clone())).sum();
        let nodes = sum + 10 * (ranges.len() - 1);
        let mut pool = Pool::new(nodes).expect("a good size");
        let stores = ranges.iter().cloned().flatten().map(|index| store(index, 0, 3));
        let replies = pool.run_all(stores).expect("a good pool");
        assert!(replies.all_done().is_ok(), "{ranges:?} in {nodes} nodes");
    }
    // All ten are needed for 0 beside the last index (case 6).
    assert_eq!(nodes_for(..1) + nodes_for(LAST..) + 10, 21);
    assert_eq!(least_nodes(&[CASE_2, store(LAST, 0, 3)]), 21);
}
