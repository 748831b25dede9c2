//! The rules for entries against 512 cells, one for each index: no list, no tree.

use crate::helpers::*;
use reference::batch::Command;
use reference::calls::list;
use reference::random::Random;

const SEED: u64 = 97;
const CELLS: usize = 512;

/// What each index below 512 is covered by: base, order, word, marks. The word of a reservation is 0.
type Cell = Option<(u64, u8, u64, u8)>;

struct Cells {
    cells: Vec<Cell>,
}

impl Cells {
    fn fill(&mut self, base: u64, order: u8, cell: Cell) {
        for index in base..base + (1 << order) {
            self.cells[index as usize] = cell;
        }
    }

    fn said(&self, index: u64) -> Said {
        match self.cells[index as usize] {
            Some((base, order, word, marks)) if word > 0 => gives(base, order, word, marks),
            _ => only(10),
        }
    }

    fn reserve(&mut self, index: u64) -> Said {
        if self.cells[index as usize].is_some() {
            return only(15);
        }
        self.fill(index, 0, Some((index, 0, 0, 0)));
        gives(index, 0, 0, 0)
    }

    /// Marks 0 and 1 are the rest by 4.
    fn store(&mut self, index: u64, order: u8, word: u64) -> Said {
        if index >> order << order != index {
            return only(14);
        }
        match self.cells[index as usize] {
            Some((base, larger, _, marks)) if larger >= order => {
                self.fill(base, larger, Some((base, larger, word, marks % 4)));
            }
            _ => {
                let run = index as usize..(index + (1 << order)) as usize;
                let gone = self.cells[run].iter().flatten();
                let marks = gone.fold(0, |marks, cell| marks | cell.3);
                self.fill(index, order, Some((index, order, word, marks % 4)));
            }
        }
        self.said(index)
    }

    fn erase(&mut self, index: u64) -> Said {
        let Some((base, order, word, marks)) = self.cells[index as usize] else {
            return only(10);
        };
        self.fill(base, order, None);
        gives(base, order, word, marks)
    }

    fn set_marks(&mut self, index: u64, change: impl Fn(u8) -> u8) -> Said {
        match self.cells[index as usize] {
            Some((base, order, word, marks)) if word > 0 => {
                self.fill(base, order, Some((base, order, word, change(marks))));
            }
            _ => {}
        }
        self.said(index)
    }

    /// The first entry with the mark that covers an index from first to last.
    fn find(&self, first: u64, last: u64, filter: u8) -> Said {
        let range = &self.cells[first as usize..=last as usize];
        let wanted = |marks: u8| filter == 3 || marks >> filter & 1 == 1;
        match range.iter().flatten().find(|cell| cell.2 > 0 && wanted(cell.3)) {
            Some((base, order, word, marks)) => gives(*base, *order, *word, *marks),
            None => only(12),
        }
    }

    /// What is listed from first to last: each entry where the cells of another begin.
    fn listing(&self, first: u64, last: u64) -> Vec<u8> {
        let mut found: Vec<Cell> = self.cells[first as usize..=last as usize].to_vec();
        found.dedup();
        let bytes = |(base, order, word, marks): (u64, u8, u64, u8)| {
            record(32, 18, &[&base.to_be_bytes(), &[order], &word.to_be_bytes(), &[marks]])
        };
        found.into_iter().flatten().flat_map(bytes).collect()
    }
}

#[test]
fn random_commands_against_cells() {
    println!("seed {SEED}");
    let mut random = Random::new(SEED);
    for _ in 0..40 {
        let mut pool = Pool::fresh(12);
        let mut cells = Cells { cells: vec![None; CELLS] };
        for _ in 0..60 {
            change(&mut pool, &mut cells, &mut random);
            look(&mut pool, &cells, &mut random);
        }
    }
}

fn change(pool: &mut Pool, cells: &mut Cells, random: &mut Random) {
    let index = random.below(CELLS as u64);
    let mark = random.below(3) as u8;
    match random.below(10) {
        0..=3 => {
            let order = if random.one_in(8) { random.below(9) } else { random.below(5) } as u8;
            let word = 2 * random.below(900) + 1;
            let index = if random.one_in(6) { index } else { index >> order << order };
            let said = cells.store(index, order, word);
            pool.expect_store(index, order, word, said);
        }
        4 => pool.expect_erase(index, cells.erase(index)),
        5 | 6 => pool.expect_mark(index, mark, cells.set_marks(index, |m| m | 1 << mark)),
        7 => pool.expect_unmark(index, mark, cells.set_marks(index, |m| m & !(1 << mark))),
        _ => pool.expect(Command::Reserve { index }, cells.reserve(index)),
    }
}

/// Loads some indices and finds in some ranges; the counts are not the cells' affair.
fn look(pool: &mut Pool, cells: &Cells, random: &mut Random) {
    for _ in 0..10 {
        let (one, other) = (random.below(CELLS as u64), random.below(CELLS as u64));
        let (first, last, filter) = (one.min(other), one.max(other), random.below(4) as u8);
        list_cells(pool, cells, first, last);
        let find = Command::Find { first, last, filter, budget: 1000 };
        for (command, said) in [
            (Command::Load { index: one }, cells.said(one)),
            (find, cells.find(first, last, filter)),
        ] {
            let record = bytes_of(command);
            let reply = pool.run(&record, 1);
            assert_eq!(reply[..22], said.bytes(record[0])[..22], "{command:?}");
        }
    }
}

fn list_cells(pool: &Pool, cells: &Cells, first: u64, last: u64) {
    let wanted = cells.listing(first, last);
    let mut found = vec![UNTOUCHED; wanted.len()];
    let entries = wanted.len() as u64 / 21;
    assert_eq!(list(&pool.words, first, last, &mut found), outcome(0, entries));
    assert_eq!(found, wanted, "{first} to {last}");
}
