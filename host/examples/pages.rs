//! Pages of a file kept by number, dirty ones marked; then all dirty ones found, a few steps at a
//! time, as a host that must not block would do it.

use std::error::Error;
use xapool_host::{Command, Pool, Word};

const DIRTY: u8 = 0;

fn main() -> Result<(), Box<dyn Error>> {
    let mut pool = Pool::new(40)?;
    let page = |index: u64, order| -> Result<Command, Box<dyn Error>> {
        let word = Word::handle(0x1000 + 4 * (index % 0x1000))?;
        Ok(Command::Store { index, order, word })
    };
    let dirty = |index| Command::Mark { index, mark: DIRTY };
    let replies = pool.run_all([
        page(3, 0)?,
        page(70, 0)?,
        page(71, 0)?,
        page(5000, 3)?, // eight pages as one entry
        page(u64::MAX, 0)?,
        dirty(70),
        dirty(5001),
        dirty(u64::MAX),
    ])?;
    for reply in &replies {
        println!("{reply}");
        reply.done()?;
    }
    for entry in pool.find(.., DIRTY).with_budget(20).with_batch(4) {
        let entry = entry?;
        println!("dirty: {} to {}, {}", entry.base, entry.last(), entry.word);
    }
    Ok(())
}
