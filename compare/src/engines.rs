//! The two engines of engine/ against reference/: the same lists of calls, replies byte for byte. A
//! call that an engine does not have (check, list) leaves it as it is.

use crate::figures::{Figures, Of};
use crate::finds::{self, batches, building_in_order};
use crate::lend::{by_reference, given_differs, space_byte, Call, Given};
use crate::list::CallList;
use engine::{Calls, RawEngine, SafeEngine};
use reference::pool::State;
use reference::random::Random;
use reference::recover::recover;

/// Lists of calls and lists made for finds, from pools that are well-formed.
pub fn random_list(seed: u64) -> CallList {
    let mut random = Random::new(seed);
    let list = match random.below(4) {
        0 => finds::random_list(random.word()),
        _ => CallList::random(random.word()),
    };
    match recover(&list.words) {
        Some(_) => list,
        None => CallList { words: State::empty(1 + random.below(45) as usize).words(), ..list },
    }
}

/// An engine with the entries of a pool, and its name.
struct Named {
    name: &'static str,
    engine: Box<dyn Calls>,
}

impl Named {
    /// Both, each as the commands leave it that make these entries.
    fn both(state: &State) -> Option<[Named; 2]> {
        let nodes = state.places.len();
        let safe: Box<dyn Calls> = Box::new(SafeEngine::new(nodes)?);
        let raw: Box<dyn Calls> = Box::new(RawEngine::new(nodes)?);
        let mut both = [("safe engine", safe), ("raw engine", raw)]
            .map(|(name, engine)| Named { name, engine });
        for call in batches(&building_in_order(&state.list)) {
            both.iter_mut().for_each(|engine| drop(engine.call(&call)));
        }
        Some(both)
    }

    /// What it gives; nothing for a call that it does not have.
    fn call(&mut self, call: &Call) -> Option<Given> {
        match call {
            Call::Run { batch, reply } => {
                let mut bytes: Vec<u8> = (0..*reply).map(space_byte).collect();
                let engine::Outcome { answer, number } = self.engine.run(batch, &mut bytes);
                Some(Given { answer, number, bytes })
            }
            Call::Init => {
                self.engine.init();
                None
            }
            Call::Check | Call::List { .. } => None,
        }
    }

    /// After the call, by what reference gave and the nodes that it has in use.
    fn differs(&mut self, call: &Call, expected: &Given, used: usize) -> Option<String> {
        let found = self.call(call);
        let given = found.and_then(|found| given_differs(call, expected, &found, self.name));
        let nodes = self.engine.used();
        given.or_else(|| {
            (nodes != used).then(|| format!("the {} uses {nodes} nodes, not {used}", self.name))
        })
    }
}

/// The first difference, with the number of the call; none for a pool that is not well-formed.
pub fn difference(list: &CallList, figures: Option<Figures>) -> Option<String> {
    let mut both = Named::both(&recover(&list.words)?)?;
    let mut pool = list.words.clone();
    for (number, call) in list.calls.iter().enumerate() {
        let expected = by_reference(call, &mut pool);
        let used = recover(&pool)?.numbers().len();
        let difference = both.iter_mut().find_map(|engine| engine.differs(call, &expected, used));
        if let Some(text) = difference {
            return Some(format!("call {}: {text}", number + 1));
        }
        if let (Call::Run { .. }, Some(figures)) = (call, figures) {
            figures.count_engine_run(&expected);
        }
    }
    figures.iter().for_each(|figures| figures.add(Of::EngineLists, 1));
    None
}
