//! Something compared, of any kind; and the search for a smaller one that still differs.

use crate::applies::Applying;
use crate::engines;
use crate::figures::Figures;
use crate::finds;
use crate::gates::Asks;
use crate::list::CallList;
use crate::names::NameRow;
use crate::os::{end_after, in_child, End};
use crate::plain::PlainList;
use crate::prepares::Preparing;
use crate::program::Input;
use crate::sheets::LookUp;
use std::time::{Duration, Instant};

#[derive(Clone, Copy, Debug, PartialEq, Eq)]
pub enum Kind {
    Calls,
    Finds,
    Engine,
    Evidence,
    Gates,
    Plain,
    Apply,
    Prepare,
    Names,
    Program,
}

impl Kind {
    pub fn name(self) -> &'static str {
        match self {
            Kind::Calls => "calls",
            Kind::Finds => "finds",
            Kind::Engine => "engine",
            Kind::Evidence => "evidence",
            Kind::Gates => "gates",
            Kind::Plain => "plain",
            Kind::Apply => "apply",
            Kind::Prepare => "prepare",
            Kind::Names => "names",
            Kind::Program => "program",
        }
    }
}

#[derive(Clone, Debug, PartialEq, Eq)]
pub enum Trial {
    Calls(CallList),
    Finds(CallList),
    /// By the engines of engine/.
    Engine(CallList),
    Evidence(LookUp),
    Gates(Asks),
    /// The plain engine, and the tree beside it.
    Plain(PlainList),
    Apply(Applying),
    Prepare(Preparing),
    /// Pools of names.
    Names(NameRow),
    Program(Input),
}

/// A trial takes milliseconds; one that takes so many seconds does not end.
pub const LONGEST_SECONDS: u32 = 60;
const SHRINK_TIME: Duration = Duration::from_secs(60);

impl Trial {
    pub fn random(kind: Kind, seed: u64) -> Trial {
        match kind {
            Kind::Calls => Trial::Calls(CallList::random(seed)),
            Kind::Finds => Trial::Finds(finds::random_list(seed)),
            Kind::Engine => Trial::Engine(engines::random_list(seed)),
            Kind::Evidence => Trial::Evidence(LookUp::random(seed)),
            Kind::Gates => Trial::Gates(Asks::random(seed)),
            Kind::Plain => Trial::Plain(PlainList::random(seed)),
            Kind::Apply => Trial::Apply(Applying::random(seed)),
            Kind::Prepare => Trial::Prepare(Preparing::random(seed)),
            Kind::Names => Trial::Names(NameRow::random(seed)),
            Kind::Program => Trial::Program(Input::random(seed)),
        }
    }

    pub fn difference(&self, figures: Option<Figures>) -> Option<String> {
        match self {
            Trial::Calls(list) => list.difference(figures),
            Trial::Finds(list) => list.difference_in_finds(figures),
            Trial::Engine(list) => engines::difference(list, figures),
            Trial::Evidence(look_up) => look_up.difference(figures),
            Trial::Gates(asks) => asks.difference(figures),
            Trial::Plain(list) => list.difference(figures),
            Trial::Apply(applying) => applying.difference(figures),
            Trial::Prepare(preparing) => preparing.difference(figures),
            Trial::Names(row) => row.difference(figures),
            Trial::Program(input) => input.difference(figures),
        }
    }

    fn smaller(&self) -> Box<dyn Iterator<Item = Trial> + '_> {
        match self {
            Trial::Calls(list) => Box::new(list.smaller().map(Trial::Calls)),
            Trial::Finds(list) => Box::new(list.smaller().map(Trial::Finds)),
            Trial::Engine(list) => Box::new(list.smaller().map(Trial::Engine)),
            Trial::Evidence(look_up) => Box::new(look_up.smaller().map(Trial::Evidence)),
            Trial::Gates(asks) => Box::new(asks.smaller().map(Trial::Gates)),
            Trial::Plain(list) => Box::new(list.smaller().map(Trial::Plain)),
            Trial::Apply(applying) => Box::new(applying.smaller().map(Trial::Apply)),
            Trial::Prepare(preparing) => Box::new(preparing.smaller().map(Trial::Prepare)),
            Trial::Names(row) => Box::new(row.smaller().map(Trial::Names)),
            Trial::Program(input) => Box::new(input.smaller().map(Trial::Program)),
        }
    }

    fn show(&self) -> String {
        match self {
            Trial::Calls(list) | Trial::Finds(list) | Trial::Engine(list) => list.show(),
            Trial::Evidence(look_up) => look_up.show(),
            Trial::Gates(asks) => asks.show(),
            Trial::Plain(list) => list.show(),
            Trial::Apply(applying) => applying.show(),
            Trial::Prepare(preparing) => preparing.show(),
            Trial::Names(row) => row.show(),
            Trial::Program(input) => input.show(),
        }
    }

    /// Tried in a child process: a crash is a difference as well.
    fn differs(&self) -> bool {
        let end = in_child(|| {
            end_after(LONGEST_SECONDS);
            i32::from(self.difference(None).is_some())
        });
        end != End::Status(0)
    }

    /// The smallest that was found, by leaving things out one after the other.
    fn shrunk(self) -> Trial {
        let started = Instant::now();
        let mut least = self;
        while started.elapsed() < SHRINK_TIME {
            let in_time = |_: &Trial| started.elapsed() < SHRINK_TIME;
            let mut smaller = least.smaller().take_while(in_time);
            let found = smaller.find(|smaller| *smaller != least && smaller.differs());
            drop(smaller);
            match found {
                Some(smaller) => least = smaller,
                None => break,
            }
        }
        least
    }

    /// Shrinks it, prints it and what differs.
    pub fn report(self, name: &str) {
        println!("DIFFERENCE in {name}");
        if !self.differs() {
            println!("it does not come again; the case as it was:\n{}", self.show());
            return;
        }
        let least = self.shrunk();
        println!("shrunk to {}", least.show());
        let end = in_child(|| {
            end_after(LONGEST_SECONDS);
            println!("{}", least.difference(None).unwrap_or_default());
            0
        });
        match end {
            End::Status(0) => {}
            End::Signal(14) => println!("it does not end in {LONGEST_SECONDS} seconds"),
            End::Signal(11 | 7) => {
                println!("it reads past a buffer it was lent, or writes where it may not")
            }
            other => println!("it crashes: {other:?}"),
        }
    }
}
