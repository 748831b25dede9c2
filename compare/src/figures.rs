//! What was compared so far, counted in memory that the child process shares with us.

use crate::applies;
use crate::gates;
use crate::lend::{Call, Given};
use crate::listings::{kinds, KINDS};
use crate::os::{shared_numbers, SHARED_NUMBERS};
use crate::plain_kinds;
use crate::plain_slices::Slices;
use crate::prepare_kinds;
use crate::reserves;
use crate::sheets;
use crate::stretch::{counts, FindCounts};
use std::sync::atomic::{AtomicU64, Ordering::Relaxed};

#[derive(Clone, Copy)]
pub struct Figures {
    numbers: &'static [AtomicU64; SHARED_NUMBERS],
}

/// Which number is what.
#[derive(Clone, Copy)]
pub enum Of {
    Seed = 0,
    Lists = 1,
    Calls = 2,
    Batches = 3,
    Commands = 4,
    Words = 5,
    ReplyBytes = 6,
    ProgramBatches = 7,
    ProgramBytes = 8,
    Changes = 9,
    Applies = 10,
    AppliedWords = 11,
    Cuts = 12,
    PreparedPools = 13,
    PreparedWords = 14,
    PreparedCuts = 15,
    FindLists = 48,
    FindWords = 49,
    FindReplyBytes = 50,
    Finds = 51,
    PausedInside = 52,
    LastInside = 53,
    AnyPausedInside = 54,
    AnyLastInside = 55,
    FromSibling = 56,
    OverRuns = 57,
    Reserves = 58,
    Listings = 64,
    ListedBytes = 65,
    EngineLists = 66,
    EngineBatches = 67,
    EngineReplyBytes = 68,
    LookUps = 69,
    SheetBytes = 70,
    Gates = 71,
    PlainLists = 208,
    PlainCalls = 209,
    PlainWords = 210,
    PlainReplyBytes = 211,
    PlainBeside = 212,
}

/// The first number of the answers of calls and of those in replies.
const CALL_ANSWERS: usize = 16;
const REPLY_ANSWERS: usize = 32;

/// The first number of the answers of the engine's calls, and of those in its replies.
const ENGINE_CALL_ANSWERS: usize = 72;
const ENGINE_REPLY_ANSWERS: usize = 80;

/// The first number of the kinds of listings.
const LISTING_KINDS: usize = 96;

/// The first number of the kinds of commands about reservations.
const RESERVE_KINDS: usize = 128;

/// The first number of the kinds of look-ups in sheets.
const SHEET_KINDS: usize = 160;

/// The first number of the kinds of gates.
const GATE_KINDS: usize = 192;

/// The first number of the plain engine's answers of calls, of those in replies, and of its kinds.
const PLAIN_CALL_ANSWERS: usize = 224;
const PLAIN_REPLY_ANSWERS: usize = 232;
const PLAIN_KINDS: usize = 256;
/// The first number of the kinds of applying.
const APPLY_KINDS: usize = 304;
/// The first number of preparing's answers, of the heights of its pools, and of its kinds.
const PREPARE_ANSWERS: usize = 320;
const PREPARE_HEIGHTS: usize = 336;
const PREPARE_KINDS: usize = 352;
/// The first number of what is counted in name_figures.rs.
pub const NAMES: usize = 400;
/// In so many calls each answer comes.
const ENOUGH_PREPARED: u64 = 20_000;

impl Figures {
    pub fn new() -> Figures {
        Figures { numbers: shared_numbers() }
    }

    pub fn get(self, of: Of) -> u64 {
        self.numbers[of as usize].load(Relaxed)
    }

    pub fn set(self, of: Of, number: u64) {
        self.numbers[of as usize].store(number, Relaxed);
    }

    pub fn add(self, of: Of, number: usize) {
        self.numbers[of as usize].fetch_add(number as u64, Relaxed);
    }

    /// A number by its place, and more of it.
    pub fn at(self, place: usize) -> u64 {
        self.numbers[place].load(Relaxed)
    }

    pub fn add_at(self, place: usize, number: usize) {
        self.numbers[place].fetch_add(number as u64, Relaxed);
    }

    /// Counts a call, by reference's pool before and after it and what it gave.
    pub fn count(self, call: &Call, before: &[u64], pool: &[u64], given: &Given) {
        self.add(Of::Calls, 1);
        self.add(Of::Words, pool.len());
        self.numbers[CALL_ANSWERS + given.answer as usize].fetch_add(1, Relaxed);
        match call {
            Call::Init | Call::Check => {}
            Call::Run { batch, .. } => {
                self.count_run(given);
                self.count_reserves(before, batch, given);
            }
            Call::List { .. } => self.count_listing(call, pool, given),
        }
    }

    fn count_run(self, given: &Given) {
        self.add(Of::Batches, 1);
        self.add(Of::ReplyBytes, given.bytes.len());
        if given.answer == 0 {
            self.add(Of::Commands, given.number as usize);
            self.count_replies(REPLY_ANSWERS, given);
        }
    }

    /// Counts the answers in the replies of a run that was done, from this number on.
    fn count_replies(self, from: usize, given: &Given) {
        for reply in given.bytes.chunks(24).take(given.number as usize) {
            self.numbers[from + usize::from(reply[3])].fetch_add(1, Relaxed);
        }
    }

    /// Counts a run by the engines, by what reference gave.
    pub fn count_engine_run(self, given: &Given) {
        self.add(Of::EngineBatches, 1);
        self.add(Of::EngineReplyBytes, given.bytes.len());
        self.numbers[ENGINE_CALL_ANSWERS + given.answer as usize].fetch_add(1, Relaxed);
        if given.answer == 0 {
            self.count_replies(ENGINE_REPLY_ANSWERS, given);
        }
    }

    /// Counts what a run has to do with reservations, by its kinds.
    fn count_reserves(self, before: &[u64], batch: &[u8], given: &Given) {
        if given.answer != 0 {
            return;
        }
        let (reserves, kinds) = reserves::of_run(before, batch, &given.bytes);
        self.add(Of::Reserves, reserves);
        for kind in kinds {
            self.numbers[RESERVE_KINDS + kind as usize].fetch_add(1, Relaxed);
        }
    }

    /// Counts a listing by its kinds.
    fn count_listing(self, call: &Call, pool: &[u64], given: &Given) {
        self.add(Of::Listings, 1);
        self.add(Of::ListedBytes, given.bytes.len());
        for kind in kinds(call, pool, given) {
            self.numbers[LISTING_KINDS + kind as usize].fetch_add(1, Relaxed);
        }
    }

    /// Counts a call of a list that is made for finds, by reference's pools and what it gave.
    pub fn count_finds(self, call: &Call, before: &[u64], pool: &[u64], given: &Given) {
        self.add(Of::FindWords, pool.len());
        if let Call::Run { batch, .. } = call {
            self.count_reserves(before, batch, given);
        }
        if matches!(call, Call::List { .. }) {
            return self.count_listing(call, pool, given);
        }
        self.add(Of::FindReplyBytes, given.bytes.len());
        let found: FindCounts = counts(call, pool, &given.bytes);
        self.add(Of::Finds, found.finds);
        self.add(Of::PausedInside, found.paused_inside);
        self.add(Of::LastInside, found.last_inside);
        self.add(Of::AnyPausedInside, found.any_paused_inside);
        self.add(Of::AnyLastInside, found.any_last_inside);
        self.add(Of::FromSibling, found.from_sibling);
        self.add(Of::OverRuns, found.over_runs);
    }

    pub fn answers(self, from: usize, answers: std::ops::Range<usize>) -> String {
        let each = answers.map(|answer| (answer, self.numbers[from + answer].load(Relaxed)));
        let named: Vec<String> = each
            .filter(|(_, count)| *count > 0)
            .map(|(answer, count)| format!("{answer}: {count}"))
            .collect();
        named.join(", ")
    }

    pub fn print_calls(self) {
        println!(
            "calls: {} lists of calls, {} calls, {} batches, {} commands, {} words and {} reply bytes compared",
            self.get(Of::Lists),
            self.get(Of::Calls),
            self.get(Of::Batches),
            self.get(Of::Commands),
            self.get(Of::Words),
            self.get(Of::ReplyBytes)
        );
        println!("  answers of calls      {}", self.answers(CALL_ANSWERS, 0..9));
        println!("  answers in replies    {}", self.answers(REPLY_ANSWERS, 0..16));
    }

    pub fn print_finds(self) {
        println!(
            "finds: {} lists made for finds, {} finds, {} words and {} reply bytes compared",
            self.get(Of::FindLists),
            self.get(Of::Finds),
            self.get(Of::FindWords),
            self.get(Of::FindReplyBytes)
        );
        println!(
            "  filter 0, 1, 2: {} paused and {} ended by last inside a stretch, {} over entries of several slots",
            self.get(Of::PausedInside),
            self.get(Of::LastInside),
            self.get(Of::OverRuns)
        );
        println!(
            "  filter 3: {} paused and {} ended by last inside a stretch; any filter: {} from a sibling slot",
            self.get(Of::AnyPausedInside),
            self.get(Of::AnyLastInside),
            self.get(Of::FromSibling)
        );
    }

    /// The counts of these kinds from this number on, some on each line.
    pub fn print_kinds(self, from: usize, names: &[&str]) {
        let count = |kind: usize| self.numbers[from + kind].load(Relaxed);
        let named: Vec<String> = names
            .iter()
            .enumerate()
            .map(|(kind, name)| format!("{name}: {}", count(kind)))
            .collect();
        named.chunks(6).for_each(|line| println!("  {}", line.join(", ")));
    }

    /// Those of the lists of calls and of the lists made for finds.
    pub fn print_listings(self) {
        println!(
            "listings: {} in lists of both kinds, {} bytes of buffers compared",
            self.get(Of::Listings),
            self.get(Of::ListedBytes)
        );
        self.print_kinds(LISTING_KINDS, &KINDS.map(|(_, name)| name));
    }

    /// Those of the lists of calls and of the lists made for finds.
    pub fn print_reserves(self) {
        println!("reservations: {} reserves in lists of both kinds", self.get(Of::Reserves));
        self.print_kinds(RESERVE_KINDS, &reserves::KINDS.map(|(_, name)| name));
    }

    /// Counts a look-up by its kinds.
    pub fn count_sheets(self, kinds: &[sheets::Kind]) {
        for kind in kinds {
            self.numbers[SHEET_KINDS + *kind as usize].fetch_add(1, Relaxed);
        }
    }

    pub fn print_sheets(self) {
        println!(
            "evidence: {} look-ups, {} bytes of sheets, each result compared",
            self.get(Of::LookUps),
            self.get(Of::SheetBytes)
        );
        self.print_kinds(SHEET_KINDS, &sheets::KINDS.map(|(_, name)| name));
    }

    /// Counts a gate by its kinds.
    pub fn count_gate(self, kinds: &[gates::Kind]) {
        for kind in kinds {
            self.numbers[GATE_KINDS + *kind as usize].fetch_add(1, Relaxed);
        }
    }

    pub fn print_gates(self) {
        println!("gates: {} calls, each result compared", self.get(Of::Gates));
        self.print_kinds(GATE_KINDS, &gates::KINDS.map(|(_, name)| name));
    }

    /// Counts a call of the plain engine, by what reference gave and the slices after it.
    pub fn count_plain(
        self,
        call: &Call,
        slices: &Slices,
        given: &Given,
        kinds: &[plain_kinds::Kind],
    ) {
        self.add(Of::PlainCalls, 1);
        self.add(Of::PlainWords, slices.iter().map(Vec::len).sum());
        self.add(Of::PlainReplyBytes, given.bytes.len());
        self.numbers[PLAIN_CALL_ANSWERS + given.answer as usize].fetch_add(1, Relaxed);
        if let (Call::Run { .. }, 0) = (call, given.answer) {
            self.count_replies(PLAIN_REPLY_ANSWERS, given);
        }
        for kind in kinds {
            self.numbers[PLAIN_KINDS + *kind as usize].fetch_add(1, Relaxed);
        }
    }

    pub fn print_plain(self) {
        let replies = (0..16).map(|answer| PLAIN_REPLY_ANSWERS + answer);
        let commands: u64 = replies.map(|number| self.numbers[number].load(Relaxed)).sum();
        println!(
            "plain: {} lists of calls, {} calls, {commands} commands, {} words and {} reply bytes compared; {} batches beside the tree",
            self.get(Of::PlainLists),
            self.get(Of::PlainCalls),
            self.get(Of::PlainWords),
            self.get(Of::PlainReplyBytes),
            self.get(Of::PlainBeside)
        );
        println!("  answers of calls      {}", self.answers(PLAIN_CALL_ANSWERS, 0..5));
        println!("  answers in replies    {}", self.answers(PLAIN_REPLY_ANSWERS, 0..16));
        self.print_kinds(PLAIN_KINDS, &plain_kinds::KINDS.map(|(_, name)| name));
    }

    /// Counts an applying by its kinds.
    pub fn count_applying(self, kinds: &[applies::Kind]) {
        for kind in kinds {
            self.numbers[APPLY_KINDS + *kind as usize].fetch_add(1, Relaxed);
        }
    }

    pub fn print_applies(self) {
        println!(
            "apply: {} calls, {} words compared, {} of them after a cut, some of the writes or garbage",
            self.get(Of::Applies),
            self.get(Of::AppliedWords),
            self.get(Of::Cuts)
        );
        self.print_kinds(APPLY_KINDS, &applies::KINDS.map(|(_, name)| name));
    }

    pub fn count_prepare_answer(self, answer: u64) {
        self.numbers[PREPARE_ANSWERS + answer as usize].fetch_add(1, Relaxed);
    }

    /// Counts a preparing by its kinds.
    pub fn count_preparing(self, kinds: &[prepare_kinds::Kind]) {
        for kind in kinds {
            self.numbers[PREPARE_KINDS + *kind as usize].fetch_add(1, Relaxed);
        }
    }

    /// Counts a pool of preparings by the height of its tree.
    pub fn count_height(self, height: usize) {
        self.numbers[PREPARE_HEIGHTS + height].fetch_add(1, Relaxed);
    }

    /// The calls of preparing.
    fn prepared(self) -> u64 {
        (0..16).map(|answer| self.numbers[PREPARE_ANSWERS + answer].load(Relaxed)).sum()
    }

    pub fn print_prepares(self) {
        println!(
            "prepare: {} calls on {} pools, {} words of pools and slices compared; {} applied, most of them after a cut",
            self.prepared(),
            self.get(Of::PreparedPools),
            self.get(Of::PreparedWords),
            self.get(Of::PreparedCuts)
        );
        println!("  answers               {}", self.answers(PREPARE_ANSWERS, 0..16));
        println!("  heights of the trees  {}", self.answers(PREPARE_HEIGHTS, 0..12));
        self.print_kinds(PREPARE_KINDS, &prepare_kinds::KINDS.map(|(_, name)| name));
    }

    /// Whether each answer of preparing was met, if there were calls enough for it.
    pub fn every_prepare_answer(self) -> bool {
        let met = |answer: &usize| self.numbers[PREPARE_ANSWERS + answer].load(Relaxed) > 0;
        let all = [0, 1, 2, 3, 4, 5, 6, 7, 10, 11, 14, 15];
        let never: Vec<usize> = all.into_iter().filter(|answer| !met(answer)).collect();
        let fine = never.is_empty() || self.prepared() < ENOUGH_PREPARED;
        if !fine {
            println!("DIFFERENCE in prepare: answers that never came: {never:?}");
        }
        fine
    }

    pub fn print_engine(self) {
        let replies = (0..16).map(|answer| ENGINE_REPLY_ANSWERS + answer);
        let commands: u64 = replies.map(|number| self.numbers[number].load(Relaxed)).sum();
        println!(
            "engine: {} lists of calls, {} batches, {commands} commands, {} reply bytes compared, by each of two",
            self.get(Of::EngineLists),
            self.get(Of::EngineBatches),
            self.get(Of::EngineReplyBytes)
        );
        println!("  answers of calls      {}", self.answers(ENGINE_CALL_ANSWERS, 0..5));
        println!("  answers in replies    {}", self.answers(ENGINE_REPLY_ANSWERS, 0..16));
    }

    pub fn print_program(self) {
        let (batches, bytes) = (self.get(Of::ProgramBatches), self.get(Of::ProgramBytes));
        println!("program: {batches} batches, {bytes} bytes of output compared");
    }
}
