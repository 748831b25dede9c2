//! Draws what `inspect` read.

use crate::inspect::{Finding, Head, Node, Report, Slot};
use crate::json::{self, Object};
use std::collections::BTreeMap;
use xapool_host::{Marks, Word};

/// What to show of a pool.
#[derive(Clone, Copy, Debug, PartialEq, Eq)]
pub enum Part {
    /// Header, tree and findings.
    Tree,
    /// Header, counts and findings.
    Summary,
    /// Findings alone.
    Findings,
}

/// What to show, and how much of it.
#[derive(Clone, Copy, Debug, PartialEq, Eq)]
pub struct View {
    pub part: Part,
    /// The tree is drawn where it meets these indices, both included.
    pub range: (u64, u64),
    /// Also findings that follow from others.
    pub all: bool,
}

impl Default for View {
    fn default() -> View {
        View { part: Part::Tree, range: (0, u64::MAX), all: false }
    }
}

/// The report as lines.
pub fn lines_of(report: &Report, view: &View) -> Vec<String> {
    let mut lines = Vec::new();
    match view.part {
        Part::Findings => {}
        Part::Summary => {
            lines.push(header(report));
            lines.extend(summary(report));
        }
        Part::Tree => {
            lines.push(header(report));
            draw(report, view.range, &mut lines);
        }
    }
    lines.extend(verdict(report, view.all));
    lines
}

fn draw(report: &Report, range: (u64, u64), lines: &mut Vec<String>) {
    match &report.head {
        Head::Empty => lines.push("head: empty".into()),
        Head::Reserved => lines.push("head: index 0, reserved".into()),
        Head::Entry(word) => {
            lines.push(format!("head: index 0, {}", entry(*word, 0, marks(report))))
        }
        Head::Bad(word) => lines.push(format!("head: {word:#x}, which leads nowhere")),
        Head::Node(node) => {
            lines.push(format!("head: {}, marks {}", title(node), marks(report)));
            draw_slots(node, "", range, lines);
        }
    }
}

fn marks(report: &Report) -> Marks {
    Marks((report.marks % 256) as u8)
}

fn header(report: &Report) -> String {
    match report.nodes {
        None => format!("no pool: {} words", report.words),
        Some(nodes) => {
            let (used, free) = (report.in_use, nodes.saturating_sub(report.in_use));
            format!("pool of {nodes} nodes, {} words: {used} in use, {free} free", report.words)
        }
    }
}

fn title(node: &Node) -> String {
    let end = (node.start + (64u128 << node.shift)).min(1 << 64) - 1;
    let Node { number, shift, start, filled, .. } = node;
    format!("node {number}, shift {shift}, indices {}, filled {filled}", range(*start, end))
}

fn range(first: u128, last: u128) -> String {
    let name = |index: u128| {
        if index == u128::from(u64::MAX) {
            "max".into()
        } else {
            index.to_string()
        }
    };
    if first == last {
        name(first)
    } else {
        format!("{}..{}", name(first), name(last))
    }
}

fn entry(word: Word, order: u64, marks: Marks) -> String {
    format!("order {order} {word}, marks {marks}")
}

/// The slots that meet the range; how many are left out is said in their place.
fn draw_slots(node: &Node, indent: &str, range: (u64, u64), lines: &mut Vec<String>) {
    let meets = |slot: &&Slot| {
        let (first, last) = indices(node, slot);
        first <= u128::from(range.1) && u128::from(range.0) <= last
    };
    let drawn: Vec<&Slot> = node.slots.iter().filter(meets).collect();
    let hidden = node.slots.len() - drawn.len();
    for (number, slot) in drawn.iter().enumerate() {
        let last = number + 1 == drawn.len() && hidden == 0;
        let (branch, below) = if last { ("└─", "   ") } else { ("├─", "│  ") };
        lines.push(format!("{indent}{branch} {}", slot_line(node, slot)));
        if let Slot::Node { child, .. } = slot {
            draw_slots(child, &format!("{indent}{below}"), range, lines);
        }
    }
    if hidden > 0 {
        let slots = if hidden == 1 { "slot" } else { "slots" };
        lines.push(format!("{indent}└─ ({hidden} more {slots} outside the range)"));
    }
}

/// The first and last index of a slot that is not empty.
fn indices(node: &Node, slot: &Slot) -> (u128, u128) {
    let (slot, run) = match slot {
        Slot::Entry { slot, run, .. } => (*slot, *run),
        Slot::Node { slot, .. } | Slot::Reserved { slot } | Slot::Bad { slot, .. } => (*slot, 1),
    };
    let first = node.start + ((slot as u128) << node.shift);
    (first, first + ((run as u128) << node.shift) - 1)
}

fn slot_line(node: &Node, slot: &Slot) -> String {
    let (first, last) = indices(node, slot);
    match slot {
        Slot::Bad { slot, word } => format!("slot {slot}: {word:#x} ?"),
        Slot::Reserved { slot } => format!("slot {slot}: index {}, reserved", range(first, last)),
        Slot::Node { slot, marks, child } => {
            format!("slot {slot}: {}, marks {marks}", title(child))
        }
        Slot::Entry { slot, run, word, marks } => {
            let slots = if *run == 1 { "slot" } else { "slots" };
            let places = range(*slot as u128, (slot + run - 1) as u128);
            let order = order_of(node, *run);
            let indices = range(first, last);
            format!("{slots} {places}: index {indices}, {}", entry(*word, order, *marks))
        }
    }
}

fn order_of(node: &Node, run: usize) -> u64 {
    node.shift + u64::from(run.ilog2())
}

/// What a pool holds, counted.
#[derive(Default)]
struct Counts {
    orders: BTreeMap<u64, usize>,
    reserved: usize,
    marks: [usize; 3],
    shifts: BTreeMap<u64, usize>,
    first: Option<u128>,
    last: Option<u128>,
}

impl Counts {
    fn entry(&mut self, order: u64, marks: Marks, indices: (u128, u128)) {
        *self.orders.entry(order).or_default() += 1;
        for (mark, count) in (0..).zip(&mut self.marks) {
            *count += usize::from(marks.has(mark));
        }
        self.first.get_or_insert(indices.0);
        self.last = Some(indices.1);
    }

    fn node(&mut self, node: &Node) {
        *self.shifts.entry(node.shift).or_default() += 1;
        for slot in &node.slots {
            match slot {
                Slot::Entry { run, marks, .. } => {
                    self.entry(order_of(node, *run), *marks, indices(node, slot));
                }
                Slot::Node { child, .. } => self.node(child),
                Slot::Reserved { .. } => self.reserved += 1,
                Slot::Bad { .. } => {}
            }
        }
    }
}

fn counts_of(report: &Report) -> Counts {
    let mut counts = Counts::default();
    match &report.head {
        Head::Entry(_) => counts.entry(0, marks(report), (0, 0)),
        Head::Reserved => counts.reserved += 1,
        Head::Node(node) => counts.node(node),
        Head::Empty | Head::Bad(_) => {}
    }
    counts
}

/// The summary as one object. Findings that follow from others are counted, and listed if all are
/// asked for.
pub fn json_of(report: &Report, view: &View) -> String {
    let counts = counts_of(report);
    let index = |index: Option<u128>| json::or_null(index.map(|index| index.to_string()));
    let by = |counts: &BTreeMap<u64, usize>| {
        let add =
            |object: Object, (kind, count): (&u64, &usize)| object.with(&kind.to_string(), count);
        counts.iter().fold(Object::new(), add).end()
    };
    let listed = report.findings.iter().filter(|finding| view.all || !finding.follows);
    let free = report.nodes.map(|nodes| nodes.saturating_sub(report.in_use).to_string());
    Object::new()
        .with("words", report.words)
        .with("nodes", json::or_null(report.nodes.map(|nodes| nodes.to_string())))
        .with("in_use", report.in_use)
        .with("free", json::or_null(free))
        .with("entries", counts.orders.values().sum::<usize>())
        .with("first", index(counts.first))
        .with("last", index(counts.last))
        .with("orders", by(&counts.orders))
        .with("reserved", counts.reserved)
        .with("marks", json::array(counts.marks.map(|count| count.to_string())))
        .with("shifts", by(&counts.shifts))
        .with("well_formed", report.findings.is_empty())
        .with("findings", json::array(listed.map(finding_json)))
        .with("follow", report.findings.iter().filter(|finding| finding.follows).count())
        .end()
}

fn finding_json(finding: &Finding) -> String {
    let object = Object::new().with("word", finding.place).text("message", &finding.message);
    object.with("follows", finding.follows).end()
}

fn summary(report: &Report) -> Vec<String> {
    let counts = counts_of(report);
    let by = |what: &str, counts: &BTreeMap<u64, usize>| {
        let each = counts.iter().map(|(kind, count)| format!("{count} of {what} {kind}"));
        each.collect::<Vec<_>>().join(", ")
    };
    let entries: usize = counts.orders.values().sum();
    let mut lines = vec![match (counts.first, counts.last) {
        (Some(first), Some(last)) => {
            format!(
                "entries: {entries}, in {}: {}",
                range(first, last),
                by("order", &counts.orders)
            )
        }
        _ => "entries: 0".into(),
    }];
    if counts.reserved > 0 {
        lines.push(format!("reserved indices: {}", counts.reserved));
    }
    let [zero, one, two] = counts.marks;
    lines.push(format!("marks: {zero} with mark 0, {one} with mark 1, {two} with mark 2"));
    if !counts.shifts.is_empty() {
        lines.push(format!("nodes: {}", by("shift", &counts.shifts)));
    }
    lines
}

fn verdict(report: &Report, all: bool) -> Vec<String> {
    if report.findings.is_empty() {
        return vec!["well-formed".into()];
    }
    let (follow, causes): (Vec<&Finding>, Vec<&Finding>) =
        report.findings.iter().partition(|finding| finding.follows);
    let findings =
        |count| if count == 1 { "1 finding".into() } else { format!("{count} findings") };
    let mut lines = vec![format!("not well-formed: {}", findings(causes.len()))];
    lines.extend(causes.iter().map(|finding| format!("  {finding}")));
    if !follow.is_empty() {
        let from = if causes.len() == 1 { "it" } else { "them" };
        let hint = if all { ":" } else { " (--all lists them)" };
        lines.push(format!(
            "and {} from {from}{hint}",
            match follow.len() {
                1 => "1 that follows".to_string(),
                count => format!("{count} that follow"),
            }
        ));
    }
    if all {
        lines.extend(follow.iter().map(|finding| format!("  {finding}")));
    }
    lines
}
