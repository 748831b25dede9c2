//! The figures as markdown.

use crate::measure::Cost;
use crate::regions;

pub const NODES: [usize; 3] = [40, 200, 1000];

/// A load at full size, beside the BTreeMap.
pub struct Row {
    pub name: &'static str,
    pub about: String,
    pub cost: Cost,
    pub map: f64,
}

/// A load on pools of three sizes.
pub struct ByNodes {
    pub name: &'static str,
    pub costs: [Cost; 3],
}

impl ByNodes {
    /// How much more a command costs in the largest pool than in the smallest.
    pub fn growth(&self) -> f64 {
        self.costs[2].run_less_check() / self.costs[0].run_less_check()
    }
}

/// A list, in nanoseconds.
pub struct ListRow {
    pub about: String,
    pub entries: u64,
    /// The call without the check.
    pub call: f64,
    pub check: f64,
    /// The same bytes out of a BTreeMap.
    pub map: f64,
}

pub fn lists(rows: &[ListRow]) -> String {
    let mut text = String::from(
        "| list, N = 1,000 | entries listed | ns an entry, without the check | ns a call, without the check | check, ns a call | BTreeMap, ns an entry |\n\
         |---|---|---|---|---|---|\n",
    );
    for ListRow { about, entries, call, check, map } in rows {
        let [each, map] = [call, map].map(|time| time / *entries as f64);
        text +=
            &format!("| {about} | {entries} | {each:.1} | {call:.0} | {check:.0} | {map:.1} |\n");
    }
    text
}

pub fn regions(rows: &[regions::Row]) -> String {
    let mut text = String::from(
        "| bytes of a region | xapool_crc32c, GB/s | xapool_compare of two that match, GB/s | that differ in the last byte | Rust, 8 bytes at a time, GB/s | Rust, byte by byte, GB/s | xapool_crc32c, ns a call |\n\
         |---|---|---|---|---|---|---|\n",
    );
    for row in rows {
        let times = [row.crc, row.matched, row.different, row.by_8, row.by_byte];
        let paces = times.map(|time| format!("{:.2}", row.pace(time))).join(" | ");
        text += &format!("| {} | {paces} | {:.0} |\n", row.bytes, row.crc);
    }
    text
}

pub fn loads(rows: &[Row]) -> String {
    let mut text = String::from(
        "| load | commands | batches | ns a command, without the check | check, ns a batch | check, ns a command | BTreeMap, ns a command |\n\
         |---|---|---|---|---|---|---|\n",
    );
    for Row { name, about, cost, map } in rows {
        text += &format!(
            "| {name}: {about} | {} | {} | {:.1} | {:.0} | {:.1} | {map:.1} |\n",
            cost.commands,
            cost.batches,
            cost.run_less_check(),
            cost.check_a_batch(),
            cost.check_a_command()
        );
    }
    text
}

/// A number with its thousands told apart.
pub fn grouped(number: usize) -> String {
    match (number / 1000, number % 1000) {
        (0, rest) => rest.to_string(),
        (thousands, rest) => format!("{},{rest:03}", grouped(thousands)),
    }
}

pub fn by_nodes(what: &str, nodes: [usize; 3], rows: &[ByNodes]) -> String {
    let [small, middle, large] = nodes.map(grouped);
    let mut text = format!(
        "| {what}, ns a command without the check | N = {small} | N = {middle} | N = {large} \
         | {large} against {small} | check a batch at {small}, {middle}, {large} |\n\
         |---|---|---|---|---|---|\n",
    );
    for row in rows {
        let [a, b, c] = row.costs.map(|cost| format!("{:.1}", cost.run_less_check()));
        let checks = row.costs.map(|cost| format!("{:.0}", cost.check_a_batch())).join(", ");
        let growth = row.growth();
        text += &format!("| {} | {a} | {b} | {c} | {growth:.2} times | {checks} ns |\n", row.name);
    }
    text
}
