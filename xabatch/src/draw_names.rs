//! Draws what `names` read, and writes it as JSON.

use crate::decode::word_json;
use crate::json::{self, Object};
use crate::key;
use crate::names::{nibbles_of, of_block, Item, Node, Report};

/// The report as lines.
#[must_use]
pub fn lines_of(report: &Report) -> Vec<String> {
    let mut lines = vec![header(report)];
    if report.blocks.is_some() {
        match &report.root {
            None => lines.push("root: none, there are no keys".into()),
            Some(root) => draw(root, "root: ", "", &mut lines),
        }
    }
    lines.extend(verdict(report));
    lines
}

fn header(report: &Report) -> String {
    let (words, used) = (report.words, report.in_use);
    match report.blocks {
        None => format!("no pool of names: {words} words"),
        Some(blocks) => {
            let free = blocks - used;
            format!("pool of names of {blocks} blocks, {words} words: {used} in use, {free} free")
        }
    }
}

/// The line of an item, and those of what stands below it.
fn draw(item: &Item, before: &str, indent: &str, lines: &mut Vec<String>) {
    lines.push(format!("{before}{}", title(item)));
    match item {
        Item::Node(node) => draw_slots(node, indent, lines),
        Item::Shortcut { to, .. } => {
            lines.push(format!("{indent}└─ {}", node_title(to)));
            draw_slots(to, &format!("{indent}   "), lines);
        }
        Item::Leaf { .. } | Item::Bad(_) => {}
    }
}

fn draw_slots(node: &Node, indent: &str, lines: &mut Vec<String>) {
    for (at, (slot, item)) in node.slots.iter().enumerate() {
        let is_last = at + 1 == node.slots.len();
        let (branch, below) = if is_last { ("└─", "   ") } else { ("├─", "│  ") };
        let before = format!("{indent}{branch} slot {slot}: ");
        draw(item, &before, &format!("{indent}{below}"), lines);
    }
}

fn title(item: &Item) -> String {
    match item {
        Item::Leaf { number, key, object } => {
            format!("leaf {number}, {object}, key {}", key::shown(key))
        }
        Item::Node(node) => node_title(node),
        Item::Shortcut { number, upper, to } => {
            let [upper, lower] = [*upper, to.tier].map(|tier| of_block(tier, &to.base));
            format!("shortcut {number}, from {upper}, to {lower}")
        }
        Item::Bad(word) => format!("{word} ?"),
    }
}

fn node_title(node: &Node) -> String {
    let keys = if node.keys == 1 { "key" } else { "keys" };
    let block = of_block(node.tier, &node.base);
    format!("node {}, {block}, {} {keys}", node.number, node.keys)
}

fn verdict(report: &Report) -> Vec<String> {
    let count = match report.findings.len() {
        0 => return vec!["well-formed".into()],
        1 => "1 finding".into(),
        count => format!("{count} findings"),
    };
    let mut lines = vec![format!("not well-formed: {count}")];
    lines.extend(report.findings.iter().map(|finding| format!("  {finding}")));
    lines
}

/// The report as one object.
#[must_use]
pub fn json_of(report: &Report) -> String {
    let number = |number: usize| number.to_string();
    let free = report.blocks.map(|blocks| blocks - report.in_use);
    let finding = |finding: &crate::names::Finding| {
        let object = Object::new().with("word", finding.place);
        object.text("message", &finding.message).end()
    };
    Object::new()
        .with("words", report.words)
        .with("blocks", json::or_null(report.blocks.map(number)))
        .with("in_use", report.in_use)
        .with("free", json::or_null(free.map(number)))
        .with("keys", report.root.as_ref().map_or(0, Item::leaves))
        .with(
            "root",
            json::or_null(report.root.as_ref().map(|root| item_json(root, Object::new()))),
        )
        .with("well_formed", report.findings.is_empty())
        .with("findings", json::array(report.findings.iter().map(finding)))
        .end()
}

/// An item with what stands below it; `object` has what is to stand before.
fn item_json(item: &Item, object: Object) -> String {
    match item {
        Item::Leaf { number, key, object: word } => {
            let object = object.text("kind", "leaf").with("block", number);
            word_json(object.text("key", &key::shown(key)), *word).end()
        }
        Item::Node(node) => node_json(node, object),
        Item::Shortcut { number, upper, to } => object
            .text("kind", "shortcut")
            .with("block", number)
            .with("tier", upper)
            .text("nibbles", &nibbles_of(*upper, &to.base))
            .with("to", node_json(to, Object::new()))
            .end(),
        Item::Bad(word) => object.text("kind", "bad").with("word", word).end(),
    }
}

fn node_json(node: &Node, object: Object) -> String {
    let slot = |(slot, item): &(usize, Item)| item_json(item, Object::new().with("slot", slot));
    object
        .text("kind", "node")
        .with("block", node.number)
        .with("tier", node.tier)
        .text("nibbles", &nibbles_of(node.tier, &node.base))
        .with("keys", node.keys)
        .with("slots", json::array(node.slots.iter().map(slot)))
        .end()
}
