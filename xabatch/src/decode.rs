//! Records to text: commands of a batch, replies, refused calls, entries of a list. What is wrong with a
//! record is said, and a list that no pool can give is refused.

use crate::json::{self, Object};
use crate::tally::Tally;
use std::fmt;
use xapool_host::{
    Answer, Command, Entry, Kind, Record, Records, Reply, Tag, Word, LISTED_BYTES, MOST_ORDER,
    REPLY_BYTES,
};

const LISTED_TAG: u8 = 32;
const LISTED_FIELDS: u16 = 18;
const REPLY_TAG: u8 = 128;
const REPLY_FIELDS: u16 = 21;
const REFUSED_TAG: u8 = 255;
const REFUSED_FIELDS: u16 = 3;
const REFUSED_BYTES: usize = 6;

/// A record that is good by itself.
#[derive(Clone, Copy, Debug, PartialEq, Eq)]
pub enum Item {
    Command(Command),
    Reply(Reply),
    Refused { answer: Answer, number: u16 },
    Listed(Entry),
}

/// What is wrong with a record, with the place of its first byte.
#[derive(Clone, Debug, PartialEq, Eq)]
pub struct Bad {
    pub place: u64,
    pub cause: Cause,
}

#[derive(Clone, Debug, PartialEq, Eq)]
pub enum Cause {
    /// The bytes end before the record does.
    Cut { is: usize, of: usize },
    /// No record begins with this byte.
    UnknownTag(u8),
    /// Records of this tag have another length.
    WrongLength { tag: u8, is: u16, expected: u16 },
    /// A field has a number that no record has.
    Field(String),
    /// The entry is good by itself, but no pool lists it, or not after the one before it.
    List(String),
}

impl Cause {
    /// In one or two words.
    #[must_use]
    pub fn name(&self) -> &'static str {
        match self {
            Cause::Cut { .. } => "cut",
            Cause::UnknownTag(_) => "unknown tag",
            Cause::WrongLength { .. } => "wrong length",
            Cause::Field(_) => "field",
            Cause::List(_) => "list",
        }
    }
}

impl fmt::Display for Cause {
    fn fmt(&self, f: &mut fmt::Formatter) -> fmt::Result {
        match self {
            Cause::Cut { is, of } => {
                write!(f, "the record is cut: {is} of its {of} bytes are there")
            }
            Cause::UnknownTag(tag) => write!(f, "unknown tag {tag}"),
            Cause::WrongLength { tag, is, expected } => {
                write!(f, "wrong length: {is}, of tag {tag} it is {expected}")
            }
            Cause::Field(what) => f.write_str(what),
            Cause::List(what) => write!(f, "no list of a pool: {what}"),
        }
    }
}

impl fmt::Display for Bad {
    fn fmt(&self, f: &mut fmt::Formatter) -> fmt::Result {
        write!(f, "byte {}: {}", self.place, self.cause)
    }
}

/// What the fields of a record of this tag have in bytes, if there is such a record.
fn field_bytes(tag: u8) -> Option<u16> {
    let reply = tag.checked_sub(REPLY_TAG).and_then(Tag::from_byte);
    match tag {
        LISTED_TAG => Some(LISTED_FIELDS),
        REFUSED_TAG => Some(REFUSED_FIELDS),
        _ if reply.is_some() => Some(REPLY_FIELDS),
        _ => Tag::from_byte(tag).map(|tag| tag.field_bytes().into()),
    }
}

/// Why these bytes, which go on to the end of what is read or for a longest record, do not begin with
/// a good one.
fn cause_of(bytes: &[u8]) -> Cause {
    let tag = bytes.first().copied().unwrap_or(0);
    let Some(expected) = field_bytes(tag) else {
        return Cause::UnknownTag(tag);
    };
    let of = 3 + usize::from(expected);
    let length = bytes.get(1..3).map(|pair| u16::from_be_bytes([pair[0], pair[1]]));
    match length {
        Some(is) if is != expected => Cause::WrongLength { tag, is, expected },
        Some(_) if bytes.len() >= of => Cause::Field(wrong_field(tag, bytes)),
        _ => Cause::Cut { is: bytes.len().min(of), of },
    }
}

/// Of a whole record of a known tag that is not good.
fn wrong_field(tag: u8, bytes: &[u8]) -> String {
    let (answer, order, marks) = (bytes[3], bytes.get(11), bytes.get(20));
    match (tag, order, marks) {
        (LISTED_TAG, Some(order), _) if *order > MOST_ORDER => format!("order {order} of an entry"),
        (LISTED_TAG, _, Some(marks)) if *marks > 7 => format!("marks {marks} of an entry"),
        (LISTED_TAG, _, _) => "a reserved index with an order or marks".into(),
        (REFUSED_TAG, _, _) => format!("answer {answer} refuses no call"),
        _ => format!("answer {answer} is that of no command"),
    }
}

/// The command at the start of the bytes of a batch, and its size; or why a run refuses the batch there.
pub fn command_at(bytes: &[u8]) -> Result<(Command, usize), Cause> {
    let tag = bytes.first().copied().unwrap_or(0);
    match (Command::read(bytes), Tag::from_byte(tag)) {
        (Some(command), _) => Ok((command, command.tag().record_bytes())),
        (None, Some(_)) => Err(cause_of(bytes)),
        (None, None) => Err(Cause::UnknownTag(tag)),
    }
}

impl Item {
    /// The record at the start of the bytes, and its size.
    fn read(bytes: &[u8]) -> Result<(Item, usize), Cause> {
        if let Some(command) = Command::read(bytes) {
            return Ok((Item::Command(command), command.tag().record_bytes()));
        }
        if let Some(entry) = Entry::read_listed(bytes) {
            return Ok((Item::Listed(entry), LISTED_BYTES));
        }
        match Records::of(bytes).next() {
            Some(Ok(Record::Reply(reply))) => Ok((Item::Reply(reply), REPLY_BYTES)),
            Some(Ok(Record::Refused { answer, number })) => {
                Ok((Item::Refused { answer, number }, REFUSED_BYTES))
            }
            _ => Err(cause_of(bytes)),
        }
    }

    /// As an object.
    #[must_use]
    pub fn json(&self) -> String {
        match self {
            Item::Command(command) => command_json(*command),
            Item::Reply(reply) => reply_json(*reply),
            Item::Refused { answer, number } => {
                let object = Object::new().with("refused", answer.number());
                object.text("text", &answer.to_string()).with("number", number).end()
            }
            Item::Listed(entry) => Object::new().with("entry", entry_json(*entry)).end(),
        }
    }
}

impl fmt::Display for Item {
    fn fmt(&self, f: &mut fmt::Formatter) -> fmt::Result {
        match *self {
            Item::Command(command) => command.fmt(f),
            Item::Reply(reply) => reply.fmt(f),
            Item::Refused { answer, number } => Record::Refused { answer, number }.fmt(f),
            Item::Listed(entry) => entry.fmt(f),
        }
    }
}

/// Its number, and what it stands for.
pub fn word_json(object: Object, word: Word) -> Object {
    let object = object.with("word", word.0);
    match word.kind() {
        Kind::Value(value) => object.with("value", value),
        Kind::Handle(handle) => object.with("handle", handle),
        Kind::NotAnEntry => object,
    }
}

/// An entry or a reserved index, which has no word.
#[must_use]
pub fn entry_json(entry: Entry) -> String {
    let object = Object::new().with("index", entry.base);
    if entry == Entry::reserved(entry.base) {
        return object.with("reserved", true).end();
    }
    let marks = (0..8).filter(|mark| entry.marks.has(*mark)).map(|mark| mark.to_string());
    let object = word_json(object.with("order", entry.order), entry.word);
    object.with("marks", json::array(marks)).end()
}

fn command_json(command: Command) -> String {
    let object = Object::new().text("command", &command.tag().to_string());
    match command {
        Command::Store { index, order, word } => {
            word_json(object.with("index", index).with("order", order), word)
        }
        Command::Load { index } | Command::Erase { index } | Command::Reserve { index } => {
            object.with("index", index)
        }
        Command::Mark { index, mark } | Command::Unmark { index, mark } => {
            object.with("index", index).with("mark", mark)
        }
        Command::Find { first, last, filter, budget } => {
            let object = object.with("first", first).with("last", last);
            object.with("filter", filter).with("budget", budget)
        }
    }
    .end()
}

fn reply_json(reply: Reply) -> String {
    let object = Object::new().text("reply", &reply.tag.to_string());
    let mut object =
        object.with("answer", reply.answer.number()).text("text", &reply.answer.to_string());
    if let Some(entry) = reply.entry() {
        object = object.with("entry", entry_json(entry));
    }
    if let Some(position) = reply.paused_at() {
        object = object.with("at", position);
    }
    if matches!(reply.tag, Tag::Load | Tag::Find) {
        object = object.with("count", reply.count);
    }
    object.end()
}

/// Goes through a row of records. Commands, replies and entries of a list have different tags, so one
/// reading serves all.
#[derive(Clone, Debug, Default, PartialEq, Eq)]
pub struct Decoder {
    place: u64,
    /// The last entry of a list.
    before: Option<Entry>,
    pub tally: Tally,
    pub listed: u64,
    /// Answer and number of a refused call.
    pub refused: Option<(Answer, u16)>,
}

impl Decoder {
    /// The record at the start of the bytes, which have a longest record or go on to the end; and how
    /// many bytes it has.
    pub fn take(&mut self, bytes: &[u8]) -> Result<(Item, usize), Bad> {
        let place = self.place;
        let (item, size) = Item::read(bytes).map_err(|cause| Bad { place, cause })?;
        match item {
            Item::Reply(reply) => self.tally.take(&reply),
            Item::Refused { answer, number } => self.refused = Some((answer, number)),
            Item::Listed(entry) => {
                let wrong = |what| Bad { place, cause: Cause::List(what) };
                may_follow(self.before, entry).map_err(wrong)?;
                self.before = Some(entry);
                self.listed += 1;
            }
            Item::Command(_) => {}
        }
        self.place += size as u64;
        Ok((item, size))
    }
}

/// Whether a pool can list this entry after that one: words that can be stored, each entry at the start
/// of a run of its order, by rising index and no index twice.
fn may_follow(before: Option<Entry>, entry: Entry) -> Result<(), String> {
    let Entry { base, order, word, .. } = entry;
    if !entry.is_reserved() && !word.is_entry() {
        return Err(format!("no entry has the word {} ({:#x})", word.0, word.0));
    }
    if base.trailing_zeros() < u32::from(order) {
        return Err(format!("index {base} is no multiple of 2^{order}"));
    }
    let Some(before) = before.filter(|before| base <= before.last()) else {
        return Ok(());
    };
    let (first, last) = (before.base, before.last());
    Err(match base {
        _ if base == first => format!("index {base} is there twice"),
        _ if base > first => format!("index {base} lies in the entry before it, {first}..{last}"),
        _ => format!("index {base} comes after {first}"),
    })
}

/// All records of these bytes, up to the first that is bad.
#[must_use]
pub fn decode(bytes: &[u8]) -> (Vec<Item>, Option<Bad>) {
    let (mut decoder, mut items, mut rest) = (Decoder::default(), Vec::new(), bytes);
    while !rest.is_empty() {
        match decoder.take(rest) {
            Ok((item, size)) => {
                items.push(item);
                rest = &rest[size..];
            }
            Err(bad) => return (items, Some(bad)),
        }
    }
    (items, None)
}
