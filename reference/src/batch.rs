//! A batch (document 01: a sheet) read into commands, and the 24 bytes of a reply.

pub const MOST_BATCH_BYTES: usize = 32_768;
pub const REPLY_BYTES: usize = 24;

#[derive(Clone, Copy, Debug, PartialEq, Eq)]
pub enum Command {
    Store { index: u64, order: u8, word: u64 },
    Load { index: u64 },
    Erase { index: u64 },
    Mark { index: u64, mark: u8 },
    Unmark { index: u64, mark: u8 },
    Find { first: u64, last: u64, filter: u8, budget: u16 },
    Reserve { index: u64 },
}

impl Command {
    pub fn tag(self) -> u8 {
        match self {
            Command::Store { .. } => 1,
            Command::Load { .. } => 2,
            Command::Erase { .. } => 3,
            Command::Mark { .. } => 4,
            Command::Unmark { .. } => 5,
            Command::Find { .. } => 6,
            Command::Reserve { .. } => 7,
        }
    }
}

/// A reply; what a command does not give is zero.
#[derive(Clone, Copy, Debug, Default, PartialEq, Eq)]
pub struct Reply {
    pub tag: u8,
    pub answer: u8,
    pub index: u64,
    pub order: u8,
    pub word: u64,
    pub marks: u8,
    pub count: u16,
}

impl Reply {
    pub fn bytes(self) -> [u8; REPLY_BYTES] {
        let mut bytes = [0; REPLY_BYTES];
        bytes[0] = self.tag;
        bytes[1..3].copy_from_slice(&21u16.to_be_bytes());
        bytes[3] = self.answer;
        bytes[4..12].copy_from_slice(&self.index.to_be_bytes());
        bytes[12] = self.order;
        bytes[13..21].copy_from_slice(&self.word.to_be_bytes());
        bytes[21] = self.marks;
        bytes[22..24].copy_from_slice(&self.count.to_be_bytes());
        bytes
    }
}

/// The commands of a batch, or where its first bad record begins (cut off, a tag that is none, not
/// its tag's length); the most bytes that a batch may have if it has more.
pub fn read(batch: &[u8]) -> Result<Vec<Command>, usize> {
    if batch.len() > MOST_BATCH_BYTES {
        return Err(MOST_BATCH_BYTES);
    }
    let mut commands = Vec::new();
    let mut place = 0;
    while place < batch.len() {
        let (command, size) = read_record(&batch[place..]).ok_or(place)?;
        commands.push(command);
        place += size;
    }
    Ok(commands)
}

/// The command at the start of the bytes and the size of its record, if it is a good one.
fn read_record(bytes: &[u8]) -> Option<(Command, usize)> {
    let tag = *bytes.first()?;
    let length = number(bytes.get(1..3)?) as usize;
    if length != field_bytes(tag)? {
        return None;
    }
    let fields = bytes.get(3..3 + length)?;
    Some((command(tag, fields)?, 3 + length))
}

/// How many bytes the fields of this tag's command take.
fn field_bytes(tag: u8) -> Option<usize> {
    match tag {
        1 => Some(17),
        2 | 3 | 7 => Some(8),
        4 | 5 => Some(9),
        6 => Some(19),
        _ => None,
    }
}

/// The command of this tag; its fields have their right length.
fn command(tag: u8, fields: &[u8]) -> Option<Command> {
    let index = number(&fields[0..8]);
    match tag {
        1 => Some(Command::Store { index, order: fields[8], word: number(&fields[9..17]) }),
        2 => Some(Command::Load { index }),
        3 => Some(Command::Erase { index }),
        4 => Some(Command::Mark { index, mark: fields[8] }),
        5 => Some(Command::Unmark { index, mark: fields[8] }),
        6 => Some(Command::Find {
            first: index,
            last: number(&fields[8..16]),
            filter: fields[16],
            budget: number(&fields[17..19]) as u16,
        }),
        7 => Some(Command::Reserve { index }),
        _ => None,
    }
}

/// A big-endian number of at most 8 bytes.
fn number(bytes: &[u8]) -> u64 {
    bytes.iter().fold(0, |number, byte| number * 256 + u64::from(*byte))
}
