//! How many commands were answered with what, and how many of them were not done.

use crate::json::{self, Object};
use std::fmt;
use xapool_host::{Answer, Reply, Tag};

/// Replies, counted by what they answer.
#[derive(Clone, Debug, Default, PartialEq, Eq)]
pub struct Tally {
    replies: u64,
    /// At place k those with answer k.
    answers: [u64; Answer::ALL.len()],
    /// The same of those alone that are not done.
    not_done: [u64; Answer::ALL.len()],
}

/// A find that ends or pauses did what it was to do. All else but `Done` is not done, also a load that
/// finds nothing: what is absent is no evidence.
#[must_use]
pub fn is_done(reply: &Reply) -> bool {
    match reply.answer {
        Answer::Done => true,
        Answer::Ended | Answer::Paused => reply.tag == Tag::Find,
        _ => false,
    }
}

impl Tally {
    pub fn take(&mut self, reply: &Reply) {
        let place = usize::from(reply.answer.number());
        self.replies += 1;
        self.answers[place] += 1;
        self.not_done[place] += u64::from(!is_done(reply));
    }

    /// All replies.
    #[must_use]
    pub fn replies(&self) -> u64 {
        self.replies
    }

    /// Those that are not done.
    #[must_use]
    pub fn not_done(&self) -> u64 {
        self.not_done.iter().sum()
    }

    /// Whether there was a command and each was done: no command is no evidence of anything.
    #[must_use]
    pub fn is_all_done(&self) -> bool {
        self.replies > 0 && self.not_done() == 0
    }

    /// The answers that were given, and how many replies have each, as an array.
    #[must_use]
    pub fn answers_json(&self) -> String {
        json_of(&self.answers)
    }

    /// The same of those that are not done.
    #[must_use]
    pub fn not_done_json(&self) -> String {
        json_of(&self.not_done)
    }
}

fn counted(counts: &[u64]) -> impl Iterator<Item = (Answer, u64)> + '_ {
    let pairs = Answer::ALL.into_iter().zip(counts.iter().copied());
    pairs.filter(|(_, count)| *count > 0)
}

fn json_of(counts: &[u64]) -> String {
    json::array(counted(counts).map(|(answer, count)| {
        let object = Object::new().with("answer", answer.number());
        object.text("text", &answer.to_string()).with("replies", count).end()
    }))
}

impl<'a> FromIterator<&'a Reply> for Tally {
    fn from_iter<T: IntoIterator<Item = &'a Reply>>(replies: T) -> Tally {
        let mut tally = Tally::default();
        replies.into_iter().for_each(|reply| tally.take(reply));
        tally
    }
}

/// `3 of 4 commands were not done: 1 no entry covers the index, 2 too few free nodes`.
impl fmt::Display for Tally {
    fn fmt(&self, f: &mut fmt::Formatter) -> fmt::Result {
        let causes: Vec<String> =
            counted(&self.not_done).map(|(answer, count)| format!("{count} {answer}")).collect();
        let (is, of, causes) = (self.not_done(), self.replies, causes.join(", "));
        match of {
            0 => write!(f, "no command: the batch is empty"),
            _ => write!(f, "{is} of {of} commands were not done: {causes}"),
        }
    }
}
