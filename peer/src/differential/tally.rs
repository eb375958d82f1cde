//! How often each operation gave each answer, and which answers a full run must have seen.
//! 32 is no number of the library: the peer never gives it, and a run compares whole answers and ends at the first that
//! differs, so a 32 from the archive fails the run, as does any other number that the peer does not give.

use crate::interface::{Answer, RULES};
use crate::interface::{ACKNOWLEDGMENT, AHEAD, ASCENDS, BEHIND, BROKEN, DATA_MESSAGE, KEPT, NEXT, NOT_JUDGED, REPEAT};
use crate::interface::{AGAIN, FAILED, FAILED_NEXT, SENDER_PLACES, SENT, SETTLED, SETTLED_NEXT, WAITS};
use peer::golden::MOST_OPENED;
use std::collections::BTreeMap;
use std::fmt;

#[derive(Clone, Copy, Debug, PartialEq, Eq, PartialOrd, Ord)]
pub enum Operation {
    Crc,
    Read,
    Write,
    Rewrite,
    QosSplit,
    QosJoin,
    Lateness,
    Distance,
    Sequence,
    Judge,
    JudgePlaces,
    Records,
    RetiredRecords,
    Check,
    Find,
    FindByHalving,
    Ascending,
    Line,
    Step,
    Compare,
    Make,
    Retire,
    FeedTake,
    FeedEnd,
    FeedRestart,
    FeedMessage,
    Unwrap,
    Wrap,
    Acknowledge,
    First,
    SenderStart,
    SenderSubmit,
    SenderAck,
    SenderNak,
    SenderTimeOut,
    SenderWaiting,
    SenderFlight,
    /// What became of a message, worked out from a history.
    Fate,
}

#[derive(Clone, Copy, Debug, PartialEq, Eq, PartialOrd, Ord)]
pub enum Outcome {
    Done(&'static str),
    Refused(u8),
    Unread(u8, u8),
    /// How many records a search by halving opened.
    Opened(u16),
    /// The judge's lowest broken rule.
    Lowest(u8),
    /// What became of a rule, as the number of its verdict.
    Verdict(u8, u8),
}

impl fmt::Display for Outcome {
    fn fmt(&self, out: &mut fmt::Formatter) -> fmt::Result {
        match self {
            Outcome::Done(word) => write!(out, "{word}"),
            Outcome::Refused(number) => write!(out, "{number}"),
            Outcome::Unread(number, reading) => write!(out, "{number}/{reading}"),
            Outcome::Opened(records) => write!(out, "{records} opened"),
            Outcome::Lowest(rule) => write!(out, "lowest {rule}"),
            Outcome::Verdict(rule, KEPT) => write!(out, "{rule} kept"),
            Outcome::Verdict(rule, BROKEN) => write!(out, "{rule} broken"),
            Outcome::Verdict(rule, _) => write!(out, "{rule} not judged"),
        }
    }
}

impl Outcome {
    pub fn of(operation: Operation, answer: Answer) -> Outcome {
        match (operation, answer.number, answer.reading) {
            (Operation::Judge | Operation::JudgePlaces, 0, rule @ 1..) => Outcome::Lowest(rule),
            (_, 0, _) => Outcome::Done(word(operation, answer)),
            (_, number, 0) => Outcome::Refused(number),
            (_, number, reading) => Outcome::Unread(number, reading),
        }
    }
}

/// What "done" amounts to, where an operation can be done in several ways.
fn word(operation: Operation, answer: Answer) -> &'static str {
    match (operation, answer.value, answer.count) {
        (Operation::RetiredRecords, _, 0) => "none",
        (Operation::RetiredRecords, ..) => "some",
        (Operation::Ascending, ASCENDS, _) => "ascends",
        (Operation::Ascending, ..) => "breaks",
        (Operation::Step, 0, _) => "end",
        (Operation::Step | Operation::Line, ..) if answer.retired() != 0 => "retired",
        (Operation::Step | Operation::Line, ..) => "live",
        (Operation::Compare, 0, _) => "same",
        (Operation::Compare, ..) => "different",
        (Operation::FeedTake | Operation::FeedMessage, 0, _) => "nothing",
        (Operation::FeedTake | Operation::FeedMessage, ..) => "message",
        (Operation::Sequence, _, REPEAT) => "repeat",
        (Operation::Sequence, _, NEXT) => "next",
        (Operation::Sequence, _, AHEAD) => "ahead",
        (Operation::Sequence, _, BEHIND) => "behind",
        (Operation::Judge | Operation::JudgePlaces, ..) => "none broken",
        (Operation::Unwrap, _, DATA_MESSAGE) => "data message",
        (Operation::Unwrap, _, ACKNOWLEDGMENT) => "acknowledgment",
        _ => sender_word(operation, answer.count),
    }
}

/// What an event of a sender did, how many wait, and whether one is in flight.
fn sender_word(operation: Operation, count: u16) -> &'static str {
    const FULL: u16 = SENDER_PLACES as u16;
    match (operation, count) {
        (Operation::SenderSubmit, SENT) => "sent",
        (Operation::SenderSubmit, WAITS) => "waits",
        (Operation::SenderAck, SETTLED) => "settled",
        (Operation::SenderAck, SETTLED_NEXT) => "settled, next",
        (Operation::SenderNak | Operation::SenderTimeOut, AGAIN) => "again",
        (Operation::SenderNak | Operation::SenderTimeOut, FAILED) => "failed",
        (Operation::SenderNak | Operation::SenderTimeOut, FAILED_NEXT) => "failed, next",
        (Operation::SenderWaiting | Operation::SenderFlight, 0) => "none",
        (Operation::SenderWaiting, FULL) => "16",
        (Operation::SenderWaiting, _) => "some",
        (Operation::SenderFlight, _) => "one",
        _ => "done",
    }
}

#[derive(Default)]
pub struct Tally {
    came: BTreeMap<(Operation, Outcome), u64>,
}

impl Tally {
    pub fn count(&mut self, operation: Operation, outcome: Outcome) {
        *self.came.entry((operation, outcome)).or_default() += 1;
    }

    /// One line per operation, each answer with how often it came.
    pub fn print(&self) {
        let mut lines: BTreeMap<Operation, Vec<String>> = BTreeMap::new();
        for ((operation, outcome), times) in &self.came {
            lines.entry(*operation).or_default().push(format!("{outcome} x {times}"));
        }
        for (operation, answers) in lines {
            println!("  {operation:?}: {}", answers.join(", "));
        }
    }

    /// The answers that had to come up and did not.
    pub fn missing(&self) -> Vec<(Operation, Outcome)> {
        required().into_iter().filter(|key| !self.came.contains_key(key)).collect()
    }

    /// The answers that came up and must not: no message is longer than a frame can state, halving opens no more than 8
    /// records, the order of names is told where none is sought, each of 26, 36, 37, 38, 70, 71 and 73 is given by one
    /// operation alone, and 72 by those that answer a message.
    pub fn impossible(&self) -> Vec<(Operation, Outcome)> {
        let impossible = |operation, outcome| match outcome {
            Outcome::Refused(69) => true,
            Outcome::Opened(records) => usize::from(records) > MOST_OPENED,
            Outcome::Refused(27) => operation == Operation::Ascending,
            Outcome::Refused(26) => operation != Operation::Check,
            Outcome::Refused(36 | 37) => operation != Operation::Retire,
            Outcome::Refused(38) => operation != Operation::Compare,
            Outcome::Refused(70 | 71) => operation != Operation::SenderSubmit,
            Outcome::Refused(72) => {
                !matches!(operation, Operation::SenderAck | Operation::SenderNak | Operation::SenderTimeOut)
            }
            Outcome::Refused(73) => operation != Operation::SenderStart,
            _ => false,
        };
        self.came.keys().copied().filter(|&(operation, outcome)| impossible(operation, outcome)).collect()
    }
}

/// The ways in which an operation must have been done, and the numbers by which it must have refused.
type Required = (Operation, &'static [&'static str], &'static [u8]);

const REQUIRED: [Required; 38] = {
    use Operation::{Acknowledge, First, Unwrap, Wrap};
    use Operation::{Ascending, FindByHalving};
    use Operation::{Check, Compare, Crc, Distance, Find, Judge, JudgePlaces, Lateness, Line, Make};
    use Operation::{
        Fate, SenderAck, SenderFlight, SenderNak, SenderStart, SenderSubmit, SenderTimeOut, SenderWaiting,
    };
    use Operation::{FeedEnd, FeedMessage, FeedRestart, FeedTake};
    use Operation::{QosJoin, QosSplit, Read, Records, Retire, RetiredRecords, Rewrite, Sequence, Step, Write};
    [
        (Crc, &["done"], &[]),
        (Read, &["done"], &[1, 2, 3, 4, 5, 6, 7]),
        (Write, &["done"], &[11, 12, 13, 14, 15]),
        (Rewrite, &["done"], &[1, 2, 3, 4, 5, 6, 7, 15]),
        (QosSplit, &["done"], &[]),
        (QosJoin, &["done"], &[41]),
        (Lateness, &["in time", "late", "no clock"], &[]),
        (Distance, &["done"], &[]),
        (Sequence, &["repeat", "next", "ahead", "behind"], &[]),
        (Judge, &["none broken"], &[]),
        (JudgePlaces, &["none broken"], &[]),
        (Records, &["done"], &[21]),
        (RetiredRecords, &["none", "some"], &[21]),
        (Check, &["done"], &[21, 23, 24, 25, 26]),
        (Find, &["done"], &[21, 23, 24, 25, 27]),
        (FindByHalving, &["done"], &[21, 23, 24, 25, 27]),
        (Ascending, &["ascends", "breaks"], &[21, 23, 24, 25]),
        (Line, &["live", "retired"], &[21, 22, 23, 24, 25]),
        (Step, &["live", "retired", "end"], &[21, 23, 24, 25]),
        (Compare, &["same", "different"], &[21, 22, 23, 24, 25, 31, 38]),
        (Make, &["done"], &[33, 34, 35]),
        (Retire, &["done"], &[21, 22, 23, 24, 25, 36, 37]),
        (FeedTake, &["nothing", "message"], &[1, 2, 3, 4, 5, 6, 7, 51, 52]),
        (FeedEnd, &["done"], &[1, 2, 3, 4, 5, 6, 7, 51, 52]),
        (FeedRestart, &["done"], &[]),
        (FeedMessage, &["nothing", "message"], &[]),
        (Unwrap, &["data message", "acknowledgment"], &[61, 62, 63, 64, 65, 66, 67]),
        (Wrap, &["done"], &[67, 68]),
        (Acknowledge, &["done"], &[68]),
        (First, &["as stated", "shorter than stated", "fewer than 13"], &[]),
        (SenderStart, &["done"], &[73]),
        (SenderSubmit, &["sent", "waits"], &[70, 71]),
        (SenderAck, &["settled", "settled, next"], &[72]),
        (SenderNak, &["again", "failed", "failed, next"], &[72]),
        (SenderTimeOut, &["again", "failed", "failed, next"], &[72]),
        (SenderWaiting, &["none", "some", "16"], &[]),
        (SenderFlight, &["none", "one"], &[]),
        (Fate, &["waiting", "in flight", "acknowledged", "failed"], &[]),
    ]
};

fn required() -> Vec<(Operation, Outcome)> {
    let lowest = (1..=RULES as u8).map(|rule| (Operation::JudgePlaces, Outcome::Lowest(rule)));
    let judged = judged().into_iter().map(|outcome| (Operation::Judge, outcome));
    let opened = (1..=MOST_OPENED as u16).map(|records| (Operation::FindByHalving, Outcome::Opened(records)));
    let mut required: Vec<_> = judged.chain(lowest).chain(opened).collect();
    for (operation, words, numbers) in REQUIRED {
        required.extend(words.iter().map(|word| (operation, Outcome::Done(word))));
        required.extend(numbers.iter().flat_map(|&number| refusals(number)).map(|outcome| (operation, outcome)));
    }
    required
}

/// A refusal with each reading number it can carry; a stored length is never too short for reading.
fn refusals(number: u8) -> Vec<Outcome> {
    match number {
        25 => (2..=7).map(|reading| Outcome::Unread(number, reading)).collect(),
        31 | 34 | 67 => (1..=7).map(|reading| Outcome::Unread(number, reading)).collect(),
        _ => vec![Outcome::Refused(number)],
    }
}

/// Each rule as the lowest broken one, and each verdict on it; rule 1 is always judged.
fn judged() -> Vec<Outcome> {
    let mut outcomes = Vec::new();
    for rule in 1..=RULES as u8 {
        outcomes.extend([Outcome::Lowest(rule), Outcome::Verdict(rule, KEPT), Outcome::Verdict(rule, BROKEN)]);
        if rule != 1 {
            outcomes.push(Outcome::Verdict(rule, NOT_JUDGED));
        }
    }
    outcomes
}
