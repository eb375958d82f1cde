//! Benchmarks: the proved library against the peer, zlib, libdeflate and itself before a change, side by side in one run.
//! Only ratios are told, since bare times say more about the machine than about the code.

mod feeds;
mod frames;
mod halvings;
mod judges;
mod senders;
mod works;

use crate::loaded::Before;
use peer::envelope::SHORTEST;
use peer::golden::LONGEST_MESSAGE;
use std::hint::black_box;
use std::process::ExitCode;
use std::time::Instant;

const ROUNDS: usize = 101;
/// Seconds that one side works in one round, at least.
const TURN: f64 = 0.001;

/// A piece of work, done so many times in a row.
type Work<'a> = Box<dyn Fn(u32) + 'a>;

/// Who does a piece of work.
#[derive(Clone, Copy, PartialEq)]
enum Side {
    Ours,
    Table,
    Division,
    Zlib,
    Libdeflate,
    Before,
    OurReading,
    OurFind,
    Peer,
}

impl Side {
    fn name(self) -> &'static str {
        match self {
            Side::Ours => "ours",
            Side::Table => "peer by table",
            Side::Division => "peer by division",
            Side::Zlib => "zlib",
            Side::Libdeflate => "libdeflate",
            Side::Before => "before",
            Side::OurReading => "our reading",
            Side::OurFind => "our find",
            Side::Peer => "peer",
        }
    }
}

/// A column: how long the first takes, as a ratio to the second.
type Column = (Side, Side);

const COLUMNS: [Column; 4] =
    [(Side::Ours, Side::Table), (Side::Ours, Side::Division), (Side::Ours, Side::Zlib), (Side::Ours, Side::Libdeflate)];
/// Those that are there where the library before a change is given.
const COLUMNS_BEFORE: [Column; 2] = [(Side::Ours, Side::Before), (Side::Before, Side::Table)];
/// For the feed and for frames.
const COLUMNS_READING: [Column; 2] = [(Side::Ours, Side::Table), (Side::Ours, Side::OurReading)];
/// The find that opens one record after the other, beside the one that halves.
const COLUMNS_HALVING: [Column; 2] = [(Side::Ours, Side::Table), (Side::Ours, Side::OurFind)];
/// The judge finds its CRC by division on both sides; the reading beside it does not.
const JUDGE_COLUMNS: [Column; 2] = [(Side::Ours, Side::Division), (Side::Ours, Side::OurReading)];
/// A sender sums nothing.
const SENDER_COLUMNS: [Column; 1] = [(Side::Ours, Side::Peer)];

/// One line of the table: the same work by each side that can do it.
struct Row<'a> {
    name: String,
    sides: Vec<(Side, Work<'a>)>,
}

const KINDS: [(u8, &str); 2] = [(0, "no integrity"), (8, "CRC")];

pub fn command() -> ExitCode {
    calls();
    println!();
    halving();
    println!();
    feeding();
    println!();
    judging();
    println!();
    framing();
    println!();
    sending();
    println!();
    println!("Below 1, the first named is quicker. Median of {ROUNDS} rounds; in each round the sides take turns.");
    ExitCode::SUCCESS
}

fn head(columns: &[Column]) {
    let heads: Vec<String> = columns.iter().map(|(one, other)| format!("{} / {}", one.name(), other.name())).collect();
    println!("| Work | {} |", heads.join(" | "));
    println!("|---{}|", "|---:".repeat(columns.len()));
}

/// Work that is one call.
fn calls() {
    let before = Before::load();
    let mut columns = COLUMNS.to_vec();
    if before.is_some() {
        columns.extend(COLUMNS_BEFORE);
    }
    head(&columns);
    for length in [21, 27, 64, 153, 510, 4_096, 65_536] {
        let bytes: Vec<u8> = (0..length).map(|place| (place * place) as u8).collect();
        works::summing(&bytes, before).measure(&columns);
    }
    for (flags, kind) in KINDS {
        for length in [27, 153, 510] {
            works::reading(kind, &works::message(flags, length, 1), before).measure(&columns);
        }
    }
    for (flags, kind) in KINDS {
        for length in [SHORTEST, LONGEST_MESSAGE] {
            works::checking(kind, length, &works::full_file(flags, length, 1), before).measure(&columns);
        }
    }
    let file = works::full_file(8, LONGEST_MESSAGE, 256);
    works::checking("CRC, numbers 256 apart", LONGEST_MESSAGE, &file, before).measure(&columns);
    works::finding("CRC", LONGEST_MESSAGE, &file, before).measure(&columns);
    works::comparing(&file, &works::message(8, LONGEST_MESSAGE, u32::MAX), before).measure(&columns);
}

/// A name of a full file in order by halving, and by our find.
fn halving() {
    head(&COLUMNS_HALVING);
    for (flags, kind) in KINDS {
        let file = halvings::file(flags);
        for sought in halvings::SOUGHT {
            halvings::halving(kind, &file, sought).measure(&COLUMNS_HALVING);
        }
    }
}

/// A stream through the feed, in pieces; and the same messages read when each is whole already.
fn feeding() {
    head(&COLUMNS_READING);
    for (flags, kind) in KINDS {
        for length in [21, 153, LONGEST_MESSAGE] {
            let stream = feeds::stream(flags, length);
            for piece in [1, 64, 1_500, 65_536] {
                feeds::feeding(kind, &stream, length, piece).measure(&COLUMNS_READING);
            }
        }
    }
}

/// A message judged, and the same message read.
fn judging() {
    head(&JUDGE_COLUMNS);
    for (flags, kind) in KINDS {
        for length in [21, 153, LONGEST_MESSAGE] {
            judges::judging(kind, &works::message(flags, length, 1)).measure(&JUDGE_COLUMNS);
        }
    }
    judges::judging("CRC", &works::message(8, 65_536, 1)).measure(&JUDGE_COLUMNS);
}

/// A message wrapped and unwrapped, and the same message read.
fn framing() {
    head(&COLUMNS_READING);
    for (flags, kind) in KINDS {
        for length in [21, 153, LONGEST_MESSAGE] {
            let message = works::message(flags, length, 1);
            let frame = frames::framed(&message);
            frames::wrapping(kind, &message).measure(&COLUMNS_READING);
            frames::unwrapping(kind, &frame).measure(&COLUMNS_READING);
        }
    }
}

/// Events of a sender, from an empty one until it is empty again.
fn sending() {
    head(&SENDER_COLUMNS);
    for round in senders::ROUNDS {
        senders::sending(round).measure(&SENDER_COLUMNS);
    }
}

impl Row<'_> {
    fn measure(&self, columns: &[Column]) {
        let turns: Vec<u32> = self.sides.iter().map(|(_, work)| turns(work)).collect();
        let round = |_| self.sides.iter().zip(&turns).map(|((_, work), &turns)| time(work, turns)).collect();
        let rounds: Vec<Vec<f64>> = (0..ROUNDS).map(round).collect();
        let cells: Vec<String> = columns.iter().map(|&column| self.cell(&rounds, column)).collect();
        println!("| {} | {} |", self.name, cells.join(" | "));
    }

    /// The median of a column's ratio over the rounds, where both sides do this work.
    fn cell(&self, rounds: &[Vec<f64>], (one, other): Column) -> String {
        let place = |side| self.sides.iter().position(|&(found, _)| found == side);
        let (Some(one), Some(other)) = (place(one), place(other)) else {
            return String::from("-");
        };
        let mut ratios: Vec<f64> = rounds.iter().map(|times| times[one] / times[other]).collect();
        format!("{:.2}", median(&mut ratios))
    }
}

/// How many times a piece of work fills a turn.
fn turns(work: &Work) -> u32 {
    let mut turns = 1;
    while time(work, turns) * f64::from(turns) < TURN {
        turns *= 2;
    }
    turns
}

/// Seconds for one piece of work, taken over so many.
fn time(work: &Work, turns: u32) -> f64 {
    let start = Instant::now();
    work(turns);
    start.elapsed().as_secs_f64() / f64::from(turns)
}

fn median(ratios: &mut [f64]) -> f64 {
    ratios.sort_by(f64::total_cmp);
    ratios[ratios.len() / 2]
}

/// The loop is inside, so that no side pays for an indirect call each time.
fn repeated<'a, T>(work: impl Fn() -> T + 'a) -> Work<'a> {
    Box::new(move |turns| {
        for _ in 0..turns {
            black_box(work());
        }
    })
}
