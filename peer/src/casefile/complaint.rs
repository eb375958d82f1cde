//! What is told of a line that is not understood, and of an input that is too long.

use super::{LONGEST_INPUT, LONGEST_LINE};
use std::fmt::{self, Display, Formatter};

#[derive(Clone, Copy, Debug, PartialEq, Eq)]
pub enum Complaint {
    Expected { column: usize, what: What },
    LongLine,
    NoRoom,
    LongInput,
}

/// What was expected where a word does not fit.
#[derive(Clone, Copy, Debug, PartialEq, Eq)]
pub enum What {
    Command,
    Name,
    Word(&'static str),
    Number(u64),
    Bytes,
    MostBytes(usize),
    MostNumbers(usize),
    End,
}

impl Complaint {
    /// The line to print about the line of this number.
    pub fn told(self, line: usize) -> String {
        match self {
            Complaint::Expected { column, what } => format!("line {line}, column {column}: {what} expected"),
            Complaint::LongLine => format!("line {line}: longer than {LONGEST_LINE} characters"),
            Complaint::NoRoom => format!("line {line}: no room for a record in the file"),
            Complaint::LongInput => {
                format!("line {line}: the input is longer than {LONGEST_INPUT} bytes, and nothing is run from here on")
            }
        }
    }
}

impl Display for What {
    fn fmt(&self, out: &mut Formatter) -> fmt::Result {
        match self {
            What::Command => out.write_str("a command"),
            What::Name => out.write_str("a name and a colon"),
            What::Word(word) => write!(out, "the word {word}"),
            What::Number(largest) => write!(out, "a number from 0 to {largest}"),
            What::Bytes => out.write_str("bytes"),
            What::MostBytes(most) => write!(out, "at most {most} bytes"),
            What::MostNumbers(most) => write!(out, "at most {most} numbers"),
            What::End => out.write_str("the end of the line"),
        }
    }
}
