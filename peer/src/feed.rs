//! The feed: messages of at most 510 bytes, found in bytes as they arrive, whatever pieces they come in.
//! A byte goes to its place in the message first; then all that is in of the message is judged.

#[cfg(test)]
mod tests;

use crate::crc::Sum;
use crate::envelope::{self, Fields, Unread, COMMON};

/// The longest message that a feed takes.
pub const LONGEST: usize = 510;

#[derive(Clone, Copy, Debug, PartialEq, Eq)]
pub enum Refusal {
    Unread(Unread),
    TooLong,
    Cut,
}

impl Refusal {
    /// The refusal's number, and its place in the message, or 0 where it has none.
    pub fn numbers(self) -> (u8, usize) {
        match self {
            Refusal::Unread(unread) => unread.numbers(),
            Refusal::TooLong => (51, 0),
            Refusal::Cut => (52, 0),
        }
    }

    /// The refusal that has this number, if one has, where it stands with so many bytes in: the two tell its place.
    pub fn standing(number: u64, count: usize) -> Option<Refusal> {
        match number {
            51 => Some(Refusal::TooLong),
            52 => Some(Refusal::Cut),
            _ => Unread::of(number, count.min(LONGEST)).map(Refusal::Unread),
        }
    }
}

/// How a feed stands: inside a message (or before its first byte), at the end of one, or at a refusal.
#[derive(Clone, Copy, Debug, PartialEq, Eq)]
pub enum Standing {
    Inside,
    Whole,
    Refused(Refusal),
}

/// How many bytes of a piece were used, and what was found with the last of them.
#[derive(Clone, Debug, PartialEq, Eq)]
pub struct Taken {
    pub used: usize,
    pub found: Result<Option<Fields>, Refusal>,
}

#[derive(Clone, Debug, PartialEq, Eq)]
pub struct Feed {
    kept: [u8; LONGEST],
    count: usize,
    standing: Standing,
    /// Inside a message, how many bytes are in when they are judged next: kept, so that not each piece needs the heading.
    due: usize,
}

impl Default for Feed {
    fn default() -> Feed {
        Feed { kept: [0; LONGEST], count: 0, standing: Standing::Inside, due: COMMON }
    }
}

impl Feed {
    /// A feed that goes on from any state. Inside a message there is room for one byte more, so a larger count is none.
    pub fn resumed(kept: [u8; LONGEST], count: usize, standing: Standing) -> Feed {
        let count = match standing {
            Standing::Inside if count >= LONGEST => 0,
            _ => count.min(LONGEST),
        };
        let mut feed = Feed { kept, count, standing, due: COMMON };
        if count >= COMMON {
            // The heading may be a broken one, or the message complete; then the next byte settles it, whatever it is.
            feed.due = feed.announced().unwrap_or(0).max(count + 1);
        }
        feed
    }

    pub fn kept(&self) -> &[u8; LONGEST] {
        &self.kept
    }

    pub fn count(&self) -> usize {
        self.count
    }

    pub fn standing(&self) -> Standing {
        self.standing
    }

    /// The message that was found last, until the next byte comes.
    pub fn message(&self) -> Option<&[u8]> {
        (self.standing == Standing::Whole).then_some(&self.kept[..self.count])
    }

    /// Takes a piece: uses its bytes until a message is whole or something is refused.
    pub fn take<S: Sum>(&mut self, piece: &[u8]) -> Taken {
        if let Standing::Refused(refusal) = self.standing {
            return Taken { used: 0, found: Err(refusal) };
        }
        let mut used = 0;
        while used < piece.len() {
            used += self.keep(&piece[used..]);
            if self.count < self.due {
                break;
            }
            let found = self.judge::<S>();
            self.standing = match found {
                Ok(None) => continue,
                Ok(Some(_)) => Standing::Whole,
                Err(refusal) => Standing::Refused(refusal),
            };
            return Taken { used, found };
        }
        Taken { used, found: Ok(None) }
    }

    /// Keeps the first of these bytes, as many as are due; gives how many.
    fn keep(&mut self, bytes: &[u8]) -> usize {
        if self.standing == Standing::Whole {
            (self.count, self.standing, self.due) = (0, Standing::Inside, COMMON);
        }
        let run = bytes.len().min(self.due - self.count);
        self.kept[self.count..self.count + run].copy_from_slice(&bytes[..run]);
        self.count += run;
        run
    }

    /// The length that the heading announces.
    fn announced(&self) -> Result<usize, Refusal> {
        let head = self.kept.first_chunk().expect("a heading is shorter than the longest message");
        match envelope::heading(head).map_err(Refusal::Unread)?.announced {
            length if length <= LONGEST => Ok(length),
            _ => Err(Refusal::TooLong),
        }
    }

    /// Judges all that is in of the message, its heading at least; none yet while more of it is to come.
    fn judge<S: Sum>(&mut self) -> Result<Option<Fields>, Refusal> {
        let length = self.announced()?;
        if self.count < length {
            self.due = length;
            return Ok(None);
        }
        envelope::read::<S>(&self.kept[..self.count]).map(Some).map_err(Refusal::Unread)
    }

    /// The end of the bytes. Inside a message it is a refusal, which then stands.
    pub fn end(&mut self) -> Result<(), Refusal> {
        if self.standing == Standing::Inside && self.count > 0 {
            self.standing = Standing::Refused(Refusal::Cut);
        }
        match self.standing {
            Standing::Refused(refusal) => Err(refusal),
            Standing::Inside | Standing::Whole => Ok(()),
        }
    }

    /// Makes it a new feed.
    pub fn restart(&mut self) {
        *self = Feed::default();
    }
}
