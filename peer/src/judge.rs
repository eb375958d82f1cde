//! The judge: a second reader, for a message that was refused. It tries the seven rules of reading one by one.
//! No rule looks at what another found, and nothing is taken from the first reader, not even its numbers.

#[cfg(test)]
mod tests;

use crate::crc::{Division, Sum};

/// How many rules there are; each has its refusal's number, from 1.
pub const RULES: usize = 7;

/// The bytes of the shortest message there can be.
const LEAST: usize = 21;
const OUR_VERSION: u8 = 4;

// The places of what a rule looks at. V bytes stand from VARIABLE on, and D bytes behind them.
const HEADER_VERSION: usize = 0;
const FLAGS: usize = 4;
const D: usize = 5;
const V: usize = 16;
const VARIABLE: usize = 17;
const ADDRESSES: usize = 21;

/// The longest address, its closing zero included.
const LONGEST_ADDRESS: usize = 64;
/// The bytes of the integrity field.
const FIELD: usize = 4;
const UNASSIGNED: u8 = 0b1110_0000;

// The integrity kinds that a rule names.
const NONE: u8 = 0;
const CRC: u8 = 1;
const NO_KIND: u8 = 3;

/// What became of a rule. Not judged, which is not broken: its bytes are not there, or it has nothing to say of them.
/// The place where a rule is broken counts from the first byte.
#[derive(Clone, Copy, Debug, PartialEq, Eq)]
pub enum Verdict {
    Kept,
    Broken { place: usize },
    NotJudged,
}

impl Verdict {
    /// The verdict on a rule that is kept or not, or not judged, and that is broken at this place if it is.
    fn of(kept: Option<bool>, place: usize) -> Verdict {
        match kept {
            Some(true) => Verdict::Kept,
            Some(false) => Verdict::Broken { place },
            None => Verdict::NotJudged,
        }
    }
}

/// The verdicts on any bytes, in the order of the rules.
pub fn judge(bytes: &[u8]) -> [Verdict; RULES] {
    [
        Verdict::of(Some(long_enough(bytes)), bytes.len()),
        Verdict::of(header_version(bytes), HEADER_VERSION),
        Verdict::of(flags(bytes), FLAGS),
        Verdict::of(variable_size(bytes), V),
        Verdict::of(length(bytes), D),
        Verdict::of(addresses(bytes), ADDRESSES),
        field_place(bytes).map_or(Verdict::NotJudged, |place| Verdict::of(integrity(bytes, place), place)),
    ]
}

/// The lowest number of a broken rule, and its place.
pub fn lowest_broken(verdicts: &[Verdict; RULES]) -> Option<(u8, usize)> {
    (1..).zip(verdicts).find_map(|(rule, verdict)| match *verdict {
        Verdict::Broken { place } => Some((rule, place)),
        Verdict::Kept | Verdict::NotJudged => None,
    })
}

// Each rule tells whether it is kept, or nothing where it is not judged.

/// Rule 1: as many bytes as the shortest message has. It alone has a verdict on any bytes.
fn long_enough(bytes: &[u8]) -> bool {
    bytes.len() >= LEAST
}

/// Rule 2: the header version is ours.
fn header_version(bytes: &[u8]) -> Option<bool> {
    Some(*bytes.get(HEADER_VERSION)? == OUR_VERSION)
}

/// Rule 3: no flag that nobody assigned, and no kind that nobody assigned.
fn flags(bytes: &[u8]) -> Option<bool> {
    Some(bytes.get(FLAGS)? & UNASSIGNED == 0 && kind(bytes)? != NO_KIND)
}

/// Rule 4: no variable header, or one that two addresses fit.
fn variable_size(bytes: &[u8]) -> Option<bool> {
    let v = v(bytes)?;
    Some(v == 0 || holds_addresses(v))
}

/// Rule 5: the bytes end with the field.
fn length(bytes: &[u8]) -> Option<bool> {
    Some(field_place(bytes)? + FIELD == bytes.len())
}

/// Rule 6: two addresses, each of which ends with its only zero, and no byte left over.
fn addresses(bytes: &[u8]) -> Option<bool> {
    let v = v(bytes).filter(|&v| holds_addresses(v))?;
    let mut found = bytes.get(ADDRESSES..VARIABLE + v)?.split_inclusive(|&byte| byte == 0);
    let (source, destination, more) = (found.next(), found.next(), found.next());
    Some(source.is_some_and(is_address) && destination.is_some_and(is_address) && more.is_none())
}

/// Rule 7: the field stands where V and D put it, at this place, also where the bytes do not end with it.
fn integrity(bytes: &[u8], place: usize) -> Option<bool> {
    let (before, from_field) = bytes.split_at_checked(place)?;
    let field = u32::from_be_bytes(*from_field.first_chunk()?);
    Some(match kind(bytes)? {
        NONE => field == 0,
        CRC => field == Division::of(before),
        _ => true,
    })
}

/// The two bits of the integrity kind, whatever the other flags are.
fn kind(bytes: &[u8]) -> Option<u8> {
    Some(bytes.get(FLAGS)? >> 3 & 0b11)
}

fn v(bytes: &[u8]) -> Option<usize> {
    bytes.get(V).copied().map(usize::from)
}

/// Whether two addresses fit this size, behind TTL and QoS: two empty ones at least, and at most two of the longest.
fn holds_addresses(v: usize) -> bool {
    (6..=132).contains(&v)
}

fn is_address(bytes: &[u8]) -> bool {
    bytes.ends_with(&[0]) && bytes.len() <= LONGEST_ADDRESS
}

/// Where the integrity field begins, by V and D alone.
fn field_place(bytes: &[u8]) -> Option<usize> {
    let [high, middle, low] = bytes.get(D..)?.first_chunk()?.map(usize::from);
    Some(VARIABLE + v(bytes)? + (high << 16 | middle << 8 | low))
}
