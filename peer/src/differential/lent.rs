//! Storage lent to both sides: a part in the middle of a longer run of known numbers.
//! A write outside the part shows as plainly as a wrong one inside.

/// Numbers kept before and after the lent part; odd, so that lent bytes begin at an odd place.
const MARGIN: usize = 9;

/// A kind of number that storage is made of.
pub trait Cell: Copy + PartialEq {
    /// What stands at this place before anything is written.
    fn before(place: usize) -> Self;
    fn hex(self) -> String;
}

fn mixed(place: usize) -> u64 {
    (place as u64 + 1).wrapping_mul(0x9E37_79B9_7F4A_7C15).rotate_left(29)
}

impl Cell for u8 {
    fn before(place: usize) -> u8 {
        mixed(place) as u8
    }

    fn hex(self) -> String {
        format!("{self:02x}")
    }
}

impl Cell for u32 {
    fn before(place: usize) -> u32 {
        mixed(place) as u32
    }

    fn hex(self) -> String {
        format!(" {self:x}")
    }
}

impl Cell for u64 {
    fn before(place: usize) -> u64 {
        mixed(place)
    }

    fn hex(self) -> String {
        format!(" {self:x}")
    }
}

#[derive(Clone, PartialEq)]
pub struct Lent<T> {
    whole: Vec<T>,
}

impl<T: Cell> Lent<T> {
    pub fn new(room: usize) -> Lent<T> {
        Lent { whole: (0..room + 2 * MARGIN).map(T::before).collect() }
    }

    /// The part that is lent.
    pub fn part(&mut self) -> &mut [T] {
        let end = self.whole.len() - MARGIN;
        &mut self.whole[MARGIN..end]
    }

    pub fn content(&self) -> &[T] {
        &self.whole[MARGIN..self.whole.len() - MARGIN]
    }

    /// The first place where the two differ, counted from the first lent one, and what stands there.
    pub fn first_difference(&self, other: &Lent<T>) -> Option<String> {
        let place = self.whole.iter().zip(&other.whole).position(|(a, b)| a != b)?;
        let from_part = place as i64 - MARGIN as i64;
        let (a, b) = (self.whole[place].hex(), other.whole[place].hex());
        Some(format!("place {from_part} of {} lent: {} and {}", self.content().len(), a.trim(), b.trim()))
    }
}

/// Lent storage as the array an operation asks for.
pub fn array<T: Cell, const N: usize>(part: &mut [T]) -> &mut [T; N] {
    part.try_into().expect("the storage was made for this operation")
}

/// Bytes in hex; of very long ones the beginning and the end.
pub fn hex(bytes: &[u8]) -> String {
    const SHOWN_WHOLE: usize = 70_000;
    const SHOWN: usize = 256;
    let plain = |part: &[u8]| part.iter().map(|byte| byte.hex()).collect::<String>();
    if bytes.len() <= SHOWN_WHOLE {
        return format!("({} bytes) {}", bytes.len(), plain(bytes));
    }
    let (first, last) = (&bytes[..SHOWN], &bytes[bytes.len() - SHOWN..]);
    format!("({} bytes) {} ... {}", bytes.len(), plain(first), plain(last))
}
