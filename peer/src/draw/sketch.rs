//! Good messages: all that a writer is told, drawn at random.

use crate::crc::{Division, Sum};
use crate::envelope::{write, Draft, Kind, Service, COMMON, FIELD, LONGEST_END, SERVICE, SHORTEST};
use crate::golden::LONGEST_MESSAGE;
use crate::random::Random;

/// The kinds; those whose integrity field follows from the rest come first.
pub const KINDS: [Kind; 3] = [Kind::None, Kind::Crc, Kind::Application];

pub fn kind_name(kind: Kind) -> &'static str {
    match kind {
        Kind::None => "kind none",
        Kind::Crc => "kind CRC",
        Kind::Application => "kind application",
    }
}

#[derive(Clone, Debug)]
pub struct Sketch {
    pub message_type: u16,
    pub message_version: u8,
    pub flags: u8,
    pub number: u32,
    pub time: u32,
    pub service: Option<Service>,
    pub source: Vec<u8>,
    pub destination: Vec<u8>,
    pub body: Vec<u8>,
    pub integrity: u32,
}

impl Sketch {
    /// A message of this kind, mostly a short one.
    pub fn draw(random: &mut Random, kind: Kind, addressed: bool) -> Sketch {
        let mut sketch = Sketch::bare(random, kind);
        if addressed {
            sketch.service = Some(Service { ttl: random.number() as u16, qos: random.next() as u16 });
            sketch.source = end(random);
            sketch.destination = end(random);
        }
        let left = LONGEST_MESSAGE - sketch.length();
        let size = if random.once_in(16) { random.up_to(left) } else { random.up_to(40.min(left)) };
        sketch.body = body(random, size);
        sketch
    }

    /// A message of any kind, with or without addressing.
    pub fn any(random: &mut Random) -> Sketch {
        let (kind, addressed) = (random.pick(&KINDS), random.once_in(2));
        Sketch::draw(random, kind, addressed)
    }

    /// A message short enough for every pair of its bits to be flipped.
    pub fn short(random: &mut Random) -> Sketch {
        let kind = random.pick(&KINDS);
        let mut sketch = Sketch::bare(random, kind);
        let size = random.up_to(6);
        sketch.body = body(random, size);
        sketch
    }

    /// No addressing and no body.
    fn bare(random: &mut Random, kind: Kind) -> Sketch {
        Sketch {
            message_type: if random.once_in(2) { 6000 + random.up_to(3) as u16 } else { random.next() as u16 },
            message_version: random.byte(),
            flags: (kind as u8) << 3 | random.up_to(7) as u8,
            number: random.number(),
            time: random.number(),
            service: None,
            source: Vec::new(),
            destination: Vec::new(),
            body: Vec::new(),
            integrity: if kind == Kind::Application { random.number() } else { 0 },
        }
    }

    pub fn length(&self) -> usize {
        let variable = self.service.map_or(0, |_| SERVICE + self.source.len() + 1 + self.destination.len() + 1);
        COMMON + variable + self.body.len() + FIELD
    }

    /// The message that a sketch as drawn amounts to.
    pub fn message(&self) -> Vec<u8> {
        let draft = Draft {
            message_type: self.message_type,
            message_version: self.message_version,
            flags: self.flags,
            number: self.number,
            time: self.time,
            service: self.service,
            source: &self.source,
            destination: &self.destination,
            body: &self.body,
            integrity: self.integrity,
        };
        let mut message = vec![0; self.length()];
        write::<Division>(&draft, &mut message).expect("a sketch as drawn can be written");
        message
    }
}

/// An address, mostly of a few characters, seldom of as many as there may be.
fn end(random: &mut Random) -> Vec<u8> {
    let size = if random.once_in(12) { LONGEST_END - 1 } else { random.up_to(12) };
    if random.once_in(4) {
        return random.bytes(size).into_iter().map(|byte| byte.max(1)).collect();
    }
    letters(random, size)
}

pub fn letters(random: &mut Random, size: usize) -> Vec<u8> {
    (0..size).map(|_| random.pick(b"abcdefghijklmnopqrstuvwxyz0123456789.:")).collect()
}

fn body(random: &mut Random, size: usize) -> Vec<u8> {
    match random.up_to(3) {
        0 => letters(random, size),
        1 => vec![random.pick(&[0, 0xFF, b'x']); size],
        2 => (0..251).cycle().take(size).collect(),
        _ => random.bytes(size),
    }
}

/// Sets the sum right again, where the message is long enough to have one.
pub fn seal(message: &mut [u8]) {
    if message.len() >= SHORTEST && message[4] >> 3 & 3 == Kind::Crc as u8 {
        let (summed, field) = message.split_at_mut(message.len() - FIELD);
        field.copy_from_slice(&Division::of(summed).to_be_bytes());
    }
}

#[cfg(test)]
mod tests {
    use super::*;
    use crate::envelope::read;

    #[test]
    fn what_is_drawn_is_read_and_mostly_short() {
        let mut random = Random::new(3);
        let messages: Vec<Vec<u8>> = (0..500).map(|_| Sketch::any(&mut random).message()).collect();
        assert!(messages.iter().all(|message| message.len() <= 510 && read::<Division>(message).is_ok()));
        let short = messages.iter().filter(|message| message.len() < 100).count();
        assert!((400..500).contains(&short), "{short} short ones");
        assert!((0..500).all(|_| Sketch::short(&mut random).message().len() <= 27));
    }

    #[test]
    fn a_seal_restores_the_sum() {
        let mut random = Random::new(4);
        let mut message = Sketch::draw(&mut random, Kind::Crc, true).message();
        message[8] ^= 1;
        assert!(read::<Division>(&message).is_err());
        seal(&mut message);
        assert!(read::<Division>(&message).is_ok());
    }
}
