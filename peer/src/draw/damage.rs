//! Damage to good messages: one way for each refusal of reading, in the order of document 01.

use super::sketch::{seal, Sketch, KINDS};
use crate::envelope::{COMMON, SERVICE, SHORTEST};
use crate::random::Random;

#[derive(Clone, Copy, Debug, PartialEq, Eq, PartialOrd)]
pub enum Damage {
    Short = 1,
    Version = 2,
    Flags = 3,
    Variable = 4,
    Length = 5,
    Addresses = 6,
    Integrity = 7,
}

pub const DAMAGES: [Damage; 7] = [
    Damage::Short,
    Damage::Version,
    Damage::Flags,
    Damage::Variable,
    Damage::Length,
    Damage::Addresses,
    Damage::Integrity,
];

impl Damage {
    pub fn name(self) -> &'static str {
        match self {
            Damage::Short => "cut below 21 bytes",
            Damage::Version => "another header version",
            Damage::Flags => "unassigned flags",
            Damage::Variable => "a bad variable header size",
            Damage::Length => "sizes that do not add up",
            Damage::Addresses => "addresses that break their rule",
            Damage::Integrity => "a wrong integrity field",
        }
    }

    /// Damages the message of a sketch that `sound_for` gave.
    fn apply(self, random: &mut Random, message: &mut Vec<u8>) {
        match self {
            Damage::Short => message.truncate(random.up_to(SHORTEST - 1)),
            Damage::Version => message[0] ^= random.between(1, 255) as u8,
            Damage::Flags => message[4] |= random.pick(&[0x18, 0x20, 0x40, 0x80]),
            Damage::Variable => message[16] = random.pick(&[1, 2, 3, 4, 5, 133, 134, 200, 255]),
            Damage::Length => spoil_length(random, message),
            Damage::Addresses => spoil_addresses(random, message),
            Damage::Integrity => {
                let place = message.len() - random.between(1, 4);
                message[place] ^= random.between(1, 255) as u8;
            }
        }
    }
}

fn spoil_length(random: &mut Random, message: &mut Vec<u8>) {
    match random.up_to(3) {
        0 => message.push(random.pick(&[0, 0xFF])),
        1 => message[7] ^= 1 << random.up_to(7),
        2 => message[random.pick(&[5, 6])] ^= 1,
        _ => message.extend(vec![0; random.between(1, 4)]),
    }
}

/// Takes away one of the two zeros of the addresses, or puts a third over a letter.
fn spoil_addresses(random: &mut Random, message: &mut [u8]) {
    let ends = COMMON + SERVICE..COMMON + usize::from(message[16]);
    let (zeros, letters): (Vec<usize>, Vec<usize>) = ends.partition(|&place| message[place] == 0);
    if letters.is_empty() || random.once_in(2) {
        message[random.pick(&zeros)] = b'Z';
    } else {
        message[random.pick(&letters)] = 0;
    }
}

/// A message with this damage, the others apart: its sum is set right again unless the damage is there.
pub fn damaged(random: &mut Random, damage: Damage) -> Vec<u8> {
    let mut message = sound_for(random, &[damage]).message();
    damage.apply(random, &mut message);
    if damage != Damage::Integrity && random.once_in(2) {
        seal(&mut message);
    }
    message
}

/// A message with both, the one with the larger number first, so that the smaller finds its place.
pub fn damaged_twice(random: &mut Random, first: Damage, second: Damage) -> Vec<u8> {
    let mut message = sound_for(random, &[first, second]).message();
    second.apply(random, &mut message);
    first.apply(random, &mut message);
    message
}

/// A good message that each of these makes a bad one.
fn sound_for(random: &mut Random, damages: &[Damage]) -> Sketch {
    // An application's field may hold any number.
    let kinds = if damages.contains(&Damage::Integrity) { &KINDS[..2] } else { &KINDS };
    let addressed = damages.contains(&Damage::Addresses) || random.once_in(2);
    let kind = random.pick(kinds);
    Sketch::draw(random, kind, addressed)
}

#[cfg(test)]
mod tests {
    use super::*;
    use crate::crc::Division;
    use crate::envelope::read;

    fn refused(message: &[u8]) -> u8 {
        read::<Division>(message).map_or_else(|unread| unread.numbers().0, |_| 0)
    }

    #[test]
    fn each_damage_is_refused_by_its_number() {
        let mut random = Random::new(5);
        for damage in DAMAGES {
            for _ in 0..300 {
                let message = damaged(&mut random, damage);
                assert_eq!(refused(&message), damage as u8, "{}: {message:02x?}", damage.name());
            }
        }
    }

    #[test]
    fn of_two_the_first_is_given() {
        let mut random = Random::new(6);
        for first in DAMAGES {
            for second in DAMAGES.into_iter().filter(|second| *second > first) {
                let message = damaged_twice(&mut random, first, second);
                assert_eq!(refused(&message), first as u8, "{} and {}", first.name(), second.name());
            }
        }
    }
}
