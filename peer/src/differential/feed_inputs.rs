//! Inputs for feeds: streams, the sizes of the pieces that they are cut into, and states that storage can hold.

use super::inputs;
use crate::interface::{feed_number, FEED_NUMBERS, FEED_ROOM, FEED_WHOLE};
use peer::envelope::{COMMON, SHORTEST};
use peer::random::Random;

/// Messages end to end, most of them good.
pub fn stream(random: &mut Random) -> Vec<u8> {
    let longest = random.pick(&[27, 60, 160, FEED_ROOM]);
    (0..random.between(1, 6)).flat_map(|_| part(random, longest)).collect()
}

fn part(random: &mut Random, longest: usize) -> Vec<u8> {
    let mut message = inputs::message(random, longest);
    match random.up_to(19) {
        0 | 1 => inputs::damaged(random, message),
        2 => {
            message[random.pick(&[0, 4, 5, 6, 7, 16])] ^= 1 << random.up_to(7);
            message
        }
        3 => inputs::message(random, 600),
        4 => {
            message.truncate(random.up_to(message.len() - 1));
            message
        }
        5 => {
            let size = random.up_to(40);
            random.bytes(size)
        }
        _ => message,
    }
}

/// A heading that announces this length, where the variable header leaves room for it.
pub fn announcing(random: &mut Random, length: usize, flags: u8, variable: u8) -> Vec<u8> {
    let mut heading = inputs::shaped(random, COMMON, flags, variable);
    let body = length.saturating_sub(SHORTEST + usize::from(variable)) as u32;
    heading[5..8].copy_from_slice(&body.to_be_bytes()[1..]);
    heading
}

/// Sizes of pieces that together are this length, now and then an empty one among them.
pub fn cutting(random: &mut Random, length: usize) -> Vec<usize> {
    let largest = random.pick(&[1, 1, 2, 7, 16, 17, 20, 21, 22, 64, 100, 600]);
    let (even, empty) = (random.once_in(2), random.once_in(4));
    let (mut sizes, mut left) = (Vec::new(), length);
    while left > 0 {
        let size = if even { largest } else { random.between(1, largest) }.min(left);
        sizes.push(size);
        left -= size;
        if empty && random.once_in(3) {
            sizes.push(0);
        }
    }
    sizes
}

/// What storage can hold: bytes that mean something or nothing, and any two numbers.
pub fn state(random: &mut Random) -> ([u8; FEED_ROOM], [u64; FEED_NUMBERS]) {
    let mut kept: [u8; FEED_ROOM] = random.bytes(FEED_ROOM).try_into().expect("so many were drawn");
    let front = match random.up_to(3) {
        0 => Vec::new(),
        1 => {
            let (length, flags, variable) =
                (random.between(21, 520), random.up_to(25), random.pick(&[0, 0, 5, 6, 132]));
            announcing(random, length, flags as u8, variable)
        }
        2 => inputs::message(random, FEED_ROOM),
        _ => stream(random),
    };
    let size = front.len().min(FEED_ROOM);
    kept[..size].copy_from_slice(&front[..size]);
    let mut numbers = [0; FEED_NUMBERS];
    numbers[feed_number::COUNT] = count(random, size);
    numbers[feed_number::STANDING] = standing(random);
    (kept, numbers)
}

/// A count, often near the bytes that mean something.
fn count(random: &mut Random, size: usize) -> u64 {
    let near = size.saturating_sub(random.up_to(3)) + random.up_to(1);
    match random.up_to(5) {
        0 | 1 => near as u64,
        2 => random.pick(&[0, 1, 15, 16, 17, 18, 19, 20, 21, 22, 508, 509, 510, 511]),
        3 => random.pick(&[512, 520, 65_535, 65_536, 65_553, 1 << 32, (1 << 32) + 17, 1 << 63, u64::MAX - 1, u64::MAX]),
        _ => random.up_to(520) as u64,
    }
}

/// A number for how it stands: inside a message more often than not.
fn standing(random: &mut Random) -> u64 {
    let odd = [254, FEED_WHOLE, 256, 258, 307, 1 << 32, (1 << 32) + 51, 1 << 63, u64::MAX];
    match random.up_to(9) {
        0 => random.up_to(10) as u64,
        1 => random.between(50, 53) as u64,
        2 => random.pick(&odd),
        3 => random.next() >> random.up_to(63),
        _ => 0,
    }
}

/// A piece for such a feed: what it keeps already of the message, as if it came now; a message; or a few bytes.
pub fn piece(random: &mut Random, kept: &[u8; FEED_ROOM], numbers: [u64; FEED_NUMBERS]) -> Vec<u8> {
    match random.up_to(3) {
        0 => {
            let place = usize::try_from(numbers[feed_number::COUNT]).unwrap_or(FEED_ROOM).min(FEED_ROOM);
            let size = random.up_to(FEED_ROOM - place).min(random.between(1, 60));
            kept[place..place + size].to_vec()
        }
        1 => inputs::message(random, 60),
        _ => {
            let size = random.up_to(12);
            random.bytes(size)
        }
    }
}
