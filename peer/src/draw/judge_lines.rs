//! Lines for the judge: good messages, ones that break several rules, and bytes that do not reach as far as the rules look.

use super::damage::{damaged_twice, Damage, DAMAGES};
use super::sketch::{Sketch, KINDS};
use super::spelled::spelled;
use crate::envelope::{COMMON, SHORTEST};
use crate::random::Random;

/// A name and the bytes.
type Drawn = (String, Vec<u8>);

pub fn judges(random: &mut Random) -> Vec<String> {
    let draws: [fn(&mut Random) -> Drawn; 6] = [
        |random| ("good, addressed".to_string(), good(random, true)),
        |random| ("good, unaddressed".to_string(), good(random, false)),
        lengthened,
        bad_heading,
        |random| twice(random, Damage::Addresses, Damage::Integrity),
        |random| if random.once_in(2) { cut(random) } else { any_two(random) },
    ];
    let mut lines = vec!["judge no bytes:".to_string()];
    for draw in draws {
        let (name, bytes) = draw(random);
        lines.push(format!("judge {name}: {}", spelled(random, &bytes)));
    }
    lines
}

fn good(random: &mut Random, addressed: bool) -> Vec<u8> {
    let kind = random.pick(&KINDS);
    Sketch::draw(random, kind, addressed).message()
}

fn cut(random: &mut Random) -> Drawn {
    let mut message = Sketch::any(random).message();
    let any = random.between(1, message.len() - 1);
    let addresses = COMMON + usize::from(message[COMMON - 1]);
    let length = random.pick(&[any, 4, 5, COMMON - 1, COMMON, SHORTEST - 1, addresses - 1, addresses]);
    message.truncate(length);
    (format!("cut to {length} bytes"), message)
}

fn lengthened(random: &mut Random) -> Drawn {
    let more = random.between(1, 9);
    (format!("{more} bytes behind it"), [good(random, true), random.bytes(more)].concat())
}

fn any_two(random: &mut Random) -> Drawn {
    let first = random.up_to(DAMAGES.len() - 2);
    let second = random.between(first + 1, DAMAGES.len() - 1);
    twice(random, DAMAGES[first], DAMAGES[second])
}

fn twice(random: &mut Random, first: Damage, second: Damage) -> Drawn {
    (format!("{} and {}", first.name(), second.name()), damaged_twice(random, first, second))
}

/// A message that breaks 2 to 5 and 7: with the bytes behind it, the field that its V tells of is there.
fn bad_heading(random: &mut Random) -> Drawn {
    let kind = random.pick(&KINDS[..2]);
    let mut message = Sketch::draw(random, kind, false).message();
    let v = random.between(1, 5);
    message[0] ^= random.between(1, 255) as u8;
    message[4] |= random.pick(&[0x20, 0x40, 0x80]);
    message[COMMON - 1] = v as u8;
    // The last byte of that field is among these, so it is not 0.
    let more = v + random.between(1, 9);
    message.extend(vec![random.between(1, 255) as u8; more]);
    ("a heading with every fault".to_string(), message)
}
