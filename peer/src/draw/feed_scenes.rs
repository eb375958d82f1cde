//! Scenes about the feed that is worked on: good messages and damaged ones, end to end and cut anywhere.

use super::damage::{damaged, Damage};
use super::sketch::Sketch;
use super::spelled::spelled;
use crate::envelope::{COMMON, SHORTEST};
use crate::feed::LONGEST;
use crate::random::Random;

type Scene = Vec<String>;

/// The most bytes of one line: however they are spelled, it does not get too long.
const MOST: usize = 1_200;

fn cut(random: &mut Random) -> u64 {
    random.pick(&[0, 1, 2, 7, 16, 17, 21, 64, 600, u64::MAX])
}

/// Good messages end to end: one and, as far as they fit, up to three more.
fn good_messages(random: &mut Random) -> Vec<u8> {
    let mut stream = Sketch::any(random).message();
    for _ in 0..random.up_to(3) {
        let message = Sketch::any(random).message();
        if stream.len() + message.len() <= MOST {
            stream.extend(message);
        }
    }
    stream
}

/// A stream, and then two messages in one piece, of which the second is handed in again.
pub fn good_stream(random: &mut Random) -> Scene {
    let stream = good_messages(random);
    let (first, second) = (Sketch::any(random).message(), Sketch::any(random).message());
    vec![
        "restart before good messages:".to_string(),
        format!("stream of good messages: cut {} of {}", cut(random), spelled(random, &stream)),
        format!("piece with two messages: {}", spelled(random, &[first, second.clone()].concat())),
        format!("piece with the second again: {}", spelled(random, &second)),
    ]
}

/// A message in three pieces, with nothing among them and the end behind them; then a message that the end cuts off.
pub fn pieces(random: &mut Random) -> Scene {
    let (message, other) = (Sketch::any(random).message(), Sketch::any(random).message());
    let second = random.up_to(message.len());
    let first = random.up_to(second);
    let begun = random.between(1, other.len() - 1);
    vec![
        "restart before three pieces:".to_string(),
        format!("piece one of three: {}", spelled(random, &message[..first])),
        "piece of no bytes:".to_string(),
        format!("piece two of three: {}", spelled(random, &message[first..second])),
        format!("piece three of three: {}", spelled(random, &message[second..])),
        "end between messages:".to_string(),
        format!("piece with {begun} bytes of another: {}", spelled(random, &other[..begun])),
        "end inside a message:".to_string(),
        format!("piece behind the end: {}", spelled(random, &other[begun..])),
    ]
}

/// A scene for each refusal that bytes alone can bring; one of them goes on after it.
pub fn refusals(random: &mut Random) -> Vec<Scene> {
    let damages = [Damage::Version, Damage::Flags, Damage::Variable, Damage::Addresses, Damage::Integrity];
    let mut scenes: Vec<Scene> = damages
        .into_iter()
        .map(|damage| {
            let bad = damaged(random, damage);
            refused(random, damage.name(), &bad)
        })
        .collect();
    let long = too_long(random);
    scenes.push(refused(random, "an announced length over 510", &long));
    let (place, again) = (random.up_to(scenes.len() - 1), random.pick(&["end after it:", "piece after it: 04"]));
    scenes[place].push(again.to_string());
    scenes
}

/// The bad message alone or behind a good one, with some bytes more that are not used.
fn refused(random: &mut Random, name: &str, bad: &[u8]) -> Scene {
    let more = random.up_to(30);
    let bad = [bad, &random.bytes(more)].concat();
    let line = if random.once_in(2) {
        format!("piece with {name}: {}", spelled(random, &bad))
    } else {
        let stream = [Sketch::any(random).message(), bad].concat();
        format!("stream with {name}: cut {} of {}", cut(random), spelled(random, &stream))
    };
    vec![format!("restart before {name}:"), line]
}

/// A message whose heading announces more than a feed takes.
fn too_long(random: &mut Random) -> Vec<u8> {
    let mut message = Sketch::any(random).message();
    let least = LONGEST + 1 - SHORTEST - usize::from(message[COMMON - 1]);
    let size = random.pick(&[least, least + 1, 0x01_0000, 0xFF_FFFF]) as u32;
    message[5..8].copy_from_slice(&size.to_be_bytes()[1..]);
    message
}
