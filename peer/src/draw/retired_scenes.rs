//! The scene about a record that is retired in the golden file that is worked on.

use super::damage::{damaged, DAMAGES};
use super::golden_scenes::{record_line, sought, Scene, MARK};
use super::sketch::Sketch;
use super::some;
use super::spelled::spelled;
use crate::envelope::{Kind, COMMON, FIELD};
use crate::golden::PREFIX;
use crate::random::Random;

/// Two records of one name: the earlier is damaged in its place and mended, and then it is retired.
pub fn retired_file(random: &mut Random) -> Scene {
    let earlier = Sketch::draw(random, Kind::Crc, true);
    let message = earlier.message();
    let place = random.between(COMMON, message.len() - FIELD - 1);
    let bad = message[place] ^ random.between(1, 255) as u8;
    let change = |byte: u8| format!("file change {} {byte:02x}", PREFIX + place);
    let mut later = if random.once_in(4) { earlier.clone() } else { Sketch::any(random) };
    (later.message_type, later.number) = (earlier.message_type, earlier.number);
    let mut scene = vec![
        "file new".to_string(),
        record_line(random, &message),
        format!("retire into a wrong buffer: record 0 room {}", random.pick(&[0, 511, 513, 1_024])),
        record_line(random, &later.message()),
        change(bad),
        format!("check with byte {place} damaged:"),
        change(message[place]),
        format!("check with byte {place} mended, a name that comes twice:"),
        "order a name that comes twice:".to_string(),
    ];
    scene.extend(doubled(random, &earlier));
    scene.push(format!("file change 0 {:04x}", MARK | message.len()));
    scene.extend(retired_and_live(random, &earlier));
    scene
}

/// Two live records of one name: a check refuses the later one, and all else goes on.
fn doubled(random: &mut Random, earlier: &Sketch) -> Scene {
    let others = vec![
        format!("find a name that comes twice: {}", sought(earlier)),
        format!("halve a name that comes twice: {}", sought(earlier)),
        "step at the later of two: at 1".to_string(),
        "walk a name that comes twice:".to_string(),
        "entry of the later of two: at 1".to_string(),
        "list a name that comes twice:".to_string(),
        "flips of the later of two: record 1".to_string(),
        format!("compare the later of two: record 1 list 5*9 with {}", spelled(random, &earlier.message())),
    ];
    some(random, 1, others)
}

/// The earlier of the two is retired now, and the name is free for the later one.
fn retired_and_live(random: &mut Random, earlier: &Sketch) -> Scene {
    let damage = random.pick(&DAMAGES);
    // 38 goes before 31, so any radio message will do.
    let radio = if random.once_in(2) { earlier.message() } else { damaged(random, damage) };
    vec![
        "check a name live and retired:".to_string(),
        "retired one of two:".to_string(),
        format!("find the live one of two: {}", sought(earlier)),
        "entry of the retired one of two: at 0".to_string(),
        format!("compare the retired one of two: record 0 list 5 6 with {}", spelled(random, &radio)),
        "retire the live one of two: record 1 room 1024".to_string(),
        format!("retire the retired one of two: record 0 room {}", random.pick(&[1_024, 1_024, 1_023, 0])),
    ]
}
