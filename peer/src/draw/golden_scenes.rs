//! Scenes about the golden file that is worked on: lines that make it up, then lines that ask about it.

use super::damage::{damaged, DAMAGES};
use super::sketch::{seal, Sketch};
use super::some;
use super::spelled::spelled;
use crate::envelope::Kind;
use crate::golden::{LONGEST_MESSAGE, RECORD};
use crate::random::Random;

pub type Scene = Vec<String>;

/// The bit of a stored length that marks a retired record.
pub const MARK: usize = 0x8000;

pub fn record_line(random: &mut Random, message: &[u8]) -> String {
    format!("file record {}", spelled(random, message))
}

/// A record that stores this length, whatever the message's is.
fn stored_line(random: &mut Random, stored: usize, message: &[u8]) -> String {
    format!("file bytes {stored:04x} {} 00*{}", spelled(random, message), LONGEST_MESSAGE - message.len())
}

fn retired_line(random: &mut Random, message: &[u8]) -> String {
    stored_line(random, MARK | message.len(), message)
}

/// The mark, now and then.
fn any_mark(random: &mut Random) -> usize {
    if random.once_in(3) {
        MARK
    } else {
        0
    }
}

/// What a `find` or a `halve` of this sketch's message is asked with.
pub fn sought(sketch: &Sketch) -> String {
    format!("type {} number {}", sketch.message_type, sketch.number)
}

/// Three names of different numbers, which go to the sketches in ascending order.
fn name_in_order(random: &mut Random, sketches: &mut [Sketch; 3]) -> u32 {
    let number = random.number();
    let numbers = [0, 1, 2].map(|place| number.wrapping_add(place));
    let mut names: Vec<(u16, u32)> = sketches.iter().map(|sketch| sketch.message_type).zip(numbers).collect();
    names.sort();
    for (sketch, name) in sketches.iter_mut().zip(names) {
        (sketch.message_type, sketch.number) = name;
    }
    number
}

/// Three good records in ascending order, the last of them short and one of them retired, and everything asked about them.
pub fn good_file(random: &mut Random) -> Scene {
    let mut sketches = [Sketch::draw(random, Kind::Crc, true), Sketch::any(random), Sketch::short(random)];
    let number = name_in_order(random, &mut sketches);
    let (at, past) = (random.up_to(2), random.pick(&[3, 4, 128, u64::MAX]));
    let retired = (at + random.between(1, 2)) % 3;
    let mut scene = vec!["file new".to_string()];
    for (place, sketch) in sketches.iter().enumerate() {
        let line = if place == retired { retired_line } else { record_line };
        scene.push(line(random, &sketch.message()));
    }
    let not_there = format!("type {} number {}", sketches[at].message_type, number.wrapping_sub(1));
    let not_found = |search: &str| {
        vec![
            format!("{search} what is not there: {not_there}"),
            format!("{search} what is retired: {}", sought(&sketches[retired])),
        ]
    };
    scene.extend([
        "check three good records:".to_string(),
        "order three good records:".to_string(),
        format!("find record {at} of three: {}", sought(&sketches[at])),
        format!("halve record {at} of three: {}", sought(&sketches[at])),
        format!("step at the retired one of three: at {retired}"),
        format!("step past the last: at {past}"),
        format!("entry of record {at}: at {at}"),
        format!("entry of no record: at {past}"),
        "edits of a message with a CRC: record 0".to_string(),
        format!("flips of message {at}: record {at}"),
        "pairs of a short message: record 2".to_string(),
    ]);
    scene.extend(some(random, 1, not_found("find")));
    scene.extend(some(random, 1, not_found("halve")));
    scene.extend(comparisons(random, at, &sketches[at].message()));
    scene
}

/// Comparisons with the record's own message and with others, with lists longer and shorter than the differences.
fn comparisons(random: &mut Random, record: usize, golden: &[u8]) -> Scene {
    let (changed, places) = changed(random, golden);
    let other = Sketch::any(random).message();
    let damage = random.pick(&DAMAGES);
    let bad = damaged(random, damage);
    let (mark, more, fewer) = (random.number(), places + random.between(1, 40), random.up_to(places - 1));
    let shown = spelled(random, &changed);
    let others = vec![
        format!("compare a long list: record {record} list {mark}*{more} with {shown}"),
        format!("compare a short list: record {record} list {mark}*{fewer} with {shown}"),
        format!("compare another message: record {record} list 1 2 3*30 {mark} with {}", spelled(random, &other)),
    ];
    let mut scene = vec![
        format!("compare with itself: record {record} list {mark}*3 with {}", spelled(random, golden)),
        format!("compare {}: record {record} list {mark} 7 with {}", damage.name(), spelled(random, &bad)),
        format!("compare no record: record 3 list {mark} with {shown}"),
    ];
    scene.extend(some(random, 1, others));
    scene
}

/// The message with some of its type, version, number and time changed, and in how many places at least.
fn changed(random: &mut Random, golden: &[u8]) -> (Vec<u8>, usize) {
    let mut message = golden.to_vec();
    let places = random.between(2, 5);
    for place in [1, 3, 9, 10, 15].into_iter().take(places) {
        message[place] ^= random.between(1, 255) as u8;
    }
    seal(&mut message);
    (message, places)
}

/// A way for the second of three records to be bad: what it is called, and the line that makes it up.
fn bad_record(random: &mut Random, refusal: u8, first: &Sketch) -> (String, String) {
    let mut sketch = Sketch::any(random);
    // It is refused for being bad, also where it has the name of the first.
    if random.once_in(2) {
        (sketch.message_type, sketch.number) = (first.message_type, first.number);
    }
    // Some room is left in the record behind the message.
    sketch.body.truncate(40);
    let mut message = sketch.message();
    let (name, stored) = match refusal {
        23 => {
            let stored = random.pick(&[0, 1, 20, 511, 512, 0x1500, 0x7FFF]);
            (format!("stored length {stored}"), stored)
        }
        24 => {
            let (stored, any) = (message.len(), random.between(message.len(), LONGEST_MESSAGE - 1));
            let place = random.pick(&[stored, any, LONGEST_MESSAGE - 1]);
            message.resize(place, 0);
            message.push(random.between(1, 255) as u8);
            ("a byte after the message".to_string(), stored)
        }
        _ => {
            let damage = random.pick(&DAMAGES[1..]);
            message = damaged(random, damage);
            while message.len() > LONGEST_MESSAGE {
                message = damaged(random, damage);
            }
            (damage.name().to_string(), message.len())
        }
    };
    // It is as bad with the mark.
    let mark = any_mark(random);
    (name, stored_line(random, mark | stored, &message))
}

/// A live record, one that is refused with this number, and a good one. Of 24 and 25 one is asked more about.
fn bad_file(random: &mut Random, refusal: u8, more: u8) -> Scene {
    let mut first = Sketch::any(random);
    first.number = first.number.max(1);
    let mut last = Sketch::any(random);
    last.number = first.number - 1;
    let (name, bad) = bad_record(random, refusal, &first);
    let mut scene = vec!["file new".to_string(), record_line(random, &first.message()), bad];
    // Of 23 the walk and the listing always meet a retired record.
    let mark = if refusal == 23 { MARK } else { any_mark(random) };
    scene.push(stored_line(random, mark | last.length(), &last.message()));
    scene.extend([
        format!("check {name}:"),
        format!("find behind {name}: {}", sought(&last)),
        format!("halve about {name}: {}", sought(random.pick(&[&first, &last]))),
        format!("entry of {name}: at 1"),
        format!("compare with {name}: record 1 list 5 6 with {}", spelled(random, &first.message())),
    ]);
    let whole = vec![format!("walk past {name}:"), format!("list {name}:"), format!("order {name}:")];
    if refusal != 25 {
        scene.push(format!("step at {name}: at 1"));
    }
    let spoiled = vec![
        format!("{} of {name}: record 1", random.pick(&["edits", "flips", "pairs"])),
        format!("flips beside {name}: record {}", random.pick(&[0, 2])),
    ];
    if refusal == 23 {
        scene.push(format!("find before {name}: {}", sought(&first)));
        scene.extend(whole);
    } else if refusal == more {
        scene.extend(some(random, 1, [whole, spoiled].concat()));
    }
    scene
}

/// An empty file, and what it is when bytes come to it; of one of the two more is asked.
pub fn empty_and_odd_file(random: &mut Random) -> Scene {
    let more = random.once_in(2);
    [empty_file(random, usize::from(more)), odd_file(random, usize::from(!more))].concat()
}

/// A file whose length is no multiple of 512, made of an empty one.
fn odd_file(random: &mut Random, more: usize) -> Scene {
    let sketch = Sketch::any(random);
    let (size, at) = (random.between(1, RECORD - 1), random.up_to(5));
    let few = random.up_to(size.min(8));
    let bytes = random.bytes(few);
    let others = vec![
        format!("{} in an odd length: record 0", random.pick(&["edits", "flips", "pairs"])),
        "retired in an odd length:".to_string(),
        format!("retire in an odd length: record {at} room {}", random.up_to(9)),
    ];
    let mut scene = vec![
        record_line(random, &sketch.message()),
        format!("file bytes {} 00*{}", spelled(random, &bytes), size - bytes.len()),
        "check an odd length:".to_string(),
        format!("find in an odd length: {}", sought(&sketch)),
        format!("halve in an odd length: {}", sought(&sketch)),
        "order an odd length:".to_string(),
        format!("step at {at} in an odd length: at {at}"),
        "walk an odd length:".to_string(),
        format!("entry {at} in an odd length: at {at}"),
        "list an odd length:".to_string(),
        format!("compare in an odd length: record 0 list 8*2 with {}", spelled(random, &sketch.message())),
    ];
    scene.extend(some(random, more, others));
    scene
}

/// A file of 128 records or of 129 is asked about, and then there is no room for another.
pub fn long_file(random: &mut Random) -> Scene {
    let message = Sketch::any(random).message();
    let more = random.between(1, RECORD);
    let mut scene = vec![
        "file new".to_string(),
        "file zeros 65536".to_string(),
        "check 128 records of zeros:".to_string(),
        "file zeros 512".to_string(),
        format!("{} 129 records:", random.pick(&["check", "walk"])),
        format!("file zeros {more}"),
        record_line(random, &message),
    ];
    scene.remove(random.pick(&[2, 4]));
    scene
}

fn empty_file(random: &mut Random, more: usize) -> Scene {
    let sketch = Sketch::any(random);
    let mut scene = vec![
        "file new".to_string(),
        "check an empty file:".to_string(),
        format!("find in an empty file: {}", sought(&sketch)),
        "walk an empty file:".to_string(),
        "list an empty file:".to_string(),
    ];
    let others = vec![
        "edits in an empty file: record 0".to_string(),
        format!("halve in an empty file: {}", sought(&sketch)),
        "order an empty file:".to_string(),
        "retired in an empty file:".to_string(),
        format!("retire in an empty file: record 0 room {}", random.up_to(2)),
        format!("step in an empty file: at {}", random.up_to(2)),
        "entry in an empty file: at 0".to_string(),
        format!("compare in an empty file: record 0 list 4 with {}", spelled(random, &sketch.message())),
    ];
    scene.extend(some(random, more, others));
    scene
}

/// The scene of a record of each refusal.
pub fn bad_files(random: &mut Random) -> Vec<Scene> {
    let more = random.pick(&[24, 25]);
    [23, 24, 25].map(|refusal| bad_file(random, refusal, more)).to_vec()
}
