//! Lines about sums and envelopes. Each name says what the line is about; where it can, also what is to come of it.

use super::damage::{damaged, damaged_twice, DAMAGES};
use super::sketch::{kind_name, letters, Sketch, KINDS};
use super::some;
use super::spelled::spelled;
use crate::envelope::{Kind, Service};
use crate::golden::{LONGEST_MESSAGE, RECORD};
use crate::random::Random;

/// No bytes, a line with spaces all over, and one of all the others.
pub fn sums(random: &mut Random) -> Vec<String> {
    let gap = " ".repeat(random.between(2, 5));
    let mut lines = vec![
        "sum no bytes:".to_string(),
        format!("{gap}sum{gap}spaces all over{gap}:{gap}{:02x}{gap}'a'{gap}", random.byte()),
    ];
    let others = [plain_sums(random), unusual(random)].concat();
    lines.extend(some(random, 1, others));
    lines
}

fn plain_sums(random: &mut Random) -> Vec<String> {
    let (run, pattern, size) = (random.up_to(300), random.between(1, 5_000), random.between(1, 60));
    let word = letters(random, 9);
    let bytes = random.bytes(size);
    vec![
        format!("sum {run} times one byte: {:02x}*{run}", random.byte()),
        format!("sum a pattern of {pattern}: pattern*{pattern}"),
        format!("sum nine letters: '{}'", String::from_utf8_lossy(&word)),
        format!("sum {size} bytes at random: {}", spelled(random, &bytes)),
    ]
}

/// Lines written in an unusual way that is right all the same.
fn unusual(random: &mut Random) -> Vec<String> {
    let number = random.next() as u16;
    vec![
        format!("qos zeros before a number: split {}{number}", "0".repeat(random.between(1, 30))),
        format!("sum words of no bytes: 41*0 '' pattern*0 {:02X}*1 00*000", random.byte()),
    ]
}

/// Each kind once, in turn with addresses and without; one of the three has 510 bytes.
pub fn good_reads(random: &mut Random) -> Vec<String> {
    let mut lines = Vec::new();
    let mut addressed = random.once_in(2);
    let longest = random.pick(&[0, 1, 2]);
    for (place, kind) in KINDS.into_iter().enumerate() {
        let mut sketch = Sketch::draw(random, kind, addressed);
        if place == longest {
            let size = LONGEST_MESSAGE - (sketch.length() - sketch.body.len());
            sketch.body = random.bytes(size);
        }
        let told = if addressed { "addressed" } else { "unaddressed" };
        let size = if place == longest { ", 510 bytes" } else { "" };
        lines.push(format!("read good, {}, {told}{size}: {}", kind_name(kind), spelled(random, &sketch.message())));
        addressed = !addressed;
    }
    lines
}

pub fn bad_reads(random: &mut Random) -> Vec<String> {
    let mut lines = Vec::new();
    for damage in DAMAGES {
        let message = damaged(random, damage);
        lines.push(format!("read {}: {}", damage.name(), spelled(random, &message)));
    }
    let first = random.up_to(DAMAGES.len() - 2);
    let second = DAMAGES[random.between(first + 1, DAMAGES.len() - 1)];
    let message = damaged_twice(random, DAMAGES[first], second);
    lines.push(format!("read {} and {}: {}", DAMAGES[first].name(), second.name(), spelled(random, &message)));
    lines
}

/// A `write` line of this sketch, which need not be a good one.
pub fn write_line(random: &mut Random, name: &str, sketch: &Sketch, room: usize) -> String {
    let Sketch { message_type, message_version, flags, number, time, integrity, .. } = sketch;
    let addressing = match sketch.service {
        None => "unaddressed".to_string(),
        Some(Service { ttl, qos }) => format!("ttl {ttl} qos {qos}"),
    };
    let words = [
        format!("write {name}: type {message_type} version {message_version} flags {flags}"),
        format!("number {number} time {time} {addressing} source"),
        spelled(random, &sketch.source),
        "destination".to_string(),
        spelled(random, &sketch.destination),
        "body".to_string(),
        spelled(random, &sketch.body),
        format!("integrity {integrity} room {room}"),
    ];
    words.iter().filter(|words| !words.is_empty()).map(String::as_str).collect::<Vec<_>>().join(" ")
}

/// One of the three kinds, or the longest addresses.
pub fn good_writes(random: &mut Random) -> Vec<String> {
    let mut lines = Vec::new();
    for kind in KINDS {
        let addressed = random.once_in(2);
        let sketch = Sketch::draw(random, kind, addressed);
        let spare = random.between(1, 60);
        let (more, told) = random.pick(&[(0, "just enough room"), (spare, "more room than it takes")]);
        lines.push(write_line(random, &format!("{told}, {}", kind_name(kind)), &sketch, sketch.length() + more));
    }
    let mut sketch = Sketch::draw(random, Kind::Crc, true);
    (sketch.source, sketch.destination) = (letters(random, 63), letters(random, 63));
    lines.push(write_line(random, "two addresses of 63 letters", &sketch, sketch.length()));
    some(random, 1, lines)
}

pub fn bad_writes(random: &mut Random) -> Vec<String> {
    let spoilers: [(&str, fn(&mut Random, &mut Sketch)); 5] = [
        ("unassigned flags", |random, sketch| sketch.flags |= random.pick(&[0x18, 0x20, 0x40, 0x80])),
        ("an address over 63 bytes", |random, sketch| sketch.source = vec![b'L'; random.between(64, 70)]),
        ("an address with a zero", |random, sketch| {
            let place = random.up_to(sketch.destination.len());
            sketch.destination.insert(place, 0);
        }),
        ("an address where addressing is absent", |random, sketch| {
            (sketch.service, sketch.source) = (None, letters(random, 3));
        }),
        ("a stray integrity number", |random, sketch| sketch.integrity = random.between(1, 99) as u32),
    ];
    // Of the three ways to spoil an address one is drawn.
    let drawn = [0, random.between(1, 3), 4];
    let mut lines = Vec::new();
    for (name, spoil) in drawn.map(|place| spoilers[place]) {
        let kind = random.pick(&KINDS[..2]);
        let mut sketch = Sketch::draw(random, kind, true);
        spoil(random, &mut sketch);
        let room = sketch.length() - random.between(1, sketch.length());
        // Too short a buffer is looked for last, so it may come with any of the others.
        if random.once_in(4) {
            lines.push(write_line(random, &format!("{name}, too little room"), &sketch, room));
        } else {
            lines.push(write_line(random, name, &sketch, 600));
        }
    }
    let sketch = Sketch::any(random);
    let any = random.between(1, sketch.length());
    let less = random.pick(&[1, any]);
    lines.push(write_line(random, &format!("too little room by {less}"), &sketch, sketch.length() - less));
    lines
}

pub fn rewrites(random: &mut Random) -> Vec<String> {
    let (name, more) = random.pick(&[("just enough room", 0), ("room to spare", 17)]);
    let mut line = |name: &str, more: usize, less: usize| {
        let message = Sketch::any(random).message();
        format!("rewrite {name}: room {} of {}", message.len() + more - less, spelled(random, &message))
    };
    let mut lines = vec![line(name, more, 0), line("one byte too little room", 0, 1)];
    let damage = random.pick(&DAMAGES);
    let message = damaged(random, damage);
    lines.push(format!("rewrite {}: room {} of {}", damage.name(), random.up_to(80), spelled(random, &message)));
    lines
}

pub fn new_records(random: &mut Random) -> Vec<String> {
    let mut line = |name: &str, room: usize| {
        let message = Sketch::any(random).message();
        format!("make {name}: room {room} of {}", spelled(random, &message))
    };
    let mut lines = vec![
        line("a record", RECORD),
        line("buffer one byte short", RECORD - 1),
        line("buffer one byte long", RECORD + 1),
    ];
    let damage = random.pick(&DAMAGES);
    let message = damaged(random, damage);
    lines.push(format!("make {}: room {RECORD} of {}", damage.name(), spelled(random, &message)));
    let size = random.between(LONGEST_MESSAGE + 1, 600);
    lines.push(format!("make a message over 510 bytes: room {RECORD} of 04*{size}"));
    lines
}

pub fn qos(random: &mut Random) -> Vec<String> {
    let mut part = |largest: usize| random.up_to(largest);
    let fitting = format!("join {} {} {} {} {}", part(7), part(15), part(7), part(7), part(7));
    let place = random.up_to(4);
    let widths = [7, 15, 7, 7, 7];
    let parts =
        (0..5).map(|at| if at == place { random.between(widths[at] + 1, 255) } else { random.up_to(widths[at]) });
    let unfitting: Vec<String> = parts.map(|part| part.to_string()).collect();
    vec![
        format!("qos one bit: split {}", 1 << random.up_to(15)),
        format!("qos numbers that fit: {fitting}"),
        format!("qos number {place} does not fit: join {}", unfitting.join(" ")),
    ]
}

/// A line for each answer.
pub fn lateness(random: &mut Random) -> Vec<String> {
    let (ttl, entry) = (u64::from(random.number() as u16).max(1), random.second());
    let after = random.pick(&[1, 1, 1 << 16, 1 << 32]);
    // An entry from which a clock so long after its last second is still there.
    let early = entry.min(u64::MAX - ttl - after);
    let last = early + ttl;
    // Entries that go past 64 bits with the TTL, and past 32.
    let [past_64, past_32] = [u64::MAX, u32::MAX.into()].map(|edge| edge - random.up_to(ttl as usize - 1) as u64);
    let run_round = past_64.wrapping_add(ttl);
    let in_time = vec![
        format!("late at its last second: ttl {ttl} entry {early} clock {last}"),
        format!("late at its entry or before: ttl {ttl} entry {entry} clock {}", random.up_to(entry as usize)),
        format!("late past 64 bits, the largest clock: ttl {ttl} entry {past_64} clock {}", u64::MAX),
        format!("late past 64 bits, a small clock: ttl {ttl} entry {past_64} clock {}", run_round + 1),
        format!("late past 32 bits: ttl {ttl} entry {past_32} clock {}", random.pick(&[past_32, past_32 + ttl])),
    ];
    let any = random.second();
    let clock = random.pick(&[entry, entry.saturating_add(1), any]);
    let no_clock = vec![
        format!("late a TTL of 0: ttl 0 entry {entry} clock {clock}"),
        format!("late no variable header: unaddressed entry {entry} clock {clock}"),
    ];
    let mut lines =
        vec![format!("late {after} seconds after its last: ttl {ttl} entry {early} clock {}", last + after)];
    lines.extend(some(random, 1, in_time));
    lines.extend(some(random, 1, no_clock));
    lines
}

pub fn sequences(random: &mut Random) -> Vec<String> {
    let old = random.number();
    let ahead = random.between(2, i32::MAX as usize) as u32;
    let steps = [
        ("a repeat", 0),
        ("the next", 1),
        random.pick(&[("ahead", ahead), ("the farthest ahead", (1 << 31) - 1)]),
        ("behind", ahead.wrapping_neg()),
        ("half way round", 1 << 31),
    ];
    steps.map(|(name, by)| format!("sequence {name}: from {old} to {}", old.wrapping_add(by))).to_vec()
}
