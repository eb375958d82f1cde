//! Lines that are not understood, for each complaint that a short line can be told.

use super::envelope_lines::write_line;
use super::sketch::Sketch;
use super::some;
use crate::random::Random;

/// A comment, which prints nothing and is counted all the same.
pub fn comments(random: &mut Random) -> Vec<String> {
    let lines =
        vec![format!("{}# a comment: it prints nothing", " ".repeat(random.up_to(3))), " ".repeat(random.up_to(5))];
    some(random, 1, lines)
}

pub fn commands_and_names(random: &mut Random) -> Vec<String> {
    let spaces = " ".repeat(random.up_to(3));
    let command =
        random.pick(&["sum", "read", "judge", "unwrap", "walk", "check", "list", "retire", "retired", "order", "ack"]);
    let no_command =
        random.pick(&["reed", "Sum", "checks", "wal", "files", "0", "retir", "retires", "halves", "acks", "time-out"]);
    let names = vec![
        format!("{spaces}{command} a name without its colon"),
        format!("{spaces}{command}{spaces} : spaces for a name"),
    ];
    let mut lines = vec![format!("{spaces}{no_command} no such command: 00")];
    lines.extend(some(random, 1, names));
    lines
}

pub fn words(random: &mut Random) -> Vec<String> {
    let spaces = " ".repeat(random.up_to(3));
    let (number, other) = (random.number(), random.pick(&["x", "Type", "now", "0", "''"]));
    let mut lines = vec![
        format!("late neither unaddressed nor ttl: {other} {} entry {number} clock 3", random.byte()),
        format!("qos neither split nor join: {other} {}", random.byte()),
        if random.once_in(2) { format!("file {other} 00") } else { format!("file{spaces}") },
    ];
    let others = vec![
        format!("{} the number before the type: number {number} type 1", random.pick(&["find", "halve"])),
        format!("rewrite nothing behind the room: room {}{spaces}", random.up_to(99)),
        format!("compare no message: record 0 list {number} 2*{}{spaces}", random.up_to(20)),
        format!("sequence no second number: from {number} {other} {number}"),
        format!("late the clock before the entry: ttl 1 clock {number} entry 1"),
        format!("late nothing behind the entry: unaddressed entry {number}{spaces}"),
        format!("wrap no COMMID: room 600 of {number}"),
        format!("retire no record: {other} 0 room 512"),
        format!("retire no room: record {number}{spaces}"),
        format!("acknowledge the room before the other COMMID: commid {number} room 17 of 1"),
    ];
    lines.extend(some(random, 1, others));
    lines
}

pub fn streams(random: &mut Random) -> Vec<String> {
    let spaces = " ".repeat(random.up_to(3));
    vec![
        format!("stream no cut:{spaces} {}", random.pick(&["04", "of 04", "Cut 1 of 04", "cut: 1", ""])),
        format!("stream no number that fits: cut {} of 04", not_a_number(random)),
        format!("stream nothing before the bytes: cut {} {}{spaces}", random.number(), random.pick(&["04", ""])),
    ]
}

pub fn senders(random: &mut Random) -> Vec<String> {
    let (event, other_event) = (sender_event(random), sender_event(random));
    let (number, other) = (random.number(), random.pick(&["x", "COMMID", "resends", "0", "of"]));
    let words = vec![
        format!("{event} no COMMID: {other} {number}"),
        format!("{event} nothing behind the name:{}", " ".repeat(random.up_to(3))),
    ];
    let numbers = vec![
        format!("{other_event} a COMMID too large: commid 429496729{}", random.between(6, 9)),
        format!("{other_event} two COMMIDs: commid {number} {number}"),
        format!("start no resends: {} {number}", random.pick(&["commid", "Resends", "0"])),
        format!("start not a number that fits: resends {}", not_a_number(random)),
        format!("start a word behind the resends: resends {number} {other}"),
    ];
    [some(random, 1, words), some(random, 1, numbers)].concat()
}

fn sender_event(random: &mut Random) -> &'static str {
    random.pick(&["submit", "ack", "nak", "timeout"])
}

/// A word that is no number at all, or too large for any.
fn not_a_number(random: &mut Random) -> &'static str {
    random.pick(&["-1", "+1", "0x10", "1.0", "one", "1,000", "''", "18446744073709551616"])
}

pub fn numbers(random: &mut Random) -> Vec<String> {
    let over = random.up_to(9);
    let list = random.pick(&["4294967296", "5*", "*5", "x", "5*5*5"]);
    let mut lines = vec![format!("qos a part too large: join 1 2 3 {} 5", 256 + over)];
    let others = vec![
        format!("step not a number that fits: at {}", not_a_number(random)),
        format!("halve a type too large: type 6553{} number {}", random.between(6, 9), random.number()),
        format!("qos a QoS too large: split 6553{}", random.between(6, 9)),
        format!("late a TTL too large: ttl 6553{} entry 1 clock 2", random.between(6, 9)),
        format!("late an entry not a number that fits: ttl 1 entry {} clock 2", not_a_number(random)),
        format!("make a room too large: room {} of 00", 1_025 + over),
        format!("sequence a number too large: from {} to 429496729{}", random.number(), random.between(6, 9)),
        format!("entry no number: at{}", " ".repeat(random.up_to(3))),
        format!("file zeros {}", 66_561 + over),
        format!("file change {} 00", 66_561 + over),
        format!("compare a bad list: record 0 list 1 {list} with 00"),
        format!("retire not a number that fits: record {} room 512", not_a_number(random)),
        format!("retire a room too large: record 0 room {}", 1_025 + over),
        format!("wrap a COMMID too large: commid 429496729{} room 34 of 00", random.between(6, 9)),
        format!("acknowledge a room too large: commid 1 of 2 room {}", 1_025 + over),
    ];
    lines.extend(some(random, 1, others));
    lines
}

pub fn bytes(random: &mut Random) -> Vec<String> {
    let word = random.pick(&["041", "0g", "'abc", "abc'", "'", "0417*3", "41*", "41*x", "pattern", "pattern*", "0x41"]);
    let over = random.between(1, 9);
    let fields = "type 1 version 1 flags 0 number 1 time 1 unaddressed";
    let long = format!("source 41*{} destination body integrity 0 room 0", 600 + over);
    let commands = ["sum", "judge", "piece", "unwrap", "first"];
    let (one, other) = (random.pick(&commands), random.pick(&commands));
    let mut lines = vec![
        format!("{one} not bytes: 00 {word} 00"),
        format!("{other} over 300,000 bytes: 00*300000 '' 41*{over} 00"),
        format!("compare over 600 numbers: record 0 list 1*600 2*0 3*{over} with 00"),
    ];
    let others = vec![
        format!("file record {word}"),
        format!("write an address over 600 bytes: {fields} {long}"),
        format!("file bytes 00*{}", 66_560 + over),
        format!("file record 04 00*{}", 509 + over),
        format!("file change 0 00*{}", 66_560 + over),
    ];
    lines.extend(some(random, 1, others));
    lines
}

pub fn left_over(random: &mut Random) -> Vec<String> {
    let command = random.pick(&["check", "walk", "list", "order", "retired", "restart", "end"]);
    let word = random.pick(&["now", "0", "#", ":"]);
    let lines = vec![
        format!("{command} a word left over:  {word}"),
        format!("qos a sixth number: join 1 2 3 4 5 {}", random.byte()),
        format!("late a word behind the clock: ttl 1 entry 2 clock 3 {word}"),
        format!("file new {word}"),
        format!("halve a word behind the number: type 1 number 2 {word}"),
        format!("flips two records: record 0 {word}"),
        format!("retire a word behind the room: record 0 room 512 {word}"),
        format!("acknowledge a word behind the room: commid 1 of 2 room 17 {word}"),
    ];
    some(random, 1, lines)
}

/// A long line that is right but for one word: another stands there, or the line ends with it.
pub fn spoiled_writes(random: &mut Random) -> Vec<String> {
    let sketch = Sketch::any(random);
    let line = write_line(random, "one word spoiled", &sketch, 100);
    let colon = line.find(": ").map_or(0, |colon| colon + 2);
    let (name, arguments) = line.split_at(colon);
    let words: Vec<&str> = arguments.split(' ').collect();
    let place = random.up_to(words.len() - 1);
    let spoiled = [&words[..place], &["x"], &words[place + 1..]].concat().join(" ");
    let cut = random.up_to(words.len() - 1);
    let lines = vec![format!("{name}{spoiled}"), format!("write cut short: {}", words[..cut].join(" "))];
    some(random, 1, lines)
}
