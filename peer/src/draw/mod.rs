//! A file of cases drawn at random, for both programs to run.
//! It goes in rounds: each holds every kind of line once, in an order and with contents of its own.

pub(crate) mod damage;
mod envelope_lines;
mod feed_scenes;
mod frame_lines;
mod golden_scenes;
mod judge_lines;
mod not_understood;
mod retired_scenes;
mod sender_scenes;
pub(crate) mod sketch;
mod spelled;

use crate::random::Random;

const SEED: u64 = 9354;
const LINES: usize = 240;

#[derive(Debug, PartialEq, Eq)]
pub struct Options {
    pub seed: u64,
    pub lines: usize,
}

/// `[--seed N] [--lines N]`; anything else is not understood.
pub fn options(words: &[String]) -> Option<Options> {
    let mut options = Options { seed: SEED, lines: LINES };
    for pair in words.chunks(2) {
        let [name, number] = pair else { return None };
        match name.as_str() {
            "--seed" => options.seed = number.parse().ok()?,
            "--lines" => options.lines = number.parse().ok()?,
            _ => return None,
        }
    }
    Some(options)
}

/// The file of cases: so many lines, the same for the same seed.
pub fn cases(options: &Options) -> String {
    let mut random = Random::new(options.seed);
    let mut lines = Vec::new();
    while lines.len() < options.lines {
        lines.extend(round(&mut random));
    }
    lines.truncate(options.lines);
    lines.iter().map(|line| format!("{line}\n")).collect()
}

/// Lines that stand on their own, each of which may come anywhere.
const LINES_DRAWN: [fn(&mut Random) -> Vec<String>; 24] = [
    envelope_lines::sums,
    envelope_lines::good_reads,
    envelope_lines::bad_reads,
    judge_lines::judges,
    frame_lines::unwraps,
    frame_lines::wraps,
    frame_lines::acknowledgments,
    frame_lines::captures,
    envelope_lines::good_writes,
    envelope_lines::bad_writes,
    envelope_lines::rewrites,
    envelope_lines::new_records,
    envelope_lines::qos,
    envelope_lines::lateness,
    envelope_lines::sequences,
    not_understood::comments,
    not_understood::commands_and_names,
    not_understood::words,
    not_understood::numbers,
    not_understood::bytes,
    not_understood::streams,
    not_understood::senders,
    not_understood::left_over,
    not_understood::spoiled_writes,
];

/// Lines about one golden file, one feed or one sender, which stay together.
const SCENES_DRAWN: [fn(&mut Random) -> Vec<String>; 8] = [
    golden_scenes::good_file,
    golden_scenes::empty_and_odd_file,
    golden_scenes::long_file,
    retired_scenes::retired_file,
    feed_scenes::good_stream,
    feed_scenes::pieces,
    sender_scenes::three_messages,
    sender_scenes::full_sender,
];

fn round(random: &mut Random) -> Vec<String> {
    let mut scenes: Vec<Vec<String>> = Vec::new();
    for draw in LINES_DRAWN {
        scenes.extend(draw(random).into_iter().map(|line| vec![line]));
    }
    for draw in SCENES_DRAWN {
        scenes.push(draw(random));
    }
    scenes.extend(golden_scenes::bad_files(random));
    scenes.extend(feed_scenes::refusals(random));
    for last in (1..scenes.len()).rev() {
        scenes.swap(last, random.up_to(last));
    }
    scenes.concat()
}

/// So many of these lines, in their order.
fn some(random: &mut Random, count: usize, mut lines: Vec<String>) -> Vec<String> {
    while lines.len() > count {
        lines.remove(random.up_to(lines.len() - 1));
    }
    lines
}

#[cfg(test)]
mod tests {
    use super::*;
    use crate::casefile::{run, LONGEST_LINE};

    fn drawn(seed: u64, lines: usize) -> String {
        cases(&Options { seed, lines })
    }

    fn printed(seed: u64, lines: usize) -> String {
        String::from_utf8(run(drawn(seed, lines).as_bytes())).expect("what is printed is text")
    }

    /// What a line that begins so must hold in some answer of every drawn file; `..` stands for numbers that are drawn.
    const MET: [(&str, &str); 54] = [
        ("sum", "no bytes: 0 00000000|spaces all over"),
        ("read", "integrity none|integrity crc|integrity application| unaddressed | ttl "),
        ("read", ": refused 1 |: refused 2 0|: refused 3 4|: refused 4 16|: refused 5 5|: refused 6 21|: refused 7 "),
        ("judge", ": 1 broken at 0 2 not judged 3 not | 5 kept 6 kept 7 kept none broken"),
        ("judge", " 2 broken at 0 3 broken at 4 4 broken at 16 5 broken at 5 6 not judged 7 broken at .. lowest 2 0"),
        ("judge", " 6 kept 7 kept lowest 5 5| 6 not judged 7 kept none broken"),
        ("judge", " 6 broken at 21 7 broken at .. lowest 6 21"),
        ("unwrap", ": data commid |: acknowledgment commid |: refused 61 0 0|: refused 62 0 0|: refused 63 0 0"),
        ("unwrap", ": refused 64 0 0|: refused 65 0 0|: refused 66 0 0|: refused 67 "),
        ("wrap", ": wrote |: refused 67 |: refused 68 0 0 ["),
        ("acknowledge", ": wrote 17 [|: refused 68 0 0 ["),
        ("first", " of "),
        ("write", ": wrote |: refused 11 [|: refused 12 [|: refused 14 [|: refused 15 ["),
        ("rewrite", ": wrote |: refused 15 [|: unread "),
        ("qos", " does not fit: refused 41|one bit: |numbers that fit: "),
        ("late", " seconds after its last: late|: in time|: no clock"),
        ("sequence", " repeat| next| ahead | behind 2147483648"),
        ("file:", " 0 bytes| 512 bytes| 1024 bytes| 65536 bytes| 66048 bytes"),
        ("check", ": records 0|: records 3|record 0 refused 21 0 0|record 1 refused 23 0 0"),
        ("check", "record 1 refused 24 0 0|record 1 refused 25 |twice: record 1 refused 26 0 0"),
        ("check", "damaged: record 0 refused 25 |live and retired: records 2"),
        ("retired ", ": retired 1"),
        ("retire ", ": done [|: refused 36 0 0 [|: refused 37 0 0 ["),
        ("find", "record 0 opened 1|refused 27 0 0 opened 3|refused 27 0 0 opened 0|refused 21 0 0 opened 0"),
        ("find", "refused 23 0 0 opened 2|refused 24 0 0 opened 2|refused 25 |live one of two: record 1 opened 2"),
        ("halve", ": record .. opened |: refused 27 0 0 opened |: refused 21 0 0 opened 0|: refused 23 0 0 opened 1"),
        ("halve", ": refused 24 0 0 opened 1|: refused 25 .. opened 1"),
        ("order", ": ascending|: breaks at 1|: record 0 refused 21 0 0|: record 1 refused 23 0 0"),
        ("step", ": message .. retired next |: end next |refused 21 0 0 next "),
        ("step", "refused 23 0 0 next 2|refused 24 0 0 next 2"),
        ("walk", ", refused 23 0 0, message 1026 .. retired, end|: refused 21 0 0|: end"),
        ("compare", ": same list |: different |refused 21 0 0 list|refused 22 0 0 list|refused 23 0 0 list"),
        ("compare", "refused 24 0 0 list|refused 25 |refused 31 |refused 38 0 0 list"),
        ("make", ": made [|refused 33 0 0 [|refused 34 |refused 35 0 0 [ee*511]|refused 35 0 0 [ee*513]"),
        ("entry", "refused 21 0 0|refused 22 0 0|refused 23 0 0|refused 24 0 0|refused 25 |of record | retired"),
        ("list", ": records 0|: records 3; 0 |; 1 refused 23 0 0; 2 .. retired|: refused 21 0 0"),
        ("edits", ": edited "),
        ("flips", ": flipped "),
        ("pairs", ": flipped "),
        ("restart", ": count 0 inside kept [00*510]"),
        ("piece", " nothing count | message |: used 0 nothing |: used 0 refused 52 0 | whole kept | inside kept "),
        ("stream", ": message |, used | whole kept "),
        ("end", ": nothing count |: refused 52 0 count "),
        ("", " refused 2 0 kept| refused 3 4 kept| refused 4 16 kept| refused 6 21 kept| refused 51 0 kept"),
        ("", " refused 7 .. kept"),
        ("start", ": started resends 1 flight none waiting 0 places |: refused 73 resends 1 flight "),
        ("submit", ": sent resends |: waits resends |: refused 70 resends .. waiting 16 |: refused 71 resends "),
        ("ack ", ": settled resends 1 flight none |: settled next .. flight "),
        ("", ": again resends 1 flight .. left 0 |: failed resends 1 flight none |: failed next .. left 1 |: refused 72 "),
        ("line", ": a command expected|: a name and a colon expected|: bytes expected|: at most 600 numbers expected"),
        ("line", ": the word new expected|: the word split expected|: the word ttl expected|: a number from 0 to 255 "),
        ("line", ": the word cut expected|: the word of expected|: a number from 0 to 18446744073709551615 expected"),
        ("line", ": the word commid expected"),
        ("line", ": at most 300000 bytes expected|: the end of the line expected|: no room for a record in the file"),
    ];

    /// Whether the parts of a text between which `..` stands come one behind the other.
    fn holds(line: &str, text: &str) -> bool {
        text.split("..").try_fold(line, |rest, part| rest.split_once(part).map(|(_, rest)| rest)).is_some()
    }

    #[test]
    fn every_drawn_file_meets_every_answer() {
        for seed in 0..20 {
            let printed = printed(seed, LINES);
            for (command, texts) in MET {
                for text in texts.split('|') {
                    let met = printed.lines().any(|line| line.starts_with(command) && holds(line, text));
                    assert!(met, "seed {seed}: {command} {text}");
                }
            }
        }
    }

    /// What a drawn `late` line whose name holds this must be answered.
    const LATENESS: [(&str, &str); 7] = [
        (" seconds after its last:", " late"),
        (" at its last second:", " in time"),
        (" at its entry or before:", " in time"),
        (" past 64 bits, ", " in time"),
        (" past 32 bits:", " in time"),
        (" a TTL of 0:", " no clock"),
        (" no variable header:", " no clock"),
    ];

    #[test]
    fn each_late_line_is_answered_as_it_is_named() {
        let mut random = Random::new(5);
        let lines: Vec<String> = (0..500).flat_map(|_| envelope_lines::lateness(&mut random)).collect();
        let printed = String::from_utf8(run(lines.join("\n").as_bytes())).expect("what is printed is text");
        assert_eq!(printed.lines().count(), lines.len());
        for (name, answer) in LATENESS {
            let told: Vec<&str> = printed.lines().filter(|line| line.contains(name)).collect();
            assert!(told.len() > 50, "{} lines{name}", told.len());
            assert!(told.iter().all(|line| line.ends_with(&format!(":{answer}"))), "{name}{answer}");
        }
    }

    /// Whatever is drawn to be understood is: 19 lines of a round are not, and one record has no room.
    #[test]
    fn only_the_lines_meant_so_are_not_understood() {
        let length = round(&mut Random::new(0)).len();
        assert!(length <= LINES, "{length} lines in a round");
        for seed in 0..20 {
            let printed = printed(seed, length);
            let told: Vec<&str> = printed.lines().filter(|line| line.starts_with("line ")).collect();
            assert_eq!(told.len(), 20, "seed {seed}: {told:#?}");
            assert_eq!(printed.lines().count(), length - 1, "a comment prints nothing");
        }
    }

    #[test]
    fn a_drawn_file_is_as_long_as_asked_and_its_lines_are_not_too_long() {
        for lines in [0, 1, 239, 240, 1_000] {
            let drawn = drawn(7, lines);
            assert_eq!(drawn.lines().count(), lines);
            assert!(drawn.lines().all(|line| line.len() <= LONGEST_LINE));
        }
    }

    #[test]
    fn the_seed_alone_decides() {
        assert_eq!(drawn(1, 300), drawn(1, 300));
        assert_ne!(drawn(1, 300), drawn(2, 300));
        assert!(drawn(1, 300).starts_with(&drawn(1, 100)));
    }

    #[test]
    fn options_are_read_or_not_understood() {
        let read = |words: &str| options(&words.split_whitespace().map(String::from).collect::<Vec<_>>());
        assert_eq!(read(""), Some(Options { seed: 9354, lines: 240 }));
        assert_eq!(read("--lines 7 --seed 3"), Some(Options { seed: 3, lines: 7 }));
        for words in ["--seed", "--seed x", "--lines -1", "--count 3", "7"] {
            assert_eq!(read(words), None, "{words}");
        }
    }
}
