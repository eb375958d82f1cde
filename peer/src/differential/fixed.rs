//! The inputs that every run has: the named cases, the edges, and everything few enough to be tried whole.
//! Long messages stand apart, since each takes its time.

use super::lent::hex;
use super::run::Run;
use super::{ask_envelope, ask_golden, inputs};
use crate::interface::{Answer, Order, Timing};
use crate::{mirror, ours};
use peer::cases;
use peer::envelope::{LONGEST_BODY, LONGEST_END, LONGEST_VARIABLE, SERVICE, SHORTEST};
use peer::flips;
use peer::golden::{MOST_RECORDS, RECORD};

/// A message of the greatest length there is.
const LONGEST_LENGTH: usize = SHORTEST + LONGEST_VARIABLE + LONGEST_BODY;

pub fn short(run: &mut Run) {
    published_sums(run);
    lettered_cases(run);
    every_flags_and_size(run);
    every_pair_of_ends(run);
    every_short_length(run);
    every_qos(run);
    moments(run);
    every_ttl(run);
    sequences(run);
    file_lengths(run);
    flipped_bits(run);
    beginnings(run);
}

pub fn long(run: &mut Run) {
    longest_messages(run);
    long_messages(run);
    long_orders(run);
    long_radios(run);
}

fn published_sums(run: &mut Run) {
    run.family("published sums");
    for (bytes, sum) in cases::published_sums() {
        run.input();
        let told = ask_envelope::sum(run, &bytes);
        run.holds("the sum is the published one", told == sum, &|| format!("bytes {}", hex(&bytes)));
    }
}

/// The cases by their letters; n is among the published sums.
fn lettered_cases(run: &mut Run) {
    run.family("lettered cases");
    for case in cases::messages() {
        run.input();
        let answer = ask_envelope::message(run, &case.message);
        let shown = || format!("case {}, message {}", case.name, hex(&case.message));
        let told = (answer.number, answer.value as usize) == (case.answer, case.place);
        run.holds("a case has the answer told", told, &shown);
    }
    for (letter, old, new, distance) in [("k", u32::MAX, 0, 1), ("l", 0, 1 << 31, i32::MIN)] {
        run.input();
        let told = ask_envelope::sequence(run, old, new);
        run.holds("a case has the answer told", told == distance, &|| format!("case {letter}"));
    }
    run.input();
    let mut parts = [0; 5];
    ours::qos_split(8, &mut parts);
    ask_envelope::qos_split(run, 8);
    run.holds("a case has the answer told", parts == [0, 0, 0, 1, 0], &|| String::from("case m"));
    let file = cases::listed_file();
    listed(run, &file, cases::LISTING);
    let both_marked: Vec<u8> = file.chunks(RECORD).flat_map(|record| cases::retired(record.to_vec())).collect();
    listed(run, &both_marked, "records 2\n0 6000 1 21 retired\n1 refused 23 0 0\n");
    listed(run, &file[..RECORD + 1], "refused 21 0 0\n");
    listed(run, &[], "records 0\n");
}

fn listed(run: &mut Run, file: &[u8], listing: &str) {
    run.input();
    ask_golden::file(run, file);
    let ours = ask_golden::listing(file, ours::records, ours::line);
    let peer = ask_golden::listing(file, mirror::records, mirror::line);
    run.holds("case o is listed as told", ours == listing && peer == listing, &|| format!("file {}", hex(file)));
}

/// Every bit of three messages of kind CRC, and every pair of bits of one: a check refuses them all.
fn flipped_bits(run: &mut Run) {
    run.family("flipped bits");
    let file = flips::file();
    flips::each_bit(&file, |file| flipped(run, file));
    flips::each_pair(&file, 0, |file| flipped(run, file));
}

fn flipped(run: &mut Run, file: &[u8]) {
    run.input();
    let shown = || format!("file {}", hex(file));
    let answer = ask_golden::check(run, file);
    run.holds("a check sees one or two flipped bits", answer.number == 25, &shown);
}

/// Each accepted case beside all its proper beginnings, in the record and from the radio, and beside what is longer.
fn beginnings(run: &mut Run) {
    run.family("comparisons with proper beginnings");
    for message in cases::messages().into_iter().filter(|case| case.answer == 0).map(|case| case.message) {
        let file = inputs::record_of(message.len(), &message);
        for length in 0..message.len() {
            run.input();
            let beginning = &message[..length];
            ask_golden::comparison(run, &file, 0, beginning);
            ask_golden::comparison(run, &inputs::record_of(length, beginning), 0, &message);
        }
        for behind in 1..10 {
            run.input();
            let longer = [message.clone(), run.random.bytes(behind)].concat();
            ask_golden::comparison(run, &file, 0, &longer);
        }
    }
}

/// Every flags byte with every variable header size.
fn every_flags_and_size(run: &mut Run) {
    run.family("every flags byte with every V");
    for flags in 0..=u8::MAX {
        for variable in 0..=u8::MAX {
            run.input();
            let length = SHORTEST + usize::from(variable) + run.random.up_to(9);
            let message = inputs::shaped(&mut run.random, length, flags, variable);
            let told = ask_envelope::message(run, &message);
            let answer = match (flags, variable) {
                (24.., _) => 3,
                (_, 1..=5 | 133..) => 4,
                _ => 0,
            };
            let shown = || format!("message {}", hex(&message));
            run.holds("flags and V decide here", told.number == answer, &shown);
        }
    }
}

/// Every pattern of zeros in short ends, and every place for the source's zero in ends of any size.
fn every_pair_of_ends(run: &mut Run) {
    run.family("every pattern of ends");
    for size in 2..=10 {
        for pattern in 0..1_u32 << size {
            let ends: Vec<u8> = (0..size).map(|bit| (pattern >> bit & 1) as u8 * b'E').collect();
            pair_of_ends(run, &ends);
        }
    }
    for size in 2..=2 * LONGEST_END {
        for zero in 0..size - 1 {
            let mut ends = vec![b'E'; size];
            (ends[zero], ends[size - 1]) = (0, 0);
            let told = pair_of_ends(run, &ends);
            let fit = zero < LONGEST_END && size - zero - 2 < LONGEST_END;
            run.holds("two ends are read where both fit", (told.number == 0) == fit, &|| {
                format!("ends {}", hex(&ends))
            });
        }
    }
}

fn pair_of_ends(run: &mut Run, ends: &[u8]) -> Answer {
    run.input();
    ask_envelope::message(run, &cases::with_ends((SERVICE + ends.len()) as u8, ends))
}

fn every_short_length(run: &mut Run) {
    run.family("every length to 600");
    for length in 0..=600 {
        for variable in [0, 6, 70, 132] {
            run.input();
            let flags = run.random.up_to(23) as u8;
            let message = inputs::shaped(&mut run.random, length, flags, variable);
            ask_envelope::message(run, &message);
        }
    }
}

fn every_qos(run: &mut Run) {
    run.family("every QoS field");
    for qos in 0..=u16::MAX {
        run.input();
        ask_envelope::qos_split(run, qos);
    }
}

/// Entries about the edges of 16, 31, 32, 63 and 64 bits, and as far before each as a TTL can be long.
fn entries() -> Vec<u64> {
    let edges = [0, 1 << 16, 1 << 31, 1 << 32, 1 << 63, u64::MAX];
    let before = edges.map(|edge| edge.saturating_sub(u16::MAX.into()));
    [edges, before].concat().into_iter().flat_map(inputs::about).collect()
}

fn moments(run: &mut Run) {
    run.family("lateness at its edges");
    for entry in entries() {
        for ttl in [0, 1, 2, 120, 256, 1 << 15, u16::MAX - 1, u16::MAX] {
            for clock in inputs::clocks(ttl, entry) {
                for addressed in [0, 1, 2, 0x80, 0xFF] {
                    run.input();
                    ask_envelope::lateness(run, Timing { addressed, ttl, entry, clock });
                }
            }
        }
    }
}

/// Every TTL, with entries from which it runs out about the last second of 32 and of 64 bits.
fn every_ttl(run: &mut Run) {
    run.family("every TTL about the last second of 32 and of 64 bits");
    for ttl in 0..=u16::MAX {
        run.input();
        for last in [u32::MAX.into(), u64::MAX] {
            for entry in inputs::about(last - u64::from(ttl)) {
                for clock in inputs::clocks(ttl, entry) {
                    ask_envelope::lateness(run, Timing { addressed: 1, ttl, entry, clock });
                }
            }
        }
    }
}

fn sequences(run: &mut Run) {
    run.family("sequence at its edges");
    let half = 1 << 31;
    let edges = [0, 1, 2, 3, half - 2, half - 1, half, half + 1, half + 2, u32::MAX - 2, u32::MAX - 1, u32::MAX];
    for old in edges {
        for new in edges {
            run.input();
            ask_envelope::sequence(run, old, new);
        }
    }
}

/// Files of every number of records and of lengths beside the right ones.
fn file_lengths(run: &mut Run) {
    run.family("golden files of every record count");
    for records in 0..=MOST_RECORDS + 1 {
        run.input();
        let file = inputs::file(&mut run.random, records);
        ask_golden::file(run, &file);
    }
    run.family("golden files about the right lengths");
    let whole = inputs::file(&mut run.random, MOST_RECORDS + 2);
    for length in [1, 511, 513, 1023, 65_535, 65_536, 65_537, 66_047, 66_048, 66_049, 66_560] {
        run.input();
        ask_golden::file(run, &whole[..length]);
    }
}

/// The greatest length, and lengths that no sizes in a header add up to.
fn longest_messages(run: &mut Run) {
    run.family("messages about the greatest length");
    let unaddressed = SHORTEST + LONGEST_BODY;
    for (length, flags, variable, answer) in [
        (LONGEST_LENGTH, 8, 132, 0),
        (LONGEST_LENGTH, 0, 132, 0),
        (LONGEST_LENGTH + 1, 8, 132, 5),
        (unaddressed, 16, 0, 0),
        (unaddressed + 1, 16, 0, 5),
        (unaddressed + (1 << 24), 0, 0, 5),
    ] {
        run.input();
        let message = inputs::shaped(&mut run.random, length, flags, variable);
        let told = ask_envelope::message(run, &message);
        let shown = || format!("message {}", hex(&message));
        run.holds("the longest message is read and a longer one refused", told.number == answer, &shown);
    }
}

/// Long messages, each once as it should be and once with one bit changed.
fn long_messages(run: &mut Run) {
    run.family("messages of 64 KiB to 16 MiB");
    for place in 0..24 {
        let doubled = 1 << 16 << (place % 8);
        let length = doubled + run.random.up_to(doubled - 1);
        let mut message = inputs::shaped(&mut run.random, length, 8 * (place % 3), 64);
        run.input();
        ask_envelope::message(run, &message);
        message[run.random.up_to(length - 1)] ^= 1 << run.random.up_to(7);
        run.input();
        ask_envelope::message(run, &message);
    }
}

/// Bodies at and above the longest, each with the refusals that go before and after it.
fn long_orders(run: &mut Run) {
    run.family("orders with bodies about 16 MiB");
    let longest_end = vec![b'L'; LONGEST_END - 1];
    let over = vec![b'L'; LONGEST_END];
    for size in [LONGEST_BODY, LONGEST_BODY + 1, LONGEST_BODY + 2] {
        let body = run.random.bytes(size);
        for (flags, addressed, end, integrity) in [
            (8, 1, &longest_end, 0),
            (0, 0, &vec![], 0),
            (8, 1, &over, 0),
            (24, 1, &longest_end, 0),
            (8, 1, &longest_end, 1),
        ] {
            run.input();
            let (source, destination, body) = (end.clone(), end.clone(), body.clone());
            let order = Order { flags, addressed, source, destination, body, integrity, ..Order::default() };
            ask_envelope::order(run, &order);
        }
    }
}

fn long_radios(run: &mut Run) {
    run.family("comparisons with long radio messages");
    for length in [511, 600, 65_536, 1 << 20, LONGEST_LENGTH, LONGEST_LENGTH + 1] {
        run.input();
        let radio = inputs::shaped(&mut run.random, length, 8, 132);
        ask_golden::comparison(run, &cases::listed_file(), 0, &radio);
    }
}
