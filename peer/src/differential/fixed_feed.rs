//! The streams that every run has: each way to cut short ones, every heading, and every announced length.

use super::ask_feed::{self, Feeds};
use super::lent::hex;
use super::run::Run;
use super::{feed_inputs, inputs, places};
use crate::interface::Answer;
use peer::cases;
use peer::envelope::{COMMON, SHORTEST};
use peer::feed::LONGEST;

pub fn short(run: &mut Run) {
    every_cut(run);
    every_two_cuts(run);
    every_end(run);
    every_heading(run);
    every_announced_length(run);
    every_refusal_that_stands(run);
}

/// Short streams: each lettered case alone, before M and behind it, and three messages of kind CRC.
fn short_streams(run: &mut Run) -> Vec<Vec<u8>> {
    let good = cases::shortest();
    let mut streams: Vec<Vec<u8>> = Vec::new();
    for case in cases::messages() {
        streams.push([case.message.as_slice(), &good].concat());
        streams.push([good.as_slice(), &case.message].concat());
        streams.push(case.message);
    }
    let crc = [(21, 0), (31, 8), (40, 6)];
    streams.push(crc.iter().flat_map(|&(length, v)| inputs::shaped(&mut run.random, length, 8, v)).collect());
    streams
}

/// All two-piece cuttings, with nothing between the two; all at once; and byte by byte.
fn every_cut(run: &mut Run) {
    run.family("streams cut once, anywhere");
    for stream in short_streams(run) {
        let length = stream.len();
        run.input();
        ask_feed::cut_twice(run, &stream, &[length], &vec![1; length]);
        for first in 0..=length {
            run.input();
            ask_feed::cut_twice(run, &stream, &[length], &[first, 0, length - first]);
        }
    }
}

fn every_two_cuts(run: &mut Run) {
    run.family("streams cut twice, anywhere");
    let good = [cases::shortest(), cases::one_body_byte(), cases::with_ends(6, &[0, 0])].concat();
    let mut bad = good.clone();
    bad[21 + 21] = 1;
    for stream in [good, bad] {
        for second in 0..=stream.len() {
            for first in 0..=second {
                run.input();
                ask_feed::stream(run, &stream, &[first, second - first, stream.len() - second]);
            }
        }
    }
}

/// Each beginning of two messages, and then the end.
fn every_end(run: &mut Run) {
    run.family("streams ended anywhere");
    let stream = [cases::with_ends(6, &[0, 0]), cases::shortest()].concat();
    for length in 0..=stream.len() {
        run.input();
        let mut feeds = Feeds::new();
        for piece in [&stream[..length.min(27)], &stream[length.min(27)..length]] {
            feeds.take(run, piece);
        }
        let (answer, again) = (feeds.end(run), feeds.end(run));
        let expected = if [0, 27, 48].contains(&length) { 0 } else { 52 };
        let shown = || format!("the end after {}", hex(&stream[..length]));
        run.holds("an end is refused inside a message alone", answer.number == expected, &shown);
        run.holds("an end is told again", again == answer, &shown);
    }
}

/// Every flags byte with every V, and every header version: nothing with 16 bytes, and the fault with the 17th.
fn every_heading(run: &mut Run) {
    run.family("every heading");
    for flags in 0..=u8::MAX {
        for variable in 0..=u8::MAX {
            let length = run.random.pick(&[400, 510, 511, 512]);
            let heading = feed_inputs::announcing(&mut run.random, length, flags, variable);
            let answer = match (flags, variable) {
                (24.., _) => 3,
                (_, 1..=5 | 133..) => 4,
                _ if length > LONGEST => 51,
                _ => 0,
            };
            told_at_the_17th(run, heading, answer);
        }
    }
    for version in 0..=u8::MAX {
        let flags = run.random.pick(&[0, 0x80]);
        let mut heading = feed_inputs::announcing(&mut run.random, 400, flags, 0);
        heading[0] = version;
        told_at_the_17th(run, heading, if version != 4 { 2 } else { u8::from(flags != 0) * 3 });
    }
}

fn told_at_the_17th(run: &mut Run, heading: Vec<u8>, number: u8) {
    run.input();
    let shown = || format!("heading {}", hex(&heading));
    let mut feeds = Feeds::new();
    let before = feeds.take(run, &heading[..COMMON - 1]);
    run.holds("with 16 bytes nothing is told", (before.number, before.count) == (0, 16), &shown);
    let told = feeds.take(run, &[heading[COMMON - 1], 0]);
    let used = if number == 0 { 2 } else { 1 };
    run.holds("a header fault is told at the 17th byte", (told.number, told.count) == (number, used), &shown);
}

fn every_announced_length(run: &mut Run) {
    run.family("every announced length to 600");
    for length in SHORTEST..=600 {
        for variable in [0, 6, 70, 132].into_iter().filter(|&variable| SHORTEST + usize::from(variable) <= length) {
            let flags = run.random.up_to(23) as u8;
            let message = inputs::shaped(&mut run.random, length, flags, variable);
            let cutting = feed_inputs::cutting(&mut run.random, length);
            run.input();
            ask_feed::cut_twice(run, &message, &[length], &cutting);
            let answer = Feeds::new().take(run, &message);
            let expected = if length > LONGEST { (51, COMMON) } else { (0, length) };
            let told = (answer.number, usize::from(answer.count));
            run.holds("510 bytes are taken and no more", told == expected, &|| format!("message {}", hex(&message)));
        }
    }
    for size in [490, 491, 0x00_FFFF, 0x01_0000, 0x01_0001, 0x80_0000, 0xFF_FE00, 0xFF_FFFF] {
        let heading = feed_inputs::announcing(&mut run.random, SHORTEST + size, 0, 0);
        told_at_the_17th(run, heading, 51);
    }
}

/// Every number that a feed can stand refused by, with every count to 520 and with some that are far larger.
fn every_refusal_that_stands(run: &mut Run) {
    run.family("every refusal that stands");
    let far = [65_535, 65_536, 65_553, 1 << 32, (1 << 32) + 21, 1 << 63, u64::MAX - 1, u64::MAX];
    for number in [1, 2, 3, 4, 5, 6, 7, 51, 52] {
        for count in (0..=520).chain(far) {
            run.input();
            let kept = run.random.bytes(LONGEST).try_into().expect("so many were drawn");
            let mut feeds = Feeds::of(&kept, [count, number.into()]);
            let told = [feeds.take(run, &[]), feeds.take(run, &[4, 0]), feeds.end(run)];
            let place = places::of(number, count.min(LONGEST as u64) as usize);
            let expected = Answer { number, value: place as u32, ..Answer::default() };
            let shown = || format!("{number} stands with {count} bytes in, told {told:?}");
            run.holds("a refusal that stands is told again, with its place", told == [expected; 3], &shown);
        }
    }
}
