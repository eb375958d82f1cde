//! The refused messages that every run has: their places by hand, and every place that depends on the length.
//! Each goes to all that pass a refusal of reading on.

use super::lent::hex;
use super::run::Run;
use super::{ask_envelope, ask_feed, ask_frame, ask_golden, frame_inputs, inputs};
use crate::interface::Answer;
use peer::cases::{self, placed};
use peer::envelope::{FIELD, SHORTEST};
use peer::golden::LONGEST_MESSAGE;

pub fn short(run: &mut Run) {
    by_hand(run);
    every_length_too_short(run);
    every_field(run);
}

fn by_hand(run: &mut Run) {
    run.family("messages refused with their places by hand");
    for case in placed::all() {
        refused_as(run, &case.message, case.number, case.place);
    }
}

fn every_length_too_short(run: &mut Run) {
    run.family("messages too short, of every length");
    for length in 0..SHORTEST {
        for message in [cases::shortest()[..length].to_vec(), run.random.bytes(length)] {
            refused_as(run, &message, 1, length);
        }
    }
}

/// Messages of every length to 600, right but for one bit of the field.
fn every_field(run: &mut Run) {
    run.family("messages with a wrong field at every place to 600");
    for length in SHORTEST..=600 {
        for variable in [0, 6, 70, 132].into_iter().filter(|&variable| SHORTEST + usize::from(variable) <= length) {
            let flags = run.random.pick(&[0, 8]);
            let mut message = inputs::shaped(&mut run.random, length, flags, variable);
            message[length - run.random.between(1, FIELD)] ^= 1 << run.random.up_to(7);
            refused_as(run, &message, 7, length - FIELD);
        }
    }
}

/// Asks everyone about a message that reading must refuse so.
fn refused_as(run: &mut Run, message: &[u8], number: u8, place: usize) {
    run.input();
    let shown = || format!("expected {number} at {place}, message {}", hex(message));
    let expected = Answer { number, value: place as u32, ..Answer::default() };
    let reading = ask_envelope::message(run, message);
    run.holds("reading refuses by the number and at the place told", reading == expected, &shown);
    let frame = frame_inputs::around(run.random.number(), message);
    let unwrapped = ask_frame::frame(run, &frame).answer;
    let passed_on = Answer { number: 67, reading: number, value: place as u32, ..Answer::default() };
    run.holds("67 passes the number and the place on", unwrapped == passed_on, &shown);
    ask_golden::comparison(run, &cases::listed_file(), 0, message);
    if message.len() <= LONGEST_MESSAGE {
        stored(run, message, Answer { number: 25, ..passed_on });
        let cutting = [message.len().min(17), message.len().saturating_sub(17)];
        ask_feed::cut_twice(run, message, &[message.len()], &cutting);
    }
}

/// The same in a record behind a good one; a stored length too short for reading is refused before it.
fn stored(run: &mut Run, message: &[u8], expected: Answer) {
    let good = cases::shortest();
    let file = [inputs::record_of(good.len(), &good), inputs::record_of(message.len(), message)].concat();
    ask_golden::file(run, &file);
    ask_golden::comparison(run, &file, 1, &good);
    let answer = ask_golden::check(run, &file);
    let too_short = Answer { number: 23, ..Answer::default() };
    let expected = if message.len() < SHORTEST { too_short } else { expected };
    let shown = || format!("expected {expected:?}, message {}", hex(message));
    run.holds("25 passes the number and the place on", answer == Answer { count: 1, ..expected }, &shown);
}
