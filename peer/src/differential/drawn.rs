//! The inputs that are drawn at random, as many as a run is asked for.
//! Each family makes one input at a time and has a weight, its part in the whole.

use super::ask_feed::{self, Feeds};
use super::ask_sender::Senders;
use super::lent::hex;
use super::run::Run;
use super::{ask_envelope, ask_frame, ask_golden, ask_halving, ask_judge};
use super::{feed_inputs, frame_inputs, inputs, judge_inputs, sender_inputs};
use crate::interface::Timing;
use peer::crc::Division;
use peer::envelope::{COMMON, FIELD, SHORTEST};
use peer::golden::{self, Step, LONGEST_MESSAGE, MOST_RECORDS};
use peer::random::Random;

pub struct Family {
    pub name: &'static str,
    pub weight: u64,
    pub one: fn(&mut Run),
}

/// The quick ones first, so that each operation is met early.
pub const FAMILIES: [Family; 25] = [
    Family { name: "lateness", weight: 50, one: lateness },
    Family { name: "sequence", weight: 50, one: sequence },
    Family { name: "QoS joins", weight: 40, one: qos_join },
    Family { name: "feeds of any content", weight: 60, one: any_feed },
    Family { name: "streams cut at random", weight: 8, one: stream },
    Family { name: "senders of any content", weight: 60, one: any_sender },
    Family { name: "messages judged with several faults", weight: 150, one: judged },
    Family { name: "acknowledgments", weight: 40, one: acknowledgment },
    Family { name: "damaged frames", weight: 150, one: damaged_frame },
    Family { name: "frames of any bytes", weight: 60, one: any_frame },
    Family { name: "captures of several frames", weight: 20, one: capture },
    Family { name: "spoiled orders", weight: 90, one: spoiled_order },
    Family { name: "comparisons", weight: 90, one: comparison },
    Family { name: "golden files of 0 to 8 records", weight: 60, one: short_file },
    Family { name: "golden files of odd lengths or many records", weight: 3, one: long_or_odd_file },
    Family { name: "golden files of 2 to 8 records with a name twice", weight: 40, one: short_doubled_file },
    Family { name: "golden files of many records with a name twice", weight: 3, one: long_doubled_file },
    Family { name: "golden files of 0 to 20 records in ascending order", weight: 20, one: short_ascending_file },
    Family { name: "golden files of many records in ascending order", weight: 3, one: long_ascending_file },
    Family { name: "golden files of 2 to 20 records nearly in order", weight: 20, one: nearly_ascending_file },
    Family { name: "good orders", weight: 70, one: good_order },
    Family { name: "damage within four bytes of a CRC message", weight: 100, one: within_a_window },
    Family { name: "damaged messages", weight: 250, one: damaged },
    Family { name: "well-formed messages", weight: 120, one: well_formed },
    Family { name: "random bytes", weight: 100, one: random_bytes },
];

fn random_bytes(run: &mut Run) {
    let length = run.random.up_to(600);
    let mut message = run.random.bytes(length);
    // Half of them get past the header version, and half of those past the flags.
    if run.random.once_in(2) && length > SHORTEST {
        message[0] = 4;
        if run.random.once_in(2) {
            message[4] = run.random.up_to(23) as u8;
        }
    }
    ask_envelope::message(run, &message);
}

fn well_formed(run: &mut Run) {
    let message = inputs::message(&mut run.random, 600);
    let answer = ask_envelope::message(run, &message);
    run.holds("a well-formed message is accepted", answer.number == 0, &|| format!("message {}", hex(&message)));
}

fn damaged(run: &mut Run) {
    let longest = run.random.pick(&[30, 160, 600]);
    let message = inputs::message(&mut run.random, longest);
    let damaged = inputs::damaged(&mut run.random, message);
    ask_envelope::message(run, &damaged);
}

/// A CRC message changed within four bytes, field or not, is refused as long as its kind is still CRC.
fn within_a_window(run: &mut Run) {
    let mut order = inputs::order(&mut run.random, 600);
    order.flags = order.flags & 0b111 | 0b1000;
    order.integrity = 0;
    let good = inputs::written(&order);
    let mut message = good.clone();
    let field = good.len() - FIELD;
    let first = if run.random.once_in(4) { field } else { run.random.up_to(field - FIELD) };
    for byte in &mut message[first..first + FIELD] {
        *byte ^= if run.random.once_in(3) { 1 << run.random.up_to(7) } else { run.random.byte() };
    }
    let answer = ask_envelope::message(run, &message);
    let still_crc = message[4] >> 3 & 3 == 1;
    let refused = answer.number != 0 || message == good || !still_crc;
    run.holds("damage within four bytes is refused", refused, &|| format!("message {}", hex(&message)));
}

fn good_order(run: &mut Run) {
    let order = inputs::order(&mut run.random, 600);
    ask_envelope::order(run, &order);
}

fn spoiled_order(run: &mut Run) {
    let order = inputs::spoiled_order(&mut run.random);
    ask_envelope::order(run, &order);
}

fn lateness(run: &mut Run) {
    let random = &mut run.random;
    let (addressed, ttl) = (random.pick(&[0, 1, 1, 1, 1, 1, 2, 0xFF]), random.number() as u16);
    let (entry, any) = (random.second(), random.second());
    let clock = if random.once_in(4) { any } else { random.pick(&inputs::clocks(ttl, entry)) };
    ask_envelope::lateness(run, Timing { addressed, ttl, entry, clock });
}

fn sequence(run: &mut Run) {
    let old = run.random.number();
    let new = match run.random.up_to(3) {
        0 => old.wrapping_add(run.random.up_to(3) as u32),
        1 => old.wrapping_add(1 << 31).wrapping_add(run.random.up_to(2) as u32).wrapping_sub(1),
        _ => run.random.number(),
    };
    ask_envelope::sequence(run, old, new);
}

fn qos_join(run: &mut Run) {
    let random = &mut run.random;
    let mut parts = [8, 16, 8, 8, 8].map(|values| random.up_to(values - 1) as u8);
    if random.once_in(2) {
        parts[random.up_to(4)] = random.pick(&[7, 8, 9, 15, 16, 17, 31, 32, 128, 255]);
    }
    ask_envelope::qos_join(run, parts);
}

fn short_file(run: &mut Run) {
    let records = run.random.up_to(8);
    let file = inputs::file(&mut run.random, records);
    ask_golden::file(run, &file);
}

fn long_or_odd_file(run: &mut Run) {
    let records = run.random.between(9, MOST_RECORDS);
    let random = &mut run.random;
    let file = if random.once_in(2) { inputs::odd_file(random) } else { inputs::file(random, records) };
    ask_golden::file(run, &file);
}

fn short_doubled_file(run: &mut Run) {
    let records = run.random.between(2, 8);
    let file = inputs::doubled_file(&mut run.random, records);
    ask_golden::file(run, &file);
}

fn long_doubled_file(run: &mut Run) {
    let random = &mut run.random;
    let records = if random.once_in(2) { MOST_RECORDS } else { random.between(9, MOST_RECORDS) };
    let file = inputs::doubled_file(random, records);
    ask_golden::file(run, &file);
}

fn short_ascending_file(run: &mut Run) {
    let records = run.random.up_to(20);
    let file = inputs::ascending_file(&mut run.random, records);
    ask_halving::every_name(run, &file);
}

fn long_ascending_file(run: &mut Run) {
    let records = run.random.between(21, MOST_RECORDS);
    let file = inputs::ascending_file(&mut run.random, records);
    // A search for each of many names takes its time.
    if run.random.once_in(20) {
        ask_halving::every_name(run, &file);
    } else {
        ask_halving::some_names(run, &file);
    }
}

/// Two records have changed places, or a name comes twice.
fn nearly_ascending_file(run: &mut Run) {
    let records = run.random.between(2, 20);
    let file = inputs::nearly_ascending_file(&mut run.random, records);
    ask_halving::every_name(run, &file);
}

/// A record against the same message, a damaged one, another one, or no message at all.
fn comparison(run: &mut Run) {
    let random = &mut run.random;
    let records = random.between(1, 4);
    let file = if random.once_in(20) { inputs::odd_file(random) } else { inputs::file(random, records) };
    let far = [records, MOST_RECORDS, 1 << 32, 1 << 55, usize::MAX];
    let record = if random.once_in(20) { random.pick(&far) } else { random.up_to(records - 1) };
    let stored = match golden::step::<Division>(&file, record) {
        Step::Message { place, .. } => file[place].to_vec(),
        Step::Refused(_) | Step::End => inputs::message(random, LONGEST_MESSAGE),
    };
    let radio = match random.up_to(7) {
        0 => stored,
        1..=3 => inputs::damaged(random, stored),
        4 => altered(random, stored),
        5 => random.bytes(LONGEST_MESSAGE),
        _ => inputs::message(random, 600),
    };
    ask_golden::comparison(run, &file, record, &radio);
}

/// Another good message of the same length: its numbers and its body changed, its sum set right.
fn altered(random: &mut Random, mut message: Vec<u8>) -> Vec<u8> {
    let body = COMMON + usize::from(message[16]);
    let after = message.len() - FIELD;
    for _ in 0..random.between(1, 12) {
        let header = random.pick(&[1, 2, 3, 8, 9, 10, 11, 12, 13, 14, 15]);
        let place = if body < after && random.once_in(2) { random.between(body, after - 1) } else { header };
        message[place] = random.byte();
    }
    inputs::seal(&mut message);
    message
}

/// A stream cut at random, and all at once.
fn stream(run: &mut Run) {
    let stream = feed_inputs::stream(&mut run.random);
    let cutting = feed_inputs::cutting(&mut run.random, stream.len());
    ask_feed::cut_twice(run, &stream, &[stream.len()], &cutting);
}

/// Calls on a feed that no calls need lead to.
fn any_feed(run: &mut Run) {
    let (kept, numbers) = feed_inputs::state(&mut run.random);
    let mut feeds = Feeds::of(&kept, numbers);
    for _ in 0..run.random.between(1, 4) {
        match run.random.up_to(9) {
            0 => drop(feeds.end(run)),
            1 => feeds.restart(run),
            _ => {
                let piece = feed_inputs::piece(&mut run.random, &kept, numbers);
                feeds.take(run, &piece);
            }
        }
    }
}

/// Events on a sender that no events need lead to.
fn any_sender(run: &mut Run) {
    let (places, numbers) = sender_inputs::state(&mut run.random);
    let mut senders = Senders::of(&places, &numbers);
    for _ in 0..run.random.between(1, 5) {
        if run.random.once_in(12) {
            let resends = sender_inputs::resends(&mut run.random);
            senders.start(run, resends);
        } else {
            let event = sender_inputs::event(&mut run.random, &senders.places(), &senders.numbers());
            senders.event(run, event);
        }
    }
}

fn judged(run: &mut Run) {
    let message = judge_inputs::faulty(&mut run.random);
    ask_judge::message(run, &message);
}

fn acknowledgment(run: &mut Run) {
    let (own, acknowledged) = (run.random.number(), run.random.number());
    ask_frame::acknowledgment(run, own, acknowledged);
}

fn damaged_frame(run: &mut Run) {
    let frame = frame_inputs::damaged(&mut run.random);
    ask_frame::frame(run, &frame);
}

fn any_frame(run: &mut Run) {
    let frame = frame_inputs::any(&mut run.random);
    ask_frame::frame(run, &frame);
}

/// Good frames end to end, and behind them nothing, a frame that is damaged or cut, or any bytes.
fn capture(run: &mut Run) {
    let random = &mut run.random;
    let frames: Vec<Vec<u8>> = (0..random.up_to(6)).map(|_| frame_inputs::good(random)).collect();
    let behind = frame_inputs::behind(random);
    ask_frame::capture(run, &frames, &behind);
}
