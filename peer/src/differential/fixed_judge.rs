//! The bytes that every run hands to the judge: cases judged by hand, and the edges of each rule.
//! Where the verdicts can be told without a judge, they are.

use super::ask_judge::Judged;
use super::judge_inputs::mend_field;
use super::lent::hex;
use super::run::Run;
use super::{ask_judge, inputs};
use crate::interface::{BROKEN, KEPT, NOT_JUDGED, RULES};
use crate::mirror;
use peer::cases::judged;
use peer::envelope::{COMMON, FIELD, SHORTEST};

pub fn short(run: &mut Run) {
    by_hand(run);
    every_cut(run);
    every_size(run);
    every_kind(run);
    every_set_of_faults(run);
}

/// Judges these bytes, on which these verdicts must be told; gives the places.
fn judged_as(run: &mut Run, message: &[u8], expected: [u8; RULES]) -> [u64; RULES] {
    run.input();
    let Judged { verdicts, places } = ask_judge::message(run, message);
    let shown = || format!("expected {expected:?}, judged {verdicts:?}, message {}", hex(message));
    run.holds("the verdicts are those told", verdicts == expected, &shown);
    places
}

fn by_hand(run: &mut Run) {
    run.family("cases judged by hand");
    for case in judged::all() {
        let places = judged_as(run, &case.bytes, case.verdicts.map(mirror::verdict_number));
        let same = places == case.verdicts.map(mirror::verdict_place);
        run.holds("the places are those told", same, &|| format!("{places:?}, message {}", hex(&case.bytes)));
    }
}

/// Messages right in all but V, cut anywhere and with up to nine bytes behind them: the length decides.
fn every_cut(run: &mut Run) {
    run.family("judged messages cut anywhere");
    for v in [0, 1, 5, 6, 7, 70, 131, 132, 133, 134, 255] {
        for body in [0, 1, 30] {
            for flags in [0, 8, 16] {
                let whole = SHORTEST + usize::from(v) + body;
                let mut message = inputs::shaped(&mut run.random, whole, flags, v);
                message.extend(run.random.bytes(9));
                for length in 0..=message.len() {
                    judged_as(run, &message[..length], by_length(length, whole, v));
                }
            }
        }
    }
}

/// The verdicts on so many bytes of such a message, which would be whole with so many.
fn by_length(length: usize, whole: usize, v: u8) -> [u8; RULES] {
    let from = |least: usize, verdict: u8| if length < least { NOT_JUDGED } else { verdict };
    let broken_if = |broken: bool| if broken { BROKEN } else { KEPT };
    let (size, addresses) = match v {
        0 => (KEPT, NOT_JUDGED),
        6..=132 => (KEPT, KEPT),
        _ => (BROKEN, NOT_JUDGED),
    };
    [
        broken_if(length < 21),
        from(1, KEPT),
        from(5, KEPT),
        from(17, size),
        from(17, broken_if(length != whole)),
        from(17 + usize::from(v), addresses),
        from(whole, KEPT),
    ]
}

/// Every V with several D and any flags, at and beside each length from which a rule is judged or kept.
fn every_size(run: &mut Run) {
    run.family("every V judged at its edges");
    for v in 0..=u8::MAX {
        for d in [0, 1, 2, 255, 256] {
            let variable = COMMON + usize::from(v);
            let whole = variable + d + FIELD;
            let flags = run.random.byte();
            let mut message = inputs::shaped(&mut run.random, whole, flags, v);
            message.extend([0, 0]);
            for edge in [17, 21, variable, whole - FIELD, whole] {
                for length in edge - 1..=edge + 1 {
                    run.input();
                    ask_judge::message(run, &message[..length]);
                }
            }
        }
    }
}

/// Every flags byte with a right field and a wrong one: for rule 7 the kind's two bits count, and no other.
fn every_kind(run: &mut Run) {
    run.family("every flags byte judged");
    for flags in 0..=u8::MAX {
        for v in [0, 5, 6, 133] {
            let length = SHORTEST + usize::from(v) + run.random.up_to(20);
            let mut message = inputs::shaped(&mut run.random, length, flags, v);
            let mut expected = by_length(length, length, v);
            expected[2] = if flags < 24 { KEPT } else { BROKEN };
            judged_as(run, &message, expected);
            message[length - run.random.between(1, FIELD)] ^= 1 << run.random.up_to(7);
            expected[6] = if flags >> 3 & 3 < 2 { BROKEN } else { KEPT };
            judged_as(run, &message, expected);
        }
    }
}

/// Every set of the rules 2 to 7 that can be broken together: 4 and 6 cannot.
fn every_set_of_faults(run: &mut Run) {
    run.family("every set of broken rules");
    for set in 0..1_u8 << RULES {
        let has = |rule: u8| set >> (rule - 1) & 1 == 1;
        if has(1) || has(4) && has(6) {
            continue;
        }
        for _ in 0..20 {
            let message = broken(run, has);
            let mut expected = [1, 2, 3, 4, 5, 6, 7].map(|rule| if has(rule) { BROKEN } else { KEPT });
            if !(6..=132).contains(&message[16]) {
                expected[5] = NOT_JUDGED;
            }
            judged_as(run, &message, expected);
        }
    }
}

/// A message that breaks these rules and no other.
fn broken(run: &mut Run, has: impl Fn(u8) -> bool) -> Vec<u8> {
    let random = &mut run.random;
    let v = match (has(4), has(6)) {
        (true, _) => random.pick(&[1, 2, 3, 4, 5, 133, 134, 200, 255]),
        (false, true) => random.between(6, 132) as u8,
        (false, false) => random.pick(&[0, 6, 7, 70, 132]),
    };
    let length = SHORTEST + usize::from(v) + random.up_to(30);
    let kind = random.pick(&[0, 8]);
    let mut message = inputs::shaped(random, length, kind, v);
    if has(2) {
        message[0] ^= random.between(1, 255) as u8;
    }
    if has(3) {
        message[4] |= random.pick(&[0x20, 0x40, 0x80]);
    }
    if has(6) {
        message[COMMON + usize::from(v) - 1] = b'Z';
    }
    mend_field(&mut message);
    if has(7) {
        message[length - random.between(1, FIELD)] ^= 1 << random.up_to(7);
    }
    if has(5) {
        message.push(random.byte());
    }
    message
}
