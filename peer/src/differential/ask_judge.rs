//! What is asked of both sides about the judge: the seven verdicts on any bytes, with the places of the broken rules, and
//! the lowest of these. Beside them stands our own reading, which must come to the same end.

use super::lent::{array, hex, Lent};
use super::run::Run;
use super::tally::{Operation, Outcome};
use super::{ask_envelope, places};
use crate::interface::{Answer, BROKEN, RULES};
use crate::{mirror, ours};

/// What became of each rule: its verdict, and its place or 0.
pub struct Judged {
    pub verdicts: [u8; RULES],
    pub places: [u64; RULES],
}

/// Some bytes read and judged.
pub fn message(run: &mut Run, message: &[u8]) -> Judged {
    let before = message.to_vec();
    let (reading, _) = ask_envelope::read(run, message);
    let judged = beside_reading(run, message, reading);
    run.holds("what is lent to the judge stays as it was", before == message, &|| format!("message {}", hex(message)));
    judged
}

/// The same where these bytes are read already, with this answer.
pub fn beside_reading(run: &mut Run, message: &[u8], reading: Answer) -> Judged {
    let shown = || format!("message {}", hex(message));
    let (answer, verdicts) = run.beside(
        Operation::Judge,
        RULES,
        |verdicts| ours::judge(message, array(verdicts)),
        |verdicts| mirror::judge(message, array(verdicts)),
        &shown,
    );
    let verdicts: [u8; RULES] = verdicts.content().try_into().expect("seven verdicts were lent");
    let lowest = (1..).zip(verdicts).find(|&(_, verdict)| verdict == BROKEN).map_or(0, |(rule, _)| rule);
    run.holds("the answer tells the lowest rule with the verdict broken", answer.reading == lowest, &shown);
    let same = (answer.reading, answer.value) == (reading.number, reading.value);
    run.holds("the lowest broken rule and its place are what reading refuses by", same, &shown);
    for (rule, verdict) in (1..).zip(verdicts) {
        run.tally.count(Operation::Judge, Outcome::Verdict(rule, verdict));
    }
    let places = with_places(run, message, answer, verdicts);
    Judged { verdicts, places }
}

/// The same bytes judged once more, for the places; the answer and the verdicts must be those told already.
fn with_places(run: &mut Run, message: &[u8], told: Answer, verdicts: [u8; RULES]) -> [u64; RULES] {
    let shown = || format!("message {}", hex(message));
    let (mut our_verdicts, mut peer_verdicts) = (Lent::new(RULES), Lent::new(RULES));
    let (answer, places) = run.beside(
        Operation::JudgePlaces,
        RULES,
        |places| ours::judge_places(message, array(our_verdicts.part()), array(places)),
        |places| mirror::judge_places(message, array(peer_verdicts.part()), array(places)),
        &shown,
    );
    if let Some(difference) = our_verdicts.first_difference(&peer_verdicts) {
        run.disagree("JudgePlaces, the verdicts afterwards", &difference, &shown);
    }
    let same = answer == told && our_verdicts.content() == verdicts;
    run.holds("with places and without the judge tells the same", same, &shown);
    let places: [u64; RULES] = places.content().try_into().expect("seven places were lent");
    for ((rule, verdict), place) in (1..).zip(verdicts).zip(places) {
        let expected = if verdict == BROKEN { places::of_rule(rule, message) } else { 0 };
        run.holds("a broken rule has its place, and another 0", place == expected as u64, &shown);
    }
    places
}
