//! One differential run: hands the same input to both sides and stops at the first disagreement.
//! Keeps the count of inputs and the tally of answers.

use super::lent::{Cell, Lent};
use super::tally::{Operation, Outcome, Tally};
use crate::interface::Answer;
use peer::random::Random;
use std::fmt::Debug;
use std::process;

pub struct Run {
    pub random: Random,
    pub tally: Tally,
    seed: u64,
    families: Vec<(&'static str, u64)>,
}

/// Tells an input in words and hex; only called where two answers differ.
pub type Shown<'a> = &'a dyn Fn() -> String;

impl Run {
    pub fn new(seed: u64) -> Run {
        Run { random: Random::new(seed), tally: Tally::default(), seed, families: Vec::new() }
    }

    /// The inputs that follow belong to this family. Each family draws its own numbers.
    pub fn family(&mut self, name: &'static str) {
        let place = self.families.len() as u64;
        self.random = Random::new(self.seed ^ place.wrapping_mul(0xA24B_AED4_963E_E407));
        self.families.push((name, 0));
    }

    /// Counts one input.
    pub fn input(&mut self) {
        self.families.last_mut().expect("a family is begun first").1 += 1;
    }

    pub fn families(&self) -> &[(&'static str, u64)] {
        &self.families
    }

    pub fn inputs(&self) -> u64 {
        self.families.iter().map(|(_, inputs)| inputs).sum()
    }

    /// Runs an operation on both sides, each with its own copy of the lent storage, and compares all of it.
    pub fn beside<T: Cell>(
        &mut self,
        operation: Operation,
        room: usize,
        ours: impl FnOnce(&mut [T]) -> Answer,
        peer: impl FnOnce(&mut [T]) -> Answer,
        shown: Shown,
    ) -> (Answer, Lent<T>) {
        let before = Lent::new(room);
        let (mut our_storage, mut peer_storage) = (before.clone(), before.clone());
        let answer = ours(our_storage.part());
        self.equal(operation, answer, peer(peer_storage.part()), shown);
        if let Some(difference) = our_storage.first_difference(&peer_storage) {
            self.disagree(&format!("{operation:?}, storage after {answer:?}"), &difference, shown);
        }
        if answer.number != 0 {
            self.holds("a refusal writes nothing", our_storage == before, shown);
        }
        self.placed(answer, shown);
        self.tally.count(operation, Outcome::of(operation, answer));
        (answer, our_storage)
    }

    /// The same for an operation that is lent nothing to write.
    pub fn plain(
        &mut self,
        operation: Operation,
        ours: impl FnOnce() -> Answer,
        peer: impl FnOnce() -> Answer,
        shown: Shown,
    ) -> Answer {
        let answer = ours();
        self.equal(operation, answer, peer(), shown);
        self.placed(answer, shown);
        self.tally.count(operation, Outcome::of(operation, answer));
        answer
    }

    /// Of the refusals those have a place that are by reading, and those that pass one of these on.
    fn placed(&self, answer: Answer, shown: Shown) {
        let by_reading = matches!((answer.number, answer.reading), (1..=7, 0) | (25 | 31 | 34 | 67, 1..=7));
        let placed = answer.number == 0 || by_reading || answer.value == 0;
        self.holds("a refusal that is not by reading has no place", placed, shown);
    }

    /// Two answers to the same question.
    pub fn equal<T: PartialEq + Debug>(&self, operation: Operation, ours: T, peer: T, shown: Shown) {
        if ours != peer {
            self.disagree(&format!("{operation:?}"), &format!("ours {ours:?}, peer {peer:?}"), shown);
        }
    }

    /// A property that both sides must have.
    pub fn holds(&self, claim: &str, truth: bool, shown: Shown) {
        if !truth {
            self.disagree(claim, "does not hold", shown);
        }
    }

    pub fn disagree(&self, operation: &str, answers: &str, shown: Shown) -> ! {
        let (family, place) = self.families.last().copied().unwrap_or_default();
        println!("DISAGREEMENT in {operation}");
        println!("  input: {}", shown());
        println!("  answers: {answers}");
        println!("  family {family}, input {place} of it, seed {}", self.seed);
        process::exit(1);
    }
}
