//! Long histories of a sender, each from an empty one. Behind each stretch of a history it is worked out, from its events
//! and answers alone, what became of each message.

use super::ask_sender::Senders;
use super::run::{Run, Shown};
use super::sender_inputs::{self, Mood};
use super::tally::{Operation, Outcome};
use crate::interface::{Answer, AGAIN, FAILED, FAILED_NEXT, SENT, SETTLED, SETTLED_NEXT, WAITS};
use peer::sender::fates::{self, Account, Fate, Told};
use peer::sender::{Done, Refusal, MOST_RESENDS};

/// Histories for each number of resends, and the events of each.
const HISTORIES: usize = 9;
const EVENTS: usize = 3_000;
/// The longest stretch of one mood.
const STRETCH: usize = 250;

pub fn long(run: &mut Run) {
    run.family("senders with histories of 3,000 events");
    for resends in 0..=MOST_RESENDS {
        for _ in 0..HISTORIES {
            run.input();
            history(run, resends);
        }
    }
}

fn history(run: &mut Run, resends: u8) {
    let (places, numbers) = sender_inputs::state(&mut run.random);
    let mut senders = Senders::of(&places, &numbers);
    senders.start(run, resends.into());
    let mut history = Vec::new();
    while history.len() < EVENTS {
        stretch(run, &mut senders, &mut history);
        accounted(run, &senders, &history, resends.into());
    }
    let accounts = fates::accounts(&history).unwrap_or_default();
    for fate in accounts.iter().filter_map(Account::fate) {
        run.tally.count(Operation::Fate, Outcome::Done(word(fate)));
    }
}

/// Some events of one mood.
fn stretch(run: &mut Run, senders: &mut Senders, history: &mut Vec<Told>) {
    let mood = Mood::draw(&mut run.random);
    let length = run.random.between(1, STRETCH).min(EVENTS - history.len());
    for _ in 0..length {
        let flight = senders.flight().map(|flight| flight.commid);
        let event = mood.event(&mut run.random, flight);
        let answer = senders.event(run, event);
        history.push((event, read(run, answer)));
    }
}

/// What an answer tells, as a history has it.
fn read(run: &Run, answer: Answer) -> Result<Done, Refusal> {
    let next = Some(answer.value);
    match (answer.number, answer.count) {
        (0, SENT) => Ok(Done::Sent),
        (0, WAITS) => Ok(Done::Waits),
        (0, SETTLED) => Ok(Done::Settled { next: None }),
        (0, SETTLED_NEXT) => Ok(Done::Settled { next }),
        (0, AGAIN) => Ok(Done::Again),
        (0, FAILED) => Ok(Done::Failed { next: None }),
        (0, FAILED_NEXT) => Ok(Done::Failed { next }),
        (70, _) => Err(Refusal::Full),
        (71, _) => Err(Refusal::Known),
        (72, _) => Err(Refusal::NotInFlight),
        _ => run.disagree("an event of a sender", "an answer that no event has", &|| format!("{answer:?}")),
    }
}

/// What the history tells of each message, beside what the storage holds.
fn accounted(run: &Run, senders: &Senders, history: &[Told], resends: usize) {
    let shown = || format!("{resends} resends, history {history:?}");
    let Some(accounts) = fates::accounts(history) else {
        run.disagree("what became of each message", "something is told of a COMMID never accepted", &shown);
    };
    let one_fate = accounts.iter().all(|account| account.fate().is_some());
    run.holds("each accepted submission is exactly one of the four", one_fate, &shown);
    let with = |fate| accounts.iter().filter(move |account| account.fate() == Some(fate));
    let waiting: Vec<u32> = with(Fate::Waiting).map(|account| account.commid).collect();
    run.holds("those that wait by the history wait in the storage, oldest first", waiting == senders.waiting(), &shown);
    let in_turn = accounts.is_sorted_by_key(|account| account.sent == 0);
    run.holds("each that waits was submitted after all that went out", in_turn, &shown);
    let in_flight: Vec<(u32, usize)> = with(Fate::InFlight).map(|account| (account.commid, account.sent)).collect();
    let flight = senders.flight().map(|flight| (flight.commid, 1 + resends - usize::from(flight.left)));
    let same = in_flight == Vec::from_iter(flight);
    run.holds("the one in flight by the history is in flight in the storage, sent as often", same, &shown);
    let right = accounts.iter().all(|account| sent_right(account, resends));
    run.holds("each message was sent as often as its fate says", right, &shown);
    counted(run, senders, history, &shown);
}

fn sent_right(account: &Account, resends: usize) -> bool {
    match account.fate() {
        Some(Fate::Waiting) => account.sent == 0,
        Some(Fate::InFlight | Fate::Acknowledged) => (1..=1 + resends).contains(&account.sent),
        Some(Fate::Failed) => account.sent == 1 + resends,
        None => false,
    }
}

/// What was accepted has ended, waits or is in flight.
fn counted(run: &Run, senders: &Senders, history: &[Told], shown: Shown) {
    let answers = |among: fn(Done) -> bool| history.iter().filter(|(_, answer)| answer.is_ok_and(among)).count();
    let accepted = answers(|done| matches!(done, Done::Sent | Done::Waits));
    let ended = answers(|done| matches!(done, Done::Settled { .. } | Done::Failed { .. }));
    let there = senders.waiting().len() + usize::from(senders.flight().is_some());
    run.holds("what was accepted has ended or is there", accepted == ended + there, shown);
}

fn word(fate: Fate) -> &'static str {
    match fate {
        Fate::Waiting => "waiting",
        Fate::InFlight => "in flight",
        Fate::Acknowledged => "acknowledged",
        Fate::Failed => "failed",
    }
}
