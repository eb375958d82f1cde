//! The senders that every run has: events with their answers and all that the storage holds afterwards, by hand.

use super::ask_sender::{Numbers, Places, Senders};
use super::run::Run;
use crate::interface::{Answer, SENDER_NUMBERS, SENDER_PLACES};
use crate::interface::{AGAIN, FAILED, FAILED_NEXT, SENT, SETTLED, SETTLED_NEXT, WAITS};
use peer::sender::Event::{self, Ack, Nak, Submit, TimeOut};
use peer::sender::MOST_WAITING;

pub fn short(run: &mut Run) {
    starts(run);
    sentence_by_sentence(run);
    every_number_of_resends(run);
    full(run);
    edges_of_a_commid(run);
    not_in_flight(run);
    odd_numbers(run);
    places_beside_odd_counts(run);
    every_odd_storage(run);
}

fn done(count: u16) -> Answer {
    Answer { count, ..Answer::default() }
}

/// A flight has ended, and this one goes out.
fn next(count: u16, commid: u32) -> Answer {
    Answer { value: commid, ..done(count) }
}

fn refused(number: u8) -> Answer {
    Answer { number, ..Answer::default() }
}

/// The COMMIDs at the front of the places, and zeros behind them.
fn places(waiting: &[u32]) -> Places {
    let mut places = [0; SENDER_PLACES];
    places[..waiting.len()].copy_from_slice(waiting);
    places
}

/// An empty sender, behind places that hold something.
fn started(run: &mut Run, resends: u64) -> Senders {
    run.input();
    let mut senders = Senders::of(&[9; SENDER_PLACES], &[u64::MAX; SENDER_NUMBERS]);
    senders.start(run, resends);
    senders
}

/// One event, with the answer that it must have.
fn told(run: &mut Run, senders: &mut Senders, event: Event, expected: Answer) {
    let answer = senders.event(run, event);
    run.holds("an event answers as told", answer == expected, &|| format!("{event:?}, {answer:?}, {expected:?}"));
}

/// One event that is done, with its answer and with all that the storage must hold afterwards.
fn done_so(run: &mut Run, senders: &mut Senders, event: Event, expected: Answer, numbers: Numbers, waiting: &[u32]) {
    told(run, senders, event, expected);
    let held = (senders.numbers(), senders.places());
    let shown = || format!("{event:?}, {held:?}, expected {numbers:?} and {waiting:?}");
    run.holds("an event leaves the storage as told", held == (numbers, places(waiting)), &shown);
}

fn starts(run: &mut Run) {
    run.family("starts of a sender");
    let odd: [Numbers; 4] = [[0; 4], [3, 2, 7, 1], [255, 16, u64::MAX, 256], [u64::MAX; 4]];
    for numbers in odd {
        for resends in (0..=300).chain([1 << 32, (1 << 32) + 5, 1 << 63, u64::MAX - 1, u64::MAX]) {
            run.input();
            let answer = Senders::of(&[9; SENDER_PLACES], &numbers).start(run, resends);
            let expected = if resends <= 10 { Answer::default() } else { refused(73) };
            run.holds("a start is refused above 10 resends", answer == expected, &|| format!("{resends} resends"));
        }
    }
}

/// Each sentence of the request, with one resend.
fn sentence_by_sentence(run: &mut Run) {
    run.family("a sender from sentence to sentence");
    let senders = &mut started(run, 1);
    done_so(run, senders, Submit(1), done(SENT), [1, 0, 1, 2], &[]);
    done_so(run, senders, Submit(2), done(WAITS), [1, 1, 1, 2], &[2]);
    told(run, senders, Submit(1), refused(71));
    told(run, senders, Submit(2), refused(71));
    done_so(run, senders, Submit(3), done(WAITS), [1, 2, 1, 2], &[2, 3]);
    told(run, senders, Ack(2), refused(72));
    told(run, senders, Nak(3), refused(72));
    told(run, senders, TimeOut(4), refused(72));
    done_so(run, senders, Nak(1), done(AGAIN), [1, 2, 1, 1], &[2, 3]);
    done_so(run, senders, TimeOut(1), next(FAILED_NEXT, 2), [1, 1, 2, 2], &[3]);
    // A COMMID is used again after a failure, and then after an ACK.
    done_so(run, senders, Submit(1), done(WAITS), [1, 2, 2, 2], &[3, 1]);
    done_so(run, senders, TimeOut(2), done(AGAIN), [1, 2, 2, 1], &[3, 1]);
    done_so(run, senders, Ack(2), next(SETTLED_NEXT, 3), [1, 1, 3, 2], &[1]);
    done_so(run, senders, Submit(2), done(WAITS), [1, 2, 3, 2], &[1, 2]);
    done_so(run, senders, Ack(3), next(SETTLED_NEXT, 1), [1, 1, 1, 2], &[2]);
    done_so(run, senders, Ack(1), next(SETTLED_NEXT, 2), [1, 0, 2, 2], &[]);
    done_so(run, senders, Nak(2), done(AGAIN), [1, 0, 2, 1], &[]);
    done_so(run, senders, Nak(2), done(FAILED), [1, 0, 0, 0], &[]);
    told(run, senders, TimeOut(2), refused(72));
    done_so(run, senders, Submit(2), done(SENT), [1, 0, 2, 2], &[]);
    done_so(run, senders, Ack(2), done(SETTLED), [1, 0, 0, 0], &[]);
}

/// Two messages with every number of resends: each is sent once and again so often, and fails. Every mixture of NAKs and
/// time-outs.
fn every_number_of_resends(run: &mut Run) {
    run.family("every number of resends");
    for resends in 0..=10 {
        for mixture in 0..1_u32 << (resends + 1) {
            let senders = &mut started(run, resends);
            told(run, senders, Submit(7), done(SENT));
            told(run, senders, Submit(8), done(WAITS));
            for (commid, waiting, last) in [(7, &[8][..], next(FAILED_NEXT, 8)), (8, &[][..], done(FAILED))] {
                let event = |turn: u64| if mixture >> turn & 1 == 1 { TimeOut(commid) } else { Nak(commid) };
                for turn in 0..resends {
                    let numbers = [resends, waiting.len() as u64, commid.into(), resends - turn];
                    done_so(run, senders, event(turn), done(AGAIN), numbers, waiting);
                }
                told(run, senders, event(resends), last);
            }
            told(run, senders, Nak(8), refused(72));
        }
    }
}

/// A sender with 100 in flight and 1 to 16 waiting.
fn filled(run: &mut Run, resends: u64) -> Senders {
    let mut senders = started(run, resends);
    told(run, &mut senders, Submit(100), done(SENT));
    for commid in 1..=16 {
        told(run, &mut senders, Submit(commid), done(WAITS));
    }
    senders
}

/// 16 wait, and a seventeenth does not; then all go out, oldest first, by ACKs and by failures.
fn full(run: &mut Run) {
    run.family("full senders");
    for end in [Ack, Nak, TimeOut] {
        let senders = &mut filled(run, 0);
        for commid in [17, 0, u32::MAX, 100, 1, 16] {
            told(run, senders, Submit(commid), refused(70));
        }
        let all: Vec<u32> = (1..=16).collect();
        let count = |last: bool| match (end(0), last) {
            (Ack(_), false) => SETTLED_NEXT,
            (Ack(_), true) => SETTLED,
            (_, false) => FAILED_NEXT,
            (_, true) => FAILED,
        };
        for place in 0..MOST_WAITING {
            let (ending, commid) = (if place == 0 { 100 } else { all[place - 1] }, all[place]);
            let numbers = [0, 15 - place as u64, commid.into(), 1];
            done_so(run, senders, end(ending), next(count(false), commid), numbers, &all[place + 1..]);
            // No longer full: those that wait and the one in flight are known.
            all[place..].iter().for_each(|&known| told(run, senders, Submit(known), refused(71)));
        }
        done_so(run, senders, end(16), done(count(true)), [0; 4], &[]);
    }
    let senders = &mut filled(run, 10);
    told(run, senders, Ack(100), next(SETTLED_NEXT, 1));
    let waiting: Vec<u32> = (2..=16).chain([100]).collect();
    done_so(run, senders, Submit(100), done(WAITS), [10, 16, 1, 11], &waiting);
    told(run, senders, Submit(1), refused(70));
}

/// 0 and the largest number are COMMIDs as any other.
fn edges_of_a_commid(run: &mut Run) {
    run.family("the smallest and the largest COMMID");
    let largest = u32::MAX;
    for (one, other) in [(0, largest), (largest, 0), (0, 1), (1, 0)] {
        let senders = &mut started(run, 0);
        told(run, senders, Ack(one), refused(72));
        done_so(run, senders, Submit(one), done(SENT), [0, 0, one.into(), 1], &[]);
        told(run, senders, Submit(one), refused(71));
        told(run, senders, Nak(other), refused(72));
        done_so(run, senders, Submit(other), done(WAITS), [0, 1, one.into(), 1], &[other]);
        told(run, senders, Submit(other), refused(71));
        done_so(run, senders, Ack(one), next(SETTLED_NEXT, other), [0, 0, other.into(), 1], &[]);
        done_so(run, senders, Submit(one), done(WAITS), [0, 1, other.into(), 1], &[one]);
        done_so(run, senders, TimeOut(other), next(FAILED_NEXT, one), [0, 0, one.into(), 1], &[]);
        done_so(run, senders, Nak(one), done(FAILED), [0; 4], &[]);
    }
}

/// An answer to a message that is not in flight: nothing is, it waits, it has ended, or it was never there.
fn not_in_flight(run: &mut Run) {
    run.family("answers to messages not in flight");
    for event in [Ack, Nak, TimeOut] {
        let senders = &mut started(run, 2);
        for commid in [0, 1, 9] {
            told(run, senders, event(commid), refused(72));
        }
        for (commid, count) in [(1, SENT), (2, WAITS), (3, WAITS)] {
            told(run, senders, Submit(commid), done(count));
        }
        told(run, senders, Ack(1), next(SETTLED_NEXT, 2));
        for commid in [0, 1, 3, 9, 0x1_0002] {
            told(run, senders, event(commid), refused(72));
        }
    }
}

/// Numbers that no events lead to: 8 bits count of two of them and 32 of the COMMID, and 16 is the most that wait.
fn odd_numbers(run: &mut Run) {
    run.family("senders of odd numbers");
    let high = 1 << 32;
    // What is in flight has one resend less than its number, of which 8 bits count.
    for (left, after) in [(300, 43), (256, 255), (258, 1), (high + 3, 2), (u64::MAX, 254), (12, 11)] {
        one(run, [0, 0, 7, left], Nak(7), done(AGAIN), [0, 0, 7, after]);
        one(run, [0, 0, 7, left], Ack(7), done(SETTLED), [0; 4]);
    }
    for left in [1, 257, 513, high + 1, (1 << 63) + 1, u64::MAX - 254] {
        one(run, [0, 0, 7, left], TimeOut(7), done(FAILED), [0; 4]);
    }
    for (set, resends) in [(11, 11), (255, 255), (256, 0), (261, 5), (high + 10, 10), (u64::MAX, 255)] {
        one(run, [set, 0, 7, 0], Submit(7), done(SENT), [resends, 0, 7, resends + 1]);
        one(run, [set, 0, 7, 1], Nak(7), done(FAILED), [resends, 0, 0, 0]);
        one(run, [set, 0, 7, 2], Nak(7), done(AGAIN), [resends, 0, 7, 1]);
    }
    for commid in [high + 7, (7 << 32) + 7, u64::MAX << 32 | 7] {
        one(run, [3, 0, commid, 2], Nak(7), done(AGAIN), [3, 0, 7, 1]);
        one(run, [3, 0, commid, 1], Ack(7), done(SETTLED), [3, 0, 0, 0]);
        one(run, [3, 0, commid, 0], Submit(8), done(SENT), [3, 0, 8, 4]);
    }
}

/// One event on such numbers with no places that count, and the numbers afterwards.
fn one(run: &mut Run, numbers: Numbers, event: Event, expected: Answer, after: Numbers) {
    run.input();
    let senders = &mut Senders::of(&[9; SENDER_PLACES], &numbers);
    done_so(run, senders, event, expected, after, &[]);
}

/// Messages wait beside nothing in flight, more than 16 of them, or one of them twice.
fn places_beside_odd_counts(run: &mut Run) {
    run.family("senders of odd counts");
    let held: Places = std::array::from_fn(|place| place as u32 + 1);
    let of = |numbers: Numbers| Senders::of(&held, &numbers);
    for count in [16, 17, 255, 256, 1 << 32, u64::MAX] {
        run.input();
        told(run, &mut of([0, count, 0, 0]), Submit(99), refused(70));
        told(run, &mut of([0, count, 0, 0]), Ack(0), refused(72));
        done_so(run, &mut of([4, count, 99, 1]), Ack(99), next(SETTLED_NEXT, 1), [4, 15, 1, 5], &held[1..]);
        done_so(run, &mut of([4, count, 99, 2]), Nak(99), done(AGAIN), [4, 16, 99, 1], &held);
    }
    run.input();
    // Three wait and nothing is in flight: a submission goes out before them, and what stands in other places is none.
    told(run, &mut of([0, 3, 7, 0]), Submit(3), refused(71));
    told(run, &mut of([0, 3, 7, 0]), Nak(7), refused(72));
    done_so(run, &mut of([2, 3, 7, 0]), Submit(4), done(SENT), [2, 3, 4, 3], &held[..3]);
    done_so(run, &mut of([2, 3, 7, 1]), Submit(4), done(WAITS), [2, 4, 7, 1], &held[..4]);
    // One COMMID twice: each goes out in its turn.
    let senders = &mut Senders::of(&places(&[5, 5, 6]), &[0, 3, 5, 1]);
    told(run, senders, Submit(5), refused(71));
    done_so(run, senders, Ack(5), next(SETTLED_NEXT, 5), [0, 2, 5, 1], &[5, 6]);
    done_so(run, senders, Nak(5), next(FAILED_NEXT, 5), [0, 1, 5, 1], &[6]);
    done_so(run, senders, Ack(5), next(SETTLED_NEXT, 6), [0, 0, 6, 1], &[]);
}

/// Every combination of odd numbers with every event, about the COMMID of the numbers, those of the places, and others.
fn every_odd_storage(run: &mut Run) {
    run.family("every combination of odd numbers");
    let high = 1 << 32;
    let held: Places = std::array::from_fn(|place| place as u32 % 12 + 1);
    for set in [0, 1, 10, 11, 255, 256, high + 3, u64::MAX] {
        for waiting in [0, 1, 2, 15, 16, 17, 256, high + 1, u64::MAX] {
            for commid in [0, 7, 90, high, high + 7, u64::MAX] {
                for left in [0, 1, 2, 11, 12, 255, 256, 257, 258, high, high + 1, u64::MAX] {
                    run.input();
                    for asked in [0, 1, 2, 7, 90, u32::MAX] {
                        for event in [Submit, Ack, Nak, TimeOut] {
                            Senders::of(&held, &[set, waiting, commid, left]).event(run, event(asked));
                        }
                    }
                }
            }
        }
    }
}
