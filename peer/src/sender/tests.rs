//! The sentences of change request K14, one or two to a test, and the fates of histories by hand.

use super::fates::{accounts, Account, Fate, Told};
use super::*;

const SETTLED: Result<Done, Refusal> = Ok(Done::Settled { next: None });
const FAILED: Result<Done, Refusal> = Ok(Done::Failed { next: None });

fn settled(next: u32) -> Result<Done, Refusal> {
    Ok(Done::Settled { next: Some(next) })
}

fn failed(next: u32) -> Result<Done, Refusal> {
    Ok(Done::Failed { next: Some(next) })
}

fn started(resends: u64) -> Sender {
    Sender::start(resends).expect("so many resends can be set")
}

/// A sender with 1 in flight and 2 to this one waiting.
fn submitted(resends: u64, last: u32) -> Sender {
    let mut sender = started(resends);
    assert_eq!(sender.submit(1), Ok(Done::Sent));
    for commid in 2..=last {
        assert_eq!(sender.submit(commid), Ok(Done::Waits));
    }
    sender
}

fn flight(sender: &Sender) -> Option<(u32, u8)> {
    sender.flight().map(|flight| (flight.commid, flight.left))
}

/// The COMMIDs that wait; the places behind them hold zeros.
fn waiting(sender: &Sender) -> Vec<u32> {
    let (waiting, behind) =
        (sender.places()[..sender.waiting()].to_vec(), sender.places()[sender.waiting()..].to_vec());
    assert!(behind.iter().all(|&place| place == 0), "{behind:?}");
    waiting
}

/// Something refused, and nothing changed by it.
fn refused(sender: &mut Sender, event: Event, refusal: Refusal) {
    let before = sender.clone();
    assert_eq!(sender.event(event), Err(refusal), "{event:?} to {before:?}");
    assert_eq!(*sender, before);
}

#[test]
fn a_submission_while_nothing_is_in_flight_goes_out_at_once() {
    let mut sender = started(3);
    assert_eq!(sender, Sender::resumed(3, &[], None));
    assert_eq!(sender.submit(7), Ok(Done::Sent));
    assert_eq!((flight(&sender), waiting(&sender)), (Some((7, 3)), vec![]));
    assert_eq!(sender.submit(8), Ok(Done::Waits));
    assert_eq!((flight(&sender), waiting(&sender)), (Some((7, 3)), vec![8]));
}

#[test]
fn sixteen_wait_and_the_one_in_flight_is_not_among_them() {
    let mut sender = submitted(0, 17);
    assert_eq!((flight(&sender), waiting(&sender)), (Some((1, 0)), (2..=17).collect()));
    refused(&mut sender, Event::Submit(18), Refusal::Full);
    // 70 is looked for before 71.
    for known in [1, 2, 17] {
        refused(&mut sender, Event::Submit(known), Refusal::Full);
    }
    assert_eq!(sender.ack(1), settled(2));
    assert_eq!(sender.submit(18), Ok(Done::Waits));
    assert_eq!((flight(&sender), waiting(&sender)), (Some((2, 0)), (3..=18).collect()));
}

#[test]
fn a_commid_that_waits_or_is_in_flight_is_not_taken_again() {
    let mut sender = submitted(1, 16);
    for known in 1..=16 {
        refused(&mut sender, Event::Submit(known), Refusal::Known);
    }
    assert_eq!(sender.submit(17), Ok(Done::Waits));
}

#[test]
fn a_matching_ack_settles_it_and_the_oldest_goes_out() {
    let mut sender = submitted(2, 4);
    for next in 2..=4 {
        assert_eq!(sender.ack(next - 1), settled(next));
        assert_eq!(flight(&sender), Some((next, 2)));
    }
    assert_eq!(sender.ack(4), SETTLED);
    assert_eq!(sender, started(2));
}

#[test]
fn a_nak_or_a_time_out_sends_it_again_until_the_resends_are_used() {
    for resends in 0..=10 {
        for time_outs in [0_u32, !0, 0b0101_0101_0101, 0b0110_1001_0110] {
            let mut sender = submitted(resends, 2);
            let event = |turn: u64| if time_outs >> turn & 1 == 1 { Event::TimeOut(1) } else { Event::Nak(1) };
            for turn in 0..resends {
                assert_eq!(sender.event(event(turn)), Ok(Done::Again));
                assert_eq!((flight(&sender), waiting(&sender)), (Some((1, (resends - turn - 1) as u8)), vec![2]));
            }
            assert_eq!(sender.event(event(resends)), failed(2));
            // The next one has all its resends.
            assert_eq!((flight(&sender), waiting(&sender)), (Some((2, resends as u8)), vec![]));
        }
    }
}

#[test]
fn a_message_that_was_sent_again_may_still_be_acknowledged() {
    let mut sender = submitted(2, 2);
    assert_eq!((sender.nak(1), sender.time_out(1)), (Ok(Done::Again), Ok(Done::Again)));
    assert_eq!(sender.ack(1), settled(2));
    assert_eq!(flight(&sender), Some((2, 2)));
}

#[test]
fn a_failure_with_none_waiting_leaves_an_empty_sender() {
    let mut sender = submitted(1, 1);
    assert_eq!((sender.time_out(1), sender.nak(1)), (Ok(Done::Again), FAILED));
    assert_eq!(sender, started(1));
}

#[test]
fn another_commid_than_the_one_in_flight_is_72() {
    let events = [Event::Ack, Event::Nak, Event::TimeOut];
    for event in events {
        // Nothing in flight, also where 0 is asked for; one that waits; one never seen; one that is settled.
        refused(&mut started(0), event(0), Refusal::NotInFlight);
        refused(&mut submitted(0, 3), event(2), Refusal::NotInFlight);
        refused(&mut submitted(0, 3), event(4), Refusal::NotInFlight);
        let mut sender = submitted(0, 2);
        assert_eq!(sender.ack(1), settled(2));
        refused(&mut sender, event(1), Refusal::NotInFlight);
    }
}

#[test]
fn a_settled_or_failed_commid_may_be_used_again() {
    let mut sender = submitted(0, 2);
    assert_eq!(sender.ack(1), settled(2));
    assert_eq!(sender.submit(1), Ok(Done::Waits));
    assert_eq!(sender.nak(2), failed(1));
    assert_eq!(sender.submit(2), Ok(Done::Waits));
    assert_eq!((flight(&sender), waiting(&sender)), (Some((1, 0)), vec![2]));
    assert_eq!((sender.time_out(1), sender.ack(2)), (failed(2), SETTLED));
    assert_eq!(sender.submit(2), Ok(Done::Sent));
}

#[test]
fn any_number_is_a_commid() {
    let mut sender = started(0);
    assert_eq!((sender.submit(0), sender.submit(u32::MAX)), (Ok(Done::Sent), Ok(Done::Waits)));
    refused(&mut sender, Event::Submit(0), Refusal::Known);
    assert_eq!(sender.ack(0), settled(u32::MAX));
    assert_eq!(sender.submit(0), Ok(Done::Waits));
    assert_eq!((sender.nak(u32::MAX), sender.ack(0)), (failed(0), SETTLED));
}

#[test]
fn a_resend_number_above_10_is_73() {
    for resends in 0..=10 {
        assert_eq!(started(resends).resends(), resends as u8);
    }
    for resends in [11, 255, 256, 266, 300, 1 << 32, u64::MAX] {
        assert_eq!(Sender::start(resends), Err(Refusal::Resends));
    }
}

/// Storage can hold states that no events lead to: messages wait and nothing is in flight, or a COMMID comes twice.
#[test]
fn a_sender_goes_on_from_any_state() {
    let mut sender = Sender::resumed(200, &[5, 5, 6], None);
    refused(&mut sender, Event::Submit(6), Refusal::Known);
    refused(&mut sender, Event::Ack(5), Refusal::NotInFlight);
    assert_eq!(sender.submit(7), Ok(Done::Sent));
    assert_eq!((flight(&sender), waiting(&sender)), (Some((7, 200)), vec![5, 5, 6]));
    assert_eq!(
        (sender.ack(7), sender.ack(5), sender.ack(5), sender.ack(6)),
        (settled(5), settled(5), settled(6), SETTLED)
    );
    refused(&mut Sender::resumed(0, &[9; 16], None), Event::Submit(1), Refusal::Full);
}

/// The events with what a sender answers to them.
fn history(sender: &mut Sender, events: &[Event]) -> Vec<Told> {
    events.iter().map(|&event| (event, sender.event(event))).collect()
}

#[test]
fn fates_are_read_from_the_history() {
    use Event::{Ack, Nak, Submit, TimeOut};
    let account = |commid, sent, acknowledged, failed| Account { commid, sent, acknowledged, failed };
    let events =
        [Submit(1), Submit(2), Submit(1), Submit(3), Nak(1), Ack(2), TimeOut(1), Submit(1), Submit(4), Nak(2), Ack(2)];
    let told = history(&mut started(1), &events);
    // 1 is sent twice and fails, and 2 goes out and is settled after one resend; 3 is in flight, the second 1 and 4 wait.
    let expected =
        vec![account(1, 2, 0, 1), account(2, 2, 1, 0), account(3, 1, 0, 0), account(1, 0, 0, 0), account(4, 0, 0, 0)];
    assert_eq!(accounts(&told), Some(expected.clone()));
    let fates: Vec<Option<Fate>> = expected.iter().map(Account::fate).collect();
    let told = [Fate::Failed, Fate::Acknowledged, Fate::InFlight, Fate::Waiting, Fate::Waiting];
    assert_eq!(fates, told.map(Some));
    assert_eq!(accounts(&[]), Some(vec![]));
}

#[test]
fn a_history_that_cannot_be_has_no_fates() {
    use Event::{Ack, Nak, Submit};
    let submitted = (Submit(1), Ok(Done::Sent));
    assert_eq!(accounts(&[(Ack(1), SETTLED)]), None);
    assert_eq!(accounts(&[submitted, (Ack(1), settled(2))]), None);
    assert_eq!(accounts(&[submitted, (Ack(1), FAILED)]), None);
    assert_eq!(accounts(&[(Submit(1), Ok(Done::Again))]), None);
    let fate = |history: &[Told]| accounts(history).expect("each COMMID was accepted")[0].fate();
    assert_eq!(fate(&[submitted, (Ack(1), SETTLED), (Nak(1), FAILED)]), None);
    assert_eq!(fate(&[submitted, (Ack(1), SETTLED), (Ack(1), SETTLED)]), None);
    assert_eq!(fate(&[(Submit(1), Ok(Done::Waits)), (Ack(1), SETTLED)]), None);
    assert_eq!(fate(&[submitted, (Ack(1), Err(Refusal::NotInFlight))]), Some(Fate::InFlight));
}
