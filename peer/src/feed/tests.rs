//! The sentences of change request K1, one or two to a test.

use super::*;
use crate::cases::{self, one_body_byte, shortest, with_ends};
use crate::crc::Division;
use crate::random::Random;

fn number(refusal: Refusal) -> u8 {
    refusal.numbers().0
}

fn take(feed: &mut Feed, piece: &[u8]) -> (usize, Result<Option<u32>, u8>) {
    let Taken { used, found } = feed.take::<Division>(piece);
    (used, found.map(|fields| fields.map(|fields| fields.number)).map_err(number))
}

/// All that comes of some bytes in pieces of these sizes, the last of them again and again.
#[derive(Debug, PartialEq, Eq)]
struct Outcome {
    messages: Vec<Vec<u8>>,
    refusal: Option<u8>,
    used: usize,
    feed: Feed,
}

fn outcome(mut feed: Feed, bytes: &[u8], sizes: &[usize]) -> Outcome {
    let (mut messages, mut refusal, mut used) = (Vec::new(), None, 0);
    let mut sizes = sizes.iter().copied().chain(std::iter::repeat(sizes[sizes.len() - 1]));
    while used < bytes.len() && refusal.is_none() {
        let size = sizes.next().unwrap_or(1).min(bytes.len() - used);
        let taken = feed.take::<Division>(&bytes[used..used + size]);
        used += taken.used;
        refusal = taken.found.err().map(number);
        messages.extend(feed.message().filter(|_| taken.used > 0).map(<[u8]>::to_vec));
    }
    Outcome { messages, refusal, used, feed }
}

fn all_at_once(bytes: &[u8]) -> Outcome {
    outcome(Feed::default(), bytes, &[bytes.len()])
}

fn with(place: usize, byte: u8) -> Vec<u8> {
    let mut message = shortest();
    message[place] = byte;
    message
}

/// A message of kind none whose heading announces this length, cut off behind its heading where that is too long.
fn announcing(length: usize) -> Vec<u8> {
    let mut message = shortest();
    message[5..8].copy_from_slice(&((length - 21) as u32).to_be_bytes()[1..]);
    message.resize(length.min(600), 0);
    message
}

#[test]
fn bytes_are_used_until_a_message_is_complete_and_the_rest_is_for_the_next_call() {
    let two = [shortest(), one_body_byte()].concat();
    let mut feed = Feed::default();
    assert_eq!(take(&mut feed, &two), (21, Ok(Some(1))));
    assert_eq!(feed.message(), Some(&two[..21]));
    assert_eq!(take(&mut feed, &two[21..]), (22, Ok(Some(1))));
    assert_eq!(feed.message(), Some(&two[21..]));
    assert_eq!((feed.count(), feed.standing()), (22, Standing::Whole));
}

#[test]
fn a_message_is_found_with_its_last_byte() {
    let mut feed = Feed::default();
    for (place, byte) in shortest().into_iter().enumerate() {
        let found = if place == 20 { Some(1) } else { None };
        assert_eq!(take(&mut feed, &[byte]), (1, Ok(found)), "byte {place}");
        assert_eq!(feed.message().is_some(), place == 20);
    }
}

#[test]
fn what_is_found_is_what_reading_says() {
    for case in cases::messages().into_iter().filter(|case| case.answer == 0) {
        let taken = Feed::default().take::<Division>(&case.message);
        let read = envelope::read::<Division>(&case.message).map(Some).map_err(Refusal::Unread);
        assert_eq!((taken.used, taken.found), (case.message.len(), read), "case {}", case.name);
    }
}

#[test]
fn header_faults_are_told_at_the_17th_byte() {
    let long = announcing(511);
    for (message, number) in [(with(0, 3), 2), (with(4, 0x20), 3), (with(4, 0x18), 3), (with(16, 5), 4), (long, 51)] {
        let mut feed = Feed::default();
        assert_eq!(take(&mut feed, &message[..16]), (16, Ok(None)));
        assert_eq!(take(&mut feed, &message[16..]), (1, Err(number)));
        assert_eq!(take(&mut Feed::default(), &message), (17, Err(number)));
        assert_eq!((feed.count(), feed.kept()[..17] == message[..17]), (17, true));
    }
}

#[test]
fn at_the_17th_byte_the_order_is_2_3_4_51() {
    let mut message = announcing(511);
    assert_eq!(all_at_once(&message).refusal, Some(51));
    for (place, byte, number) in [(16, 133, 4), (4, 0x80, 3), (0, 5, 2)] {
        message[place] = byte;
        assert_eq!(all_at_once(&message).refusal, Some(number));
    }
}

#[test]
fn the_longest_message_has_510_bytes() {
    assert_eq!(all_at_once(&announcing(510)).messages, [announcing(510)]);
    assert_eq!(all_at_once(&announcing(511)).refusal, Some(51));
    let largest = [&shortest()[..5], &[0xFF; 3], &shortest()[8..]].concat();
    assert_eq!(all_at_once(&largest).refusal, Some(51));
    // A variable header counts too: 21 + 132 + 358 = 511.
    let mut addressed = announcing(21 + 358);
    addressed[16] = 132;
    assert_eq!(all_at_once(&addressed).refusal, Some(51));
}

#[test]
fn other_faults_are_told_when_the_announced_length_is_in() {
    for (message, number) in [(with_ends(7, b"AA\0"), 6), (with(20, 1), 7), (with(4, 8), 7)] {
        let last = message.len() - 1;
        let mut feed = Feed::default();
        assert_eq!(take(&mut feed, &message[..last]), (last, Ok(None)));
        assert_eq!(take(&mut feed, &[message[last], 4]), (1, Err(number)));
        assert_eq!((feed.count(), feed.message()), (last + 1, None));
    }
    let mut both = with_ends(7, b"AA\0");
    both[20..].fill(1);
    assert_eq!(all_at_once(&both).refusal, Some(6));
}

#[test]
fn a_refusal_is_repeated_and_nothing_used_until_a_restart() {
    let mut feed = Feed::default();
    let bad = [with(20, 1), shortest()].concat();
    assert_eq!(take(&mut feed, &bad), (21, Err(7)));
    let refused = feed.clone();
    for piece in [&bad[21..], &[], &[4]] {
        assert_eq!(take(&mut feed, piece), (0, Err(7)));
        assert_eq!(feed.end().map_err(number), Err(7));
        assert_eq!(feed, refused);
    }
    feed.restart();
    assert_eq!(feed, Feed::default());
    assert_eq!(take(&mut feed, &bad[21..]), (21, Ok(Some(1))));
}

#[test]
fn an_empty_piece_changes_nothing_and_finds_nothing_new() {
    for length in [0, 5, 17, 20, 21] {
        let mut feed = all_at_once(&shortest()[..length]).feed;
        let before = feed.clone();
        assert_eq!(take(&mut feed, &[]), (0, Ok(None)));
        assert_eq!(feed, before);
    }
}

#[test]
fn an_end_inside_a_message_is_52_and_repeated() {
    for length in 1..21 {
        let mut feed = all_at_once(&shortest()[..length]).feed;
        let kept = *feed.kept();
        for _ in 0..2 {
            assert_eq!(feed.end(), Err(Refusal::Cut));
            assert_eq!(take(&mut feed, &shortest()), (0, Err(52)));
        }
        assert_eq!((feed.count(), *feed.kept()), (length, kept));
    }
}

#[test]
fn an_end_between_messages_is_no_refusal_and_changes_nothing() {
    let mut feed = Feed::default();
    for _ in 0..3 {
        let before = feed.clone();
        assert_eq!((feed.end(), feed.end()), (Ok(()), Ok(())));
        assert_eq!(feed, before);
        assert_eq!(take(&mut feed, &shortest()), (21, Ok(Some(1))));
    }
}

/// Messages end to end, good ones and now and then one with a byte changed or the last ones missing.
fn drawn_stream(random: &mut Random) -> Vec<u8> {
    let good: Vec<_> = cases::messages().into_iter().filter(|case| case.answer == 0).collect();
    let mut stream = Vec::new();
    for _ in 0..random.between(1, 6) {
        let mut message = good[random.up_to(good.len() - 1)].message.clone();
        if random.once_in(8) {
            let place = random.pick(&[0, 4, 5, 6, 7, 16, 20]);
            message[place] = random.byte();
        }
        stream.extend(message);
    }
    let missing = if random.once_in(2) { random.up_to(20) } else { 0 };
    stream.truncate(stream.len() - missing);
    stream
}

#[test]
fn cutting_elsewhere_gives_the_same() {
    let mut random = Random::new(7);
    let mut met = [0; 3];
    for _ in 0..300 {
        let stream = drawn_stream(&mut random);
        let whole = all_at_once(&stream);
        for size in [1, 2, 7, 16, 17, 20, 21, 64] {
            assert_eq!(outcome(Feed::default(), &stream, &[size]), whole, "pieces of {size} of {stream:02x?}");
        }
        let cuts: Vec<usize> = (0..40).map(|_| random.between(1, 30)).collect();
        assert_eq!(outcome(Feed::default(), &stream, &cuts), whole, "pieces of {cuts:?} of {stream:02x?}");
        met[0] += whole.messages.len();
        met[1] += usize::from(whole.refusal.is_some());
        met[2] += usize::from(whole.feed.clone().end() == Err(Refusal::Cut));
    }
    assert!(met.iter().all(|&times| times > 50), "messages, refusals and cut ends: {met:?}");
}

/// Storage can hold states that no bytes lead to; there too, each byte is judged when it is in.
#[test]
fn cutting_elsewhere_gives_the_same_from_any_state() {
    let mut random = Random::new(8);
    for _ in 0..2_000 {
        let mut kept = random.bytes(LONGEST);
        let front = drawn_stream(&mut random);
        kept[..front.len().min(LONGEST)].copy_from_slice(&front[..front.len().min(LONGEST)]);
        let standing = random.pick(&[Standing::Inside, Standing::Whole]);
        let feed = Feed::resumed(kept.try_into().unwrap(), random.up_to(520), standing);
        let piece = drawn_stream(&mut random);
        let whole = outcome(feed.clone(), &piece, &[piece.len()]);
        assert_eq!(outcome(feed.clone(), &piece, &[1]), whole, "{feed:?}");
    }
}

#[test]
fn a_count_with_no_room_for_a_byte_is_none_inside_a_message() {
    for count in [510, 511, usize::MAX] {
        let mut feed = Feed::resumed([7; LONGEST], count, Standing::Inside);
        assert_eq!(feed.end(), Ok(()));
        assert_eq!(take(&mut feed, &[4]), (1, Ok(None)));
        assert_eq!((feed.count(), feed.kept()[0], feed.kept()[1]), (1, 4, 7));
        assert_eq!(Feed::resumed([7; LONGEST], count, Standing::Whole).message(), Some(&[7; LONGEST][..]));
    }
}

#[test]
fn a_byte_beyond_the_announced_length_is_refused_as_5() {
    let mut kept = [0; LONGEST];
    kept[..21].copy_from_slice(&shortest());
    let mut feed = Feed::resumed(kept, 21, Standing::Inside);
    assert_eq!(take(&mut feed, &[0, 0]), (1, Err(5)));
}
