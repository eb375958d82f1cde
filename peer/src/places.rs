//! The sentences of change request K2: each refusal of reading has its place, and whoever passes it on passes the place on.

use crate::cases::placed::{self, Placed};
use crate::cases::{listed_file, named, record_of, shortest};
use crate::crc::Division;
use crate::draw::damage::{damaged, DAMAGES};
use crate::envelope::{read, Unread};
use crate::feed::{self, Feed, Standing};
use crate::frame::{self, BODY};
use crate::golden::{self, Bad, Search, Step, LONGEST_MESSAGE, RECORD};
use crate::judge::{judge, lowest_broken, Verdict};
use crate::random::Random;

/// Those of these numbers that have no more bytes than a record or a feed takes.
fn short(numbers: &[u8]) -> Vec<Placed> {
    let mut placed = placed::all();
    placed.retain(|case| numbers.contains(&case.number) && case.message.len() <= LONGEST_MESSAGE);
    assert!(numbers.iter().all(|number| placed.iter().any(|case| case.number == *number)));
    placed
}

/// A file of so many good records, each with a name of its own, and behind them one that stores these bytes.
fn behind_good(count: usize, bytes: &[u8]) -> Vec<u8> {
    let mut messages: Vec<Vec<u8>> = (0..count).map(|number| named(6001, number as u32)).collect();
    messages.push(bytes.to_vec());
    messages.iter().flat_map(|message| record_of(message)).collect()
}

/// A data message around these bytes, be they a message or not.
fn framed(bytes: &[u8]) -> Vec<u8> {
    let length = (bytes.len() as u32).to_be_bytes();
    [&[2, 2, 0, 0, 0, 7, 1, 2], length.as_slice(), bytes, &[3]].concat()
}

#[test]
fn each_refusal_of_reading_has_its_place() {
    let placed = placed::all();
    assert!((1..=7).all(|number| placed.iter().any(|case| case.number == number)));
    for case in placed {
        let told = read::<Division>(&case.message).map_err(Unread::numbers);
        assert_eq!(told, Err((case.number, case.place)), "{}", case.name);
    }
}

#[test]
fn every_place_but_that_of_1_lies_inside_the_message() {
    let mut random = Random::new(2);
    for damage in DAMAGES {
        for _ in 0..300 {
            let message = damaged(&mut random, damage);
            let (number, place) = read::<Division>(&message).expect_err("it is damaged").numbers();
            let expected = [message.len(), 0, 4, 16, 5, 21, message.len().saturating_sub(4)][damage as usize - 1];
            assert_eq!((number, place), (damage as u8, expected), "{message:02x?}");
            assert_eq!(place < message.len(), number != 1, "{message:02x?}");
        }
    }
}

/// As a feed needs it, which does not store a place.
#[test]
fn number_and_length_tell_the_place_again() {
    for case in placed::all() {
        let told = read::<Division>(&case.message);
        assert_eq!(told, Err(Unread::of(case.number.into(), case.message.len()).unwrap()), "{}", case.name);
    }
    for (number, length, place) in [(1, 0, 0), (1, 510, 510), (7, 0, 0), (7, 3, 0), (7, 4, 0), (7, 5, 1), (7, 21, 17)] {
        assert_eq!(Unread::of(number, length).map(Unread::numbers), Some((number as u8, place)));
    }
    assert!([0, 8, 21, 51, 52, 255, 256 + 1, 1 << 32 | 7].iter().all(|&number| Unread::of(number, 21).is_none()));
}

/// The place counts from the message's first byte, wherever in the file its record stands.
#[test]
fn refusal_25_passes_the_place_on() {
    for case in short(&[2, 3, 4, 5, 6, 7]).into_iter().filter(|case| case.message.len() > 20) {
        let expected = (25, case.number, case.place);
        for record in [0, 3] {
            let file = behind_good(record, &case.message);
            let Err(Bad { record: bad, refusal }) = golden::check::<Division>(&file) else { panic!("{}", case.name) };
            assert_eq!((bad, refusal.numbers()), (record, expected), "{}", case.name);
            let Search { opened, answer } = golden::find::<Division>(&file, 6000, 2);
            assert_eq!((opened, answer.map_err(|refusal| refusal.numbers())), (record + 1, Err(expected)));
            assert_eq!(golden::step::<Division>(&file, record), Step::Refused(refusal), "{}", case.name);
            assert_eq!(golden::line::<Division>(&file, record), Err(refusal), "{}", case.name);
            // 25 goes before 31, also where the two have different places.
            assert_eq!(golden::compare::<Division>(&file, record, &[4; 7], &mut []), Err(refusal), "{}", case.name);
        }
    }
}

#[test]
fn refusal_31_passes_the_place_on() {
    for case in placed::all() {
        let told = golden::compare::<Division>(&listed_file(), 0, &case.message, &mut [0; 9]);
        assert_eq!(told.map_err(|refusal| refusal.numbers()), Err((31, case.number, case.place)), "{}", case.name);
    }
}

#[test]
fn refusal_34_passes_the_place_on() {
    for case in short(&[1, 2, 3, 4, 5, 6, 7]) {
        for room in [0, RECORD] {
            let told = golden::make::<Division>(&case.message, &mut vec![0; room]);
            assert_eq!(told.map_err(|refusal| refusal.numbers()), Err((34, case.number, case.place)), "{}", case.name);
        }
    }
}

/// The place counts from the message's first byte, and not from the frame's.
#[test]
fn refusal_67_passes_the_place_on() {
    for case in placed::all() {
        let frame = framed(&case.message);
        assert_eq!(frame[BODY..frame.len() - 1], case.message);
        let expected = Err((67, case.number, case.place));
        let unwrapped = frame::unwrap::<Division>(&frame).map_err(|refusal| refusal.numbers());
        assert_eq!(unwrapped.map(|_| 0), expected, "{}", case.name);
        let wrapped = frame::wrap::<Division>(&case.message, 7, &mut []).map_err(|refusal| refusal.numbers());
        assert_eq!(wrapped, expected, "{}", case.name);
    }
}

#[test]
fn a_refusal_without_a_number_of_reading_has_place_0() {
    use golden::Refusal::{AlreadyRetired, CopyLength, RecordRetired};
    use golden::Refusal::{Buffer, NameTaken, NoRecord, NotAFile, NotClear, NotFound, StoredLength, TooLong};
    let without_reading = [NotAFile, NoRecord, StoredLength, NotClear, NameTaken, NotFound, TooLong, Buffer];
    for refusal in without_reading.into_iter().chain([AlreadyRetired, CopyLength, RecordRetired]) {
        assert!(matches!(refusal.numbers(), (21..=38, 0, 0)), "{refusal:?}");
    }
    use frame::Refusal::{Length, NoEtx, NoRoom, NoStx, TooShort, Type, Version};
    for refusal in [TooShort, NoStx, Version, Type, Length, NoEtx, NoRoom, frame::Refusal::TooLong] {
        assert!(matches!(refusal.numbers(), (61..=69, 0, 0)), "{refusal:?}");
    }
    assert_eq!([feed::Refusal::TooLong, feed::Refusal::Cut].map(feed::Refusal::numbers), [(51, 0), (52, 0)]);
}

/// What a feed stands refused by.
fn standing(feed: &Feed) -> (u8, usize) {
    match feed.standing() {
        Standing::Refused(refusal) => refusal.numbers(),
        Standing::Inside | Standing::Whole => panic!("it is not refused"),
    }
}

/// Each later call answers the refusal again, with its place.
fn assert_repeated(feed: &mut Feed, expected: (u8, usize), name: &str) {
    assert_eq!(standing(feed), expected, "{name}");
    let count = feed.count();
    for piece in [&[], shortest().as_slice(), &[4]] {
        let taken = feed.take::<Division>(piece);
        assert_eq!((taken.used, taken.found.map_err(|refusal| refusal.numbers())), (0, Err(expected)), "{name}");
        assert_eq!(feed.end().map_err(|refusal| refusal.numbers()), Err(expected), "{name}");
    }
    assert_eq!((standing(feed), feed.count()), (expected, count), "{name}");
}

/// The place counts from the message's first byte, and not from the stream's.
#[test]
fn a_feed_tells_the_place_and_repeats_it() {
    for case in short(&[2, 3, 4, 6, 7]) {
        for good in [0, 1, 4] {
            let stream = [shortest().repeat(good), case.message.clone()].concat();
            for size in [1, 7, stream.len()] {
                let mut feed = Feed::default();
                let mut rest = stream.as_slice();
                let refusal = loop {
                    let taken = feed.take::<Division>(&rest[..size.min(rest.len())]);
                    rest = &rest[taken.used..];
                    match taken.found {
                        Ok(_) => assert!(!rest.is_empty(), "{} is not refused", case.name),
                        Err(refusal) => break refusal,
                    }
                };
                assert_eq!(refusal.numbers(), (case.number, case.place), "{}", case.name);
                assert_eq!(feed::Refusal::standing(case.number.into(), feed.count()), Some(refusal), "{}", case.name);
                assert_repeated(&mut feed, (case.number, case.place), case.name);
            }
        }
    }
}

#[test]
fn refusals_51_and_52_have_place_0_and_repeat_it() {
    let mut feed = Feed::default();
    let mut long = shortest();
    long[5] = 1;
    assert_eq!(feed.take::<Division>(&long).found, Err(feed::Refusal::TooLong));
    assert_repeated(&mut feed, (51, 0), "51");
    for length in [1, 16, 17, 20] {
        feed.restart();
        feed.take::<Division>(&shortest()[..length]);
        assert_eq!(feed.end(), Err(feed::Refusal::Cut));
        assert_repeated(&mut feed, (52, 0), "52");
    }
}

/// In storage that no calls lead to, any number may stand with any count.
#[test]
fn a_refusal_that_stands_has_its_place_by_number_and_count() {
    let fixed = [(2, 0), (3, 4), (4, 16), (5, 5), (6, 21), (51, 0), (52, 0)];
    for count in [0, 1, 3, 4, 5, 17, 21, 509, 510, 511, 65_536, usize::MAX] {
        let most = count.min(510);
        let counted = [(1, most), (7, most.saturating_sub(4))];
        for (number, place) in fixed.into_iter().chain(counted) {
            let refusal = feed::Refusal::standing(u64::from(number), count).expect("it is a number of a feed");
            assert_eq!(refusal.numbers(), (number, place), "{number} with {count} in");
            let mut feed = Feed::resumed([9; 510], count, Standing::Refused(refusal));
            assert_repeated(&mut feed, (number, place), "in any storage");
        }
    }
    assert!([0, 8, 50, 53, 255, 256, u64::MAX].iter().all(|&number| feed::Refusal::standing(number, 21).is_none()));
}

#[test]
fn the_lowest_broken_rule_has_the_place_of_reading() {
    for case in placed::all() {
        assert_eq!(lowest_broken(&judge(&case.message)), Some((case.number, case.place)), "{}", case.name);
    }
}

/// The places of the broken rules in their order, and nothing of the others.
fn places(bytes: &[u8]) -> [Option<usize>; 7] {
    judge(bytes).map(|verdict| match verdict {
        Verdict::Broken { place } => Some(place),
        Verdict::Kept | Verdict::NotJudged => None,
    })
}

/// A field is looked for where V and D put it, wherever the bytes end.
#[test]
fn each_broken_rule_has_a_place_of_its_own() {
    let mut message = shortest();
    (message[0], message[4], message[16]) = (3, 0x20, 7);
    message.splice(17..21, [0, 120, 0, 0, b'A', b'A', 0, 0, 0, 0, 1, 9, 9]);
    assert_eq!(places(&message), [None, Some(0), Some(4), None, Some(5), Some(21), Some(24)]);
    (message[7], message[16]) = (2, 133);
    message.resize(17 + 133 + 2 + 4 + 300, 1);
    assert_eq!(places(&message), [None, Some(0), Some(4), Some(16), Some(5), None, Some(152)]);
    for length in 17..21 {
        assert_eq!(places(&message[..length]), [Some(length), Some(0), Some(4), Some(16), Some(5), None, None]);
    }
    assert_eq!(places(&message[..3]), [Some(3), Some(0), None, None, None, None, None]);
    assert_eq!(places(&[]), [Some(0), None, None, None, None, None, None]);
    assert_eq!(places(&shortest()), [None; 7]);
}
