//! "A file that passed the check before still passes and means the same."

use super::super::samples::{drawn_file, mark_some};
use super::super::{check, compare, count, find, line, retired_records, step, Line, Refusal, RECORD};
use crate::crc::Division;
use crate::draw::sketch::Sketch;
use crate::golden::before;
use crate::random::Random;

/// Everything that can be asked of the file is answered as before K7.
fn assert_as_before(random: &mut Random, file: &[u8]) {
    assert_eq!(check::<Division>(file), before::check(file), "{file:02x?}");
    for number in 0..7 {
        let (now, then) = (find::<Division>(file, 6000, number), before::find(file, 6000, number));
        assert_eq!(now, then, "{number} in {file:02x?}");
    }
    for record in (0..9).chain([usize::MAX]) {
        assert_eq!(step::<Division>(file, record), before::step(file, record), "{record} of {file:02x?}");
        assert_eq!(line::<Division>(file, record), before::line(file, record), "{record} of {file:02x?}");
        let radio = Sketch::any(random).message();
        let mut list = [0; 600];
        let now = compare::<Division>(file, record, &radio, &mut list);
        let listed = now.map(|total| list[..total].iter().map(|&place| place as usize).collect());
        assert_eq!(listed, before::compare(file, record, &radio), "{record} of {file:02x?}");
    }
}

#[test]
fn a_file_without_marks_answers_as_before() {
    let mut random = Random::new(7);
    let (mut passed, mut taken) = (0, 0);
    for _ in 0..1_500 {
        let file = drawn_file(&mut random);
        assert_as_before(&mut random, &file);
        assert!(matches!(retired_records::<Division>(&file), Ok(0) | Err(Refusal::NotAFile)));
        passed += u32::from(before::check(&file).is_ok());
        taken += u32::from(before::check(&file).is_err_and(|bad| bad.refusal == Refusal::NameTaken));
    }
    assert!(passed > 200 && taken > 200, "{passed} passed, {taken} had a name twice");
}

/// "A file that passed the check before still passes and means the same": it had no mark, since 23 judged that bit too.
#[test]
fn a_file_that_passed_before_still_passes_and_means_the_same() {
    let mut random = Random::new(8);
    let (mut passed, mut pass_now) = (0, 0);
    for _ in 0..3_000 {
        let mut file = drawn_file(&mut random);
        if random.once_in(2) {
            mark_some(&mut random, &mut file);
        }
        pass_now += u32::from(check::<Division>(&file).is_ok());
        if before::check(&file).is_ok() {
            assert!(file.chunks(RECORD).all(|record| record[0] < 0x80));
            assert_as_before(&mut random, &file);
            passed += 1;
        }
    }
    assert!(passed > 200 && pass_now > passed + 200, "{passed} passed before, {pass_now} pass now");
}

/// A bad record is refused as before, and a good one is opened by its message, whatever marks the others have.
#[test]
fn a_mark_changes_nothing_for_the_other_records() {
    let mut random = Random::new(9);
    for _ in 0..500 {
        let file = drawn_file(&mut random);
        let mut marked = file.clone();
        mark_some(&mut random, &mut marked);
        for record in 0..count(&file).unwrap_or_default() {
            let is_marked = marked[record * RECORD] >= 0x80;
            let expected = before::line(&file, record).map(|line| Line { retired: is_marked, ..line });
            assert_eq!(line::<Division>(&marked, record), expected, "{record} of {marked:02x?}");
        }
    }
}
