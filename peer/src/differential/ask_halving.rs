//! What is asked of both sides about halving and about the order of a file's names, and what must hold between the answers.

use super::ask_golden::{check, find, line};
use super::lent::hex;
use super::run::Run;
use super::tally::{Operation, Outcome};
use crate::interface::{Answer, ASCENDS};
use crate::{mirror, ours};
use peer::golden::{MOST_OPENED, PREFIX, RECORD};

/// A type and a message number.
pub type Name = (u16, u32);

/// A file of more names is asked about some of them only.
const FEW: usize = 9;

/// The order of a file's names, and then every present name, absent ones next to it, and those at the ends.
pub fn every_name(run: &mut Run, file: &[u8]) {
    let names = names(file);
    asked(run, file, &names);
}

/// The same about some of the names, drawn.
pub fn some_names(run: &mut Run, file: &[u8]) {
    let mut names = names(file);
    while names.len() > FEW {
        let drawn = run.random.up_to(names.len() - 1);
        names.swap_remove(drawn);
    }
    asked(run, file, &names);
}

fn asked(run: &mut Run, file: &[u8], names: &[Name]) {
    let in_order = in_order(run, file);
    for sought in names.iter().flat_map(|&name| about(name)).chain([(0, 0), (u16::MAX, u32::MAX)]) {
        by_halving(run, file, sought, in_order);
    }
}

/// The names that a file's records have, or would have if they were good.
fn names(file: &[u8]) -> Vec<Name> {
    let name = |record: &[u8]| {
        let message = &record[PREFIX..];
        let number = u32::from_be_bytes([message[8], message[9], message[10], message[11]]);
        (u16::from_be_bytes([message[1], message[2]]), number)
    };
    file.chunks_exact(RECORD).map(name).collect()
}

/// The name, and the ones right before and behind it by number and by type; numbers run round into the next type.
fn about((message_type, number): Name) -> [Name; 5] {
    let whole = u64::from(message_type) << 32 | u64::from(number);
    let near = |by: u64| {
        let whole = whole.wrapping_add(by);
        ((whole >> 32) as u16, whole as u32)
    };
    [0, 1, u64::MAX, 1 << 32, (1u64 << 32).wrapping_neg()].map(near)
}

/// Whether the check passes and the names ascend: there halving finds what find does.
pub fn in_order(run: &mut Run, file: &[u8]) -> bool {
    let order = ascending(run, file);
    check(run, file).number == 0 && (order.number, order.value) == (0, ASCENDS)
}

/// One search by halving, beside a find of the same name where the file is in order.
pub fn by_halving(run: &mut Run, file: &[u8], sought: Name, in_order: bool) -> Answer {
    let answer = find_by_halving(run, file, sought);
    if in_order {
        let found = find(run, file, sought.0, sought.1);
        let shown = || format!("name {sought:?}, {answer:?} and {found:?}, file {}", hex(file));
        let same = (answer.number, answer.value) == (found.number, found.value);
        run.holds("in a file in order halving finds what find does, or both say 27", same, &shown);
        run.holds("in a file in order there is a record or 27", matches!(answer.number, 0 | 27), &shown);
    }
    answer
}

pub fn find_by_halving(run: &mut Run, file: &[u8], (message_type, number): Name) -> Answer {
    let shown = || format!("type {message_type}, number {number}, file {}", hex(file));
    let answer = run.plain(
        Operation::FindByHalving,
        || ours::find_by_halving(file, message_type, number),
        || mirror::find_by_halving(file, message_type, number),
        &shown,
    );
    run.tally.count(Operation::FindByHalving, Outcome::Opened(answer.count));
    run.holds("halving opens at most 8 records", usize::from(answer.count) <= MOST_OPENED, &shown);
    let none_there = answer.number == 21 || file.is_empty();
    run.holds("halving opens a record where there is one", (answer.count == 0) == none_there, &shown);
    if answer.number == 0 {
        let (told, line) = line(run, file, answer.value as usize);
        let found = [line[0], line[1]] == [message_type.into(), number.into()];
        run.holds("what halving finds has the type and number sought", found, &shown);
        run.holds("what halving finds is good and live", (told.number, told.retired()) == (0, 0), &shown);
    }
    answer
}

/// Whether the names ascend; what stands before the record that is told must ascend.
pub fn ascending(run: &mut Run, file: &[u8]) -> Answer {
    let answer = ordered(run, file);
    let shown = || format!("{answer:?}, file {}", hex(file));
    let record = usize::from(answer.count);
    if (answer.number, answer.value) == (0, ASCENDS) {
        run.holds("a file that ascends has no record to tell", record == 0, &shown);
    } else if answer.number != 21 {
        let before = ordered(run, &file[..record * RECORD]);
        run.holds("what stands before the record told ascends", (before.number, before.value) == (0, ASCENDS), &shown);
        let cut = ordered(run, &file[..(record + 1) * RECORD]);
        run.holds("no record behind the one told is opened", cut == answer, &shown);
        let (bad, name) = line(run, file, record);
        if answer.number == 0 {
            let (_, earlier) = line(run, file, record.saturating_sub(1));
            let breaks = bad.number == 0 && record > 0 && name[..2] <= earlier[..2];
            run.holds("the record told does not come after the one before it", breaks, &shown);
        } else {
            run.holds("a bad record is told as its line is", answer == Answer { count: answer.count, ..bad }, &shown);
        }
    }
    answer
}

fn ordered(run: &mut Run, file: &[u8]) -> Answer {
    let shown = || format!("file {}", hex(file));
    run.plain(Operation::Ascending, || ours::ascending(file), || mirror::ascending(file), &shown)
}
