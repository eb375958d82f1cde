//! What is asked of both sides about golden files: counts, checks, walks, searches and comparisons.
//! Beside each answer, what must hold between answers. Retiring a record is asked about in `ask_retire`,
//! halving and the order of names in `ask_halving`.

use super::lent::{array, hex};
use super::run::Run;
use super::tally::Operation;
use super::{ask_halving, ask_retire, places};
use crate::interface::{Answer, LINE, PART};
use crate::{mirror, ours};
use peer::golden::{Stored, PREFIX, RECORD};

/// Everything about one golden file, comparisons apart.
pub fn file(run: &mut Run, file: &[u8]) {
    let shown = || format!("file {}", hex(file));
    let before = file.to_vec();
    let records = run.plain(Operation::Records, || ours::records(file), || mirror::records(file), &shown);
    let retired = retired_records(run, file);
    let check = check(run, file);
    let walk = walk(run, file);
    run.holds("a walk goes as far as there are records", walk.count == records.count, &shown);
    let met = Answer { count: walk.retired, ..records };
    run.holds("a walk meets as many retired records as are counted", retired == met, &shown);
    let expected = walk.first_refused.unwrap_or(records);
    run.holds("a check answers what a walk meets first", check == expected, &shown);
    if check.number == 26 {
        name_taken(run, file, check);
    }
    let far = run.random.pick(&[128, 129, 1 << 32, 1 << 55, (1 << 55) + 1, usize::MAX / RECORD, usize::MAX]);
    step_and_line(run, file, far);
    for (message_type, number) in sought(run, file) {
        find(run, file, message_type, number);
    }
    ask_halving::some_names(run, file);
    ask_retire::some(run, file);
    run.holds("a file lent to be read stays as it was", before == file, &shown);
}

pub fn retired_records(run: &mut Run, file: &[u8]) -> Answer {
    let shown = || format!("file {}", hex(file));
    run.plain(Operation::RetiredRecords, || ours::retired_records(file), || mirror::retired_records(file), &shown)
}

/// The check alone.
pub fn check(run: &mut Run, file: &[u8]) -> Answer {
    run.plain(Operation::Check, || ours::check(file), || mirror::check(file), &|| format!("file {}", hex(file)))
}

/// What a check that answers 26 says of the file: as far as the record refused all is well, and nothing behind it counts.
fn name_taken(run: &mut Run, file: &[u8], answer: Answer) {
    let shown = || format!("{answer:?}, file {}", hex(file));
    let record = usize::from(answer.count);
    let before = check(run, &file[..record * RECORD]);
    let passes = before == Answer { count: answer.count, ..Answer::default() };
    run.holds("the records before one refused by 26 pass the check", passes, &shown);
    let cut = check(run, &file[..(record + 1) * RECORD]);
    run.holds("no record behind one refused by 26 is judged", cut == answer, &shown);
    let (line, told) = line(run, file, record);
    run.holds("a record refused by 26 is good, and live", (line.number, line.retired()) == (0, 0), &shown);
    let found = find(run, file, told[0] as u16, told[1] as u32);
    let earlier = found.number == 0 && found.value < u32::from(answer.count);
    run.holds("with 26 a search for the name gives an earlier record", earlier, &shown);
}

/// A type and a message number.
type Name = [u64; 2];

#[derive(Default)]
struct Walk {
    count: u16,
    retired: u16,
    /// Those of the live records so far.
    names: Vec<Name>,
    /// The first refusal met, as a check answers it.
    first_refused: Option<Answer>,
}

impl Walk {
    /// A bad record is refused as its step is, and a live one by 26 if its name was met before.
    fn meet(&mut self, step: Answer, name: Option<Name>) {
        let is_retired = step.number == 0 && step.retired() != 0;
        self.retired += u16::from(is_retired);
        let name = name.filter(|_| !is_retired);
        let taken = name.is_some_and(|name| self.names.contains(&name));
        let refused = if taken { Answer { number: 26, ..Answer::default() } } else { step };
        if refused.number != 0 && self.first_refused.is_none() {
            self.first_refused = Some(Answer { count: self.count, ..refused });
        }
        self.names.extend(name);
    }
}

/// Walks from the first record until the walk stays where it is.
fn walk(run: &mut Run, file: &[u8]) -> Walk {
    let mut walk = Walk::default();
    loop {
        let (step, name) = step_and_line(run, file, usize::from(walk.count));
        walk.meet(step, name);
        if step.count == 0 {
            return walk;
        }
        walk.count += step.count;
    }
}

/// One record by a step and by a line, which must tell the same; of a good one the name as well.
pub fn step_and_line(run: &mut Run, file: &[u8], record: usize) -> (Answer, Option<Name>) {
    let shown = || format!("record {record}, file {}", hex(file));
    let (step, part) = run.beside(
        Operation::Step,
        PART,
        |part| ours::step(file, record, array(part)),
        |part| mirror::step(file, record, array(part)),
        &shown,
    );
    let passed_on = step.number != 25 || places::passed_on(step, &file[Stored::of(file, record).place]);
    run.holds("25 passes on what reading answers", passed_on, &shown);
    let (answer, line) = line(run, file, record);
    let same = match (step.number, step.value) {
        (0, 0) => answer.number == 22 && step.retired() == 0,
        (0, size) => {
            let place = (record * RECORD + PREFIX) as u64;
            let sized = part.content() == [place, size.into()] && line[2] == u64::from(size);
            let mark = file[record * RECORD] >> 7;
            answer.number == 0 && sized && [step, answer].map(Answer::retired) == [mark, mark]
        }
        _ => answer == Answer { count: 0, ..step },
    };
    run.holds("a step and a line tell the same", same, &shown);
    (step, (answer.number == 0).then_some([line[0], line[1]]))
}

pub fn line(run: &mut Run, file: &[u8], record: usize) -> (Answer, [u64; LINE]) {
    let (answer, line) = run.beside(
        Operation::Line,
        LINE,
        |line| ours::line(file, record, array(line)),
        |line| mirror::line(file, record, array(line)),
        &|| format!("record {record}, file {}", hex(file)),
    );
    (answer, line.content().try_into().expect("three places were lent"))
}

/// Types and numbers to look for: of some record, beside it, and any.
pub fn sought(run: &mut Run, file: &[u8]) -> [(u16, u32); 3] {
    let random = &mut run.random;
    let first = random.up_to(file.len() / RECORD) * RECORD + PREFIX;
    let Some(header) = file.get(first..first + 12) else { return [(0, 0), (6000, 1), (u16::MAX, u32::MAX)] };
    let message_type = u16::from_be_bytes([header[1], header[2]]);
    let number = u32::from_be_bytes([header[8], header[9], header[10], header[11]]);
    let beside = if random.once_in(2) { (message_type ^ 1, number) } else { (message_type, number ^ 1) };
    [(message_type, number), beside, (6000 + random.up_to(3) as u16, random.number())]
}

pub fn find(run: &mut Run, file: &[u8], message_type: u16, number: u32) -> Answer {
    let shown = || format!("type {message_type}, number {number}, file {}", hex(file));
    let answer = run.plain(
        Operation::Find,
        || ours::find(file, message_type, number),
        || mirror::find(file, message_type, number),
        &shown,
    );
    if answer.number == 0 {
        let (told, line) = line(run, file, answer.value as usize);
        let found = [line[0], line[1]] == [message_type.into(), number.into()];
        run.holds("what is found has the type and number sought", found, &shown);
        run.holds("what is found is live", (told.number, told.retired()) == (0, 0), &shown);
        run.holds("the record found is the last opened", answer.value + 1 == u32::from(answer.count), &shown);
    }
    if matches!(answer.number, 23..=25) {
        let (bad, _) = line(run, file, usize::from(answer.count) - 1);
        let same = answer == Answer { count: answer.count, ..bad };
        run.holds("a search that a bad record ends tells what its line does", same, &shown);
    }
    answer
}

/// One record against one radio message, with lists of several rooms, to all of which the answer is the same.
pub fn comparison(run: &mut Run, file: &[u8], record: usize, radio: &[u8]) -> Answer {
    let mut told = None;
    let rooms = [0, 1, run.random.between(2, 9), run.random.between(10, 700)];
    for room in rooms {
        let shown = || format!("room {room}, record {record}, radio {}, file {}", hex(radio), hex(file));
        let (answer, places) = run.beside(
            Operation::Compare,
            room,
            |places| ours::compare(file, record, radio, places),
            |places| mirror::compare(file, record, radio, places),
            &shown,
        );
        if answer.number != 0 {
            refused_comparison(run, file, record, radio, answer);
        } else {
            let listed = &places.content()[..room.min(answer.value as usize)];
            run.holds("places ascend", listed.windows(2).all(|pair| pair[0] < pair[1]), &shown);
            let Stored { place, retired } = Stored::of(file, record);
            run.holds("a record that is compared is live", !retired, &shown);
            run.holds("the same are the same bytes", answer.value != 0 || file[place.clone()] == *radio, &shown);
            let behind = radio.len().abs_diff(place.len());
            let neither_begins = behind == 0 || answer.value as usize > behind;
            run.holds("neither message is a proper beginning of the other", neither_begins, &shown);
        }
        run.holds("the room of a list changes no answer", *told.get_or_insert(answer) == answer, &shown);
    }
    told.expect("several rooms were tried")
}

/// A comparison that is refused by the radio's message, for a retired record, or by the record as its line is.
fn refused_comparison(run: &mut Run, file: &[u8], record: usize, radio: &[u8], answer: Answer) {
    let shown = || format!("record {record}, radio {}, file {}", hex(radio), hex(file));
    let (line, _) = line(run, file, record);
    match answer.number {
        31 => {
            run.holds("31 passes on what reading answers", places::passed_on(answer, radio), &shown);
            run.holds("31 is about a live record", (line.number, line.retired()) == (0, 0), &shown);
        }
        38 => run.holds("38 is about a good record that is retired", (line.number, line.retired()) == (0, 1), &shown),
        _ => run.holds("a comparison that a record ends tells what its line does", answer == line, &shown),
    }
}

/// The listing of a file, from its count and its lines.
pub fn listing(
    file: &[u8],
    records: impl Fn(&[u8]) -> Answer,
    line: impl Fn(&[u8], usize, &mut [u64; LINE]) -> Answer,
) -> String {
    let count = records(file);
    if count.number != 0 {
        return format!("refused {} {} {}\n", count.number, count.reading, count.value);
    }
    let mut listing = format!("records {}\n", count.count);
    for record in 0..usize::from(count.count) {
        let mut told = [0; LINE];
        let answer = line(file, record, &mut told);
        listing += &match answer.number {
            0 => {
                let mark = if answer.retired() == 0 { "" } else { " retired" };
                format!("{record} {} {} {}{mark}\n", told[0], told[1], told[2])
            }
            number => format!("{record} refused {number} {} {}\n", answer.reading, answer.value),
        };
    }
    listing
}
