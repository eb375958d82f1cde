//! Files of cases, as docs/CASES.md has them: each line is run by the peer's own code, and prints one line.
//! (The worked examples of the rules, as values, are in the module `cases`.)

mod arguments;
mod complaint;
mod envelopes;
mod feeds;
mod frames;
mod goldens;
mod printed;
mod senders;
mod spoiled;
#[cfg(test)]
mod tests;
mod words;
mod worked_file;

use crate::feed::Feed;
use crate::sender::Event;
pub use arguments::quotable;
use complaint::{Complaint, What};
use senders::Bench;
use words::Words;

/// The most bytes of an input that are read.
pub const LONGEST_INPUT: usize = 1 << 18;
/// The most characters of a line, each of them a byte.
pub const LONGEST_LINE: usize = 4_096;

/// What goes from line to line.
#[derive(Default)]
struct Worked {
    file: Vec<u8>,
    feed: Feed,
    bench: Bench,
}

type Command = fn(&mut Words, &mut Worked) -> Result<String, Complaint>;

const COMMANDS: [(&str, Command); 36] = [
    ("sum", |words, _| envelopes::sum(words)),
    ("read", |words, _| envelopes::read(words)),
    ("judge", |words, _| envelopes::judge(words)),
    ("write", |words, _| envelopes::write(words)),
    ("rewrite", |words, _| envelopes::rewrite(words)),
    ("qos", |words, _| envelopes::qos(words)),
    ("late", |words, _| envelopes::late(words)),
    ("sequence", |words, _| envelopes::sequence(words)),
    ("check", |words, worked| goldens::check(words, &worked.file)),
    ("find", |words, worked| goldens::find(words, &worked.file)),
    ("halve", |words, worked| goldens::halve(words, &worked.file)),
    ("order", |words, worked| goldens::order(words, &worked.file)),
    ("step", |words, worked| goldens::step(words, &worked.file)),
    ("walk", |words, worked| goldens::walk(words, &worked.file)),
    ("compare", |words, worked| goldens::compare(words, &worked.file)),
    ("make", |words, _| goldens::make(words)),
    ("retire", |words, worked| goldens::retire(words, &worked.file)),
    ("retired", |words, worked| goldens::retired(words, &worked.file)),
    ("entry", |words, worked| goldens::entry(words, &worked.file)),
    ("list", |words, worked| goldens::list(words, &worked.file)),
    ("edits", |words, worked| spoiled::edits(words, &mut worked.file)),
    ("flips", |words, worked| spoiled::flips(words, &mut worked.file)),
    ("pairs", |words, worked| spoiled::pairs(words, &mut worked.file)),
    ("restart", |words, worked| feeds::restart(words, &mut worked.feed)),
    ("piece", |words, worked| feeds::piece(words, &mut worked.feed)),
    ("stream", |words, worked| feeds::stream(words, &mut worked.feed)),
    ("end", |words, worked| feeds::end(words, &mut worked.feed)),
    ("unwrap", |words, _| frames::unwrap(words)),
    ("wrap", |words, _| frames::wrap(words)),
    ("acknowledge", |words, _| frames::acknowledge(words)),
    ("first", |words, _| frames::first(words)),
    ("start", |words, worked| senders::start(words, &mut worked.bench)),
    ("submit", |words, worked| senders::event(words, &mut worked.bench, Event::Submit)),
    ("ack", |words, worked| senders::event(words, &mut worked.bench, Event::Ack)),
    ("nak", |words, worked| senders::event(words, &mut worked.bench, Event::Nak)),
    ("timeout", |words, worked| senders::event(words, &mut worked.bench, Event::TimeOut)),
];

/// What a file of cases prints.
pub fn run(input: &[u8]) -> Vec<u8> {
    let (mut printed, mut worked) = (Vec::new(), Worked::default());
    let lines = lines(input);
    for (line, number) in lines.iter().zip(1..) {
        let told = answer(line, &mut worked).unwrap_or_else(|complaint| Some(complaint.told(number).into_bytes()));
        if let Some(told) = told {
            printed.extend(told);
            printed.push(b'\n');
        }
    }
    if input.len() > LONGEST_INPUT {
        printed.extend(Complaint::LongInput.told(lines.len() + 1).into_bytes());
        printed.push(b'\n');
    }
    printed
}

/// The lines that are run: of an input too long, those that end within its limit.
fn lines(input: &[u8]) -> Vec<&[u8]> {
    let taken = &input[..input.len().min(LONGEST_INPUT)];
    let mut lines: Vec<&[u8]> = taken.split(|&byte| byte == b'\n').collect();
    let rest = lines.pop().unwrap_or_default();
    // The last line may lack its line feed, but not its end; an empty one is a comment.
    if taken.len() == input.len() {
        lines.push(rest);
    }
    lines
}

/// What a line prints: nothing, if it is a comment.
fn answer(line: &[u8], worked: &mut Worked) -> Result<Option<Vec<u8>>, Complaint> {
    if line.len() > LONGEST_LINE {
        return Err(Complaint::LongLine);
    }
    let mut words = Words::new(line);
    let first = words.word();
    if matches!(first.text, [] | [b'#', ..]) {
        return Ok(None);
    }
    if first.text == b"file" {
        worked_file::change(&mut words, &mut worked.file)?;
        return Ok(Some(format!("file: {} bytes", worked.file.len()).into_bytes()));
    }
    let command = COMMANDS.iter().find(|(name, _)| name.as_bytes() == first.text);
    let (_, command) = command.ok_or(first.misfit(What::Command))?;
    let colon = words.name()?;
    let answer = command(&mut words, worked)?;
    Ok(Some([&line[first.place..colon], b" ", answer.as_bytes()].concat()))
}
