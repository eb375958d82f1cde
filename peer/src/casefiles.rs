//! The two commands about files of cases: one runs standard input, the other draws a file.

use peer::casefile::{self, LONGEST_INPUT};
use peer::draw;
use std::io::{self, Read, Write};
use std::process::ExitCode;

/// `cases`: runs the file of cases on standard input.
pub fn cases() -> ExitCode {
    ended(read().and_then(|input| print(&casefile::run(&input))))
}

/// `draw [--seed N] [--lines N]`; anything else is not understood.
pub fn draw(words: &[String]) -> Option<ExitCode> {
    let options = draw::options(words)?;
    Some(ended(print(draw::cases(&options).as_bytes())))
}

/// One byte more than is run shows that the input is longer.
fn read() -> io::Result<Vec<u8>> {
    let mut input = Vec::new();
    io::stdin().take(LONGEST_INPUT as u64 + 1).read_to_end(&mut input)?;
    Ok(input)
}

fn print(bytes: &[u8]) -> io::Result<()> {
    let mut out = io::stdout().lock();
    out.write_all(bytes)?;
    out.flush()
}

fn ended(done: io::Result<()>) -> ExitCode {
    match done {
        Ok(()) => ExitCode::SUCCESS,
        Err(error) => {
            eprintln!("peer: {error}");
            ExitCode::FAILURE
        }
    }
}
