//! The peer's commands: run it beside the proved library, measure the two, run a file of cases, or draw one.
//! The first two call the archive, and it is linked in for them; the peer's own tests do not need it.

mod bench;
mod casefiles;
mod differential;
mod interface;
mod loaded;
mod mirror;
mod ours;

use std::env;
use std::process::ExitCode;

const USAGE: &str = "usage: peer differential [--seed N] [--count N]
       peer bench
       peer cases < FILE
       peer draw [--seed N] [--lines N]";

fn main() -> ExitCode {
    let words: Vec<String> = env::args().skip(1).collect();
    let done = match words.split_first() {
        Some((first, rest)) if first == "differential" => differential::command(rest),
        Some((first, [])) if first == "bench" => Some(bench::command()),
        Some((first, [])) if first == "cases" => Some(casefiles::cases()),
        Some((first, rest)) if first == "draw" => casefiles::draw(rest),
        _ => None,
    };
    done.unwrap_or_else(|| {
        eprintln!("{USAGE}");
        ExitCode::from(2)
    })
}
