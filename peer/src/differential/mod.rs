//! The differential run: the proved library and the peer on the same inputs, everything compared.
//! Seeded, so that a run can be had again; it stops at the first disagreement.

mod ask_envelope;
mod ask_feed;
mod ask_frame;
mod ask_golden;
mod ask_halving;
mod ask_judge;
mod ask_retire;
mod ask_sender;
mod drawn;
mod feed_inputs;
mod fixed;
mod fixed_feed;
mod fixed_frame;
mod fixed_halving;
mod fixed_judge;
mod fixed_names;
mod fixed_places;
mod fixed_retired;
mod fixed_sender;
mod frame_inputs;
mod inputs;
mod judge_inputs;
mod lent;
mod places;
mod run;
mod sender_histories;
mod sender_inputs;
mod tally;

use drawn::FAMILIES;
use run::Run;
use std::process::ExitCode;

const SEED: u64 = 9354;
const COUNT: u64 = 3_000_000;
/// What each family draws at least, so that a short run meets every answer too.
const LEAST: u64 = 5_000;

struct Options {
    seed: u64,
    count: u64,
}

/// `differential [--seed N] [--count N]`; anything else is not understood.
fn options(words: &[String]) -> Option<Options> {
    let mut options = Options { seed: SEED, count: COUNT };
    for pair in words.chunks(2) {
        let [name, number] = pair else { return None };
        let number = number.parse().ok()?;
        match name.as_str() {
            "--seed" => options.seed = number,
            "--count" => options.count = number,
            _ => return None,
        }
    }
    Some(options)
}

pub fn command(words: &[String]) -> Option<ExitCode> {
    let options = options(words)?;
    let mut run = Run::new(options.seed);
    fixed::short(&mut run);
    fixed_feed::short(&mut run);
    fixed_judge::short(&mut run);
    fixed_frame::short(&mut run);
    fixed_places::short(&mut run);
    fixed_names::short(&mut run);
    fixed_retired::short(&mut run);
    fixed_halving::short(&mut run);
    fixed_sender::short(&mut run);
    sender_histories::long(&mut run);
    drawn(&mut run, options.count);
    fixed::long(&mut run);
    println!("answers, with how often each came:");
    run.tally.print();
    println!("inputs:");
    for (family, inputs) in run.families() {
        println!("  {family}: {inputs}");
    }
    let (missing, impossible) = (run.tally.missing(), run.tally.impossible());
    for (operation, outcome) in &missing {
        println!("NEVER CAME UP: {operation:?} {outcome}");
    }
    for (operation, outcome) in &impossible {
        println!("CAME UP AND MUST NOT: {operation:?} {outcome}");
    }
    println!("differential: {} inputs, 0 disagreements (seed {})", run.inputs(), options.seed);
    Some(if missing.is_empty() && impossible.is_empty() { ExitCode::SUCCESS } else { ExitCode::FAILURE })
}

/// Draws what is still wanted after the short fixed inputs, each family by its weight.
fn drawn(run: &mut Run, count: u64) {
    let wanted = count.saturating_sub(run.inputs());
    let weights: u64 = FAMILIES.iter().map(|family| family.weight).sum();
    for family in &FAMILIES {
        run.family(family.name);
        for _ in 0..(wanted * family.weight).div_ceil(weights).max(LEAST) {
            run.input();
            (family.one)(run);
        }
    }
}
