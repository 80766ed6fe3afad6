//! Holds the program, the C library and the twin to the calculator: every line printed, every
//! outcome and every byte of the ledger. It prints what it met, and fails on a difference and
//! where something was met too few times to count as compared.

mod amending_calls;
mod amendments_met;
mod books;
mod call_made;
mod changes_inside;
mod changes_met;
mod changing_calls;
mod compared_calls;
mod counts;
mod cuts;
mod damaged_amendments;
mod damaged_ledgers;
mod damages;
mod dates;
mod disordered_ledgers;
mod disorders;
mod each_call;
mod generator;
mod implementations;
mod larger_rows;
mod ledgers_stored_earlier;
mod library_histories;
mod months;
mod most_kwh_met;
mod places_met;
mod program_sessions;
mod random;
mod rows_across_months;
mod rows_met;
mod searched_ledgers;
mod searches;
mod searching_calls;
mod session_text;
mod sorts;
mod stored_row_events;
mod stored_rows;
mod unreadable_lines;

use counts::Findings;
use larger_rows::LARGER_ROWS;
use rows_across_months::ROWS_ACROSS_MONTHS;
use std::env;
use std::process::ExitCode;

/// The seed unless another is given.
const SEED: u64 = 20_240_331;

fn main() -> ExitCode {
    let Some(seed) = seed() else {
        eprintln!("usage: comparisons [SEED]");
        return ExitCode::from(2);
    };
    println!("seed {seed}");
    let mut findings = Findings::new();
    program_sessions::compare(&mut findings, seed);
    dates::compare(&mut findings);
    library_histories::compare(&mut findings, seed);
    ROWS_ACROSS_MONTHS.compare(&mut findings, seed);
    LARGER_ROWS.compare(&mut findings, seed);
    ledgers_stored_earlier::compare(&mut findings, seed);
    searches::compare(&mut findings, seed);
    disordered_ledgers::compare(&mut findings, seed);
    damaged_ledgers::compare(&mut findings, seed);
    damaged_amendments::compare(&mut findings, seed);
    findings.print();
    if findings.passed() {
        ExitCode::SUCCESS
    } else {
        ExitCode::FAILURE
    }
}

/// The seed given as the only argument, or the usual one without arguments.
fn seed() -> Option<u64> {
    let arguments: Vec<String> = env::args().skip(1).collect();
    match arguments.as_slice() {
        [] => Some(SEED),
        [seed] => seed.parse().ok(),
        _ => None,
    }
}
