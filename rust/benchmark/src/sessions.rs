//! The program on a full session beside the calculator: an input of nearly 65,536 bytes.

use std::hint::black_box;
use std::time::Instant;

use crate::timing::Comparison;

/// The most bytes that the program reads.
const MOST_INPUT: usize = 65_536;

/// How often each is timed.
const TURNS: usize = 15;

/// What a session prints of an input.
type Session = fn(&[u8]) -> Vec<u8>;

/// The time of the program and that of the calculator on an input.
pub fn measure(input: &[u8]) -> Comparison {
    let ways: [Session; 2] = [program::printed, calculator::session::transcript];
    let [printed, transcript] = ways.map(|way| way(input));
    assert!(printed == transcript, "both print the same");
    Comparison::of(TURNS, ways, |way| {
        let began = Instant::now();
        black_box(way(black_box(input)));
        began.elapsed()
    })
}

/// A session of 64 flexible contracts, in rounds until the input is full: 16 rounds of a bill for
/// each contract fill the ledger, and each round after them re-bills one day of each contract.
pub fn full_session() -> String {
    let mut input = String::new();
    for contract in 0..64 {
        input += &format!("open {contract} {} 2 0 0\n", contract % 2);
    }
    for lines in (0..64).map(round) {
        if input.len() + lines.len() > MOST_INPUT {
            break;
        }
        input += &lines;
    }
    input
}

/// The lines of a round: the bills, every fourth with shares, and then a certificate, a claim, a
/// report and a total.
fn round(number: u32) -> String {
    let call = if number < 16 { "bill" } else { "rebill" };
    let day = 486 + number % 16;
    let mut lines = String::new();
    for contract in 0..64 {
        let kwh = 1_000 + 64 * number + contract;
        let shares = match (number + contract) % 4 {
            0 => format!("{} {}", kwh / 4, kwh / 2),
            _ => "0 0".to_string(),
        };
        lines += &format!("{call} {contract} {day} {day} {kwh} 67030 31980 {shares}\n");
    }
    lines + &format!("cert {number} 1 486\nclaim\nreport {number}\ntotal\n")
}
