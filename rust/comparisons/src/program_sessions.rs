//! Sessions of the compiled program: what it prints is the calculator's transcript
//! (document 01, section "The program and one run").

use crate::amending_calls::AMENDING;
use crate::call_made::CallMade;
use crate::changing_calls::CHANGING;
use crate::counts::Findings;
use crate::generator::{Profile, CLAIMING, FILLING, MIXED};
use crate::random::Random;
use crate::session_text::random_session;
use calculator::book::BOOK_ENTRIES;
use calculator::calls::{Call, Outcome};
use calculator::refusals::UNREADABLE_LINE;
use calculator::session::{transcript, Session, INPUT_BYTES};
use std::borrow::Cow;
use std::ops::RangeInclusive;

/// Document 01's run, with shares of 0.
const PAPER_RUN: &[u8] = b"open 0 0 2 0 0
bill 0 486 515 1000 67030 31980 0 0
claim
cert 0 1 486
claim
rebill 0 486 515 901 67030 31980 0 0
claim
cancel 0 486
total
bill 64 486 515 1 1 1 0 0
";

/// Sessions of one kind.
struct Sessions {
    kind: &'static str,
    count: u64,
    calls: RangeInclusive<u32>,
    profile: &'static Profile,
}

/// The longest ones are ended by the input's limit, after the rows or the claims are used up.
const SESSIONS: [Sessions; 5] = [
    Sessions {
        kind: "mixed sessions",
        count: 6_500,
        calls: 1..=70,
        profile: MIXED,
    },
    Sessions {
        kind: "sessions that fill the rows",
        count: 8,
        calls: 10_000..=10_000,
        profile: FILLING,
    },
    Sessions {
        kind: "sessions of claims",
        count: 8,
        calls: 1_500..=3_000,
        profile: CLAIMING,
    },
    Sessions {
        kind: "sessions of bills with a change inside",
        count: 240,
        calls: 400..=600,
        profile: CHANGING,
    },
    Sessions {
        kind: "sessions of amended contracts",
        count: 300,
        calls: 400..=600,
        profile: AMENDING,
    },
];

/// Lengths at the input's limit and above it.
const LENGTHS: [usize; 4] = [INPUT_BYTES - 1, INPUT_BYTES, INPUT_BYTES + 1, 200_000];

/// Compares the paper's run and the sessions of every kind.
pub fn compare(findings: &mut Findings, seed: u64) {
    compare_session(findings, "the paper's run", "whole", PAPER_RUN);
    for sessions in &SESSIONS {
        for number in 0..sessions.count {
            compare_random_session(findings, sessions, seed, number);
        }
    }
    compare_lengths(findings, seed);
}

fn compare_random_session(findings: &mut Findings, sessions: &Sessions, seed: u64, number: u64) {
    let kind = sessions.kind;
    let mut random = Random::new(seed, kind, number);
    let calls = random.within(sessions.calls.clone());
    let input = random_session(&mut random, sessions.profile, calls);
    let place = format!("seed {seed}, number {number}");
    compare_session(findings, kind, &place, &input);
}

/// A session with an unreadable last line that brings it to each length.
fn compare_lengths(findings: &mut Findings, seed: u64) {
    let kind = "sessions at the input's limit";
    let mut random = Random::new(seed, kind, 0);
    for length in LENGTHS {
        let mut input = random_session(&mut random, MIXED, 100);
        input.resize(length - 1, b'x');
        input.push(b'\n');
        let place = format!("seed {seed}, {length} bytes");
        compare_session(findings, kind, &place, &input);
    }
}

/// Compares what the program prints of an input. The place says which session of its kind it
/// is.
pub fn compare_session(findings: &mut Findings, kind: &'static str, place: &str, input: &[u8]) {
    findings.program.count_run(kind);
    let expected = transcript(input);
    count_lines(findings, input, &expected);
    count_calls(findings, input);
    let printed = program::printed(input);
    if printed != expected {
        findings.count_difference(|| {
            format!("{kind}, {place}: {}", described(input, &printed, &expected))
        });
    }
}

fn count_lines(findings: &mut Findings, input: &[u8], expected: &[u8]) {
    let replies = std::str::from_utf8(expected).expect("the transcript is ASCII");
    for (line, reply) in lines(input).zip(replies.lines()) {
        let outcome = match reply.strip_prefix("refused ") {
            Some(number) => Err(number.parse().expect("a refusal has a number")),
            None => Ok(vec![]),
        };
        findings.program.count_outcome(&name_of(line), &outcome);
    }
}

/// Counts the bills with a change inside that the lines of an input rate, the calls on amended
/// contracts, and the bills of the most kWh.
fn count_calls(findings: &mut Findings, input: &[u8]) {
    if input.len() > INPUT_BYTES {
        return;
    }
    let mut session = Session::fresh();
    let mut book = [0; BOOK_ENTRIES];
    let mut before = session.facts();
    for line in lines(input) {
        let outcome = session.reply(line);
        let after = session.facts();
        let name = name_of(line);
        let changes = &mut findings.program.changes;
        changes.count_call(&name, &before, &after);
        match (&*name, numbers_of(line, &outcome).as_slice(), &outcome) {
            ("price", &[index, price], Ok(_)) => book[index as usize] = price,
            (name, numbers, outcome) => {
                if let Some(call) = Call::of(name, numbers) {
                    let made = CallMade {
                        call: &call,
                        book: &book,
                        outcome,
                        before: &before,
                        after: &after,
                    };
                    findings.program.count_call(&made);
                }
            }
        }
        before = after;
    }
}

/// The numbers of a line, none if it can't be read.
fn numbers_of(line: &[u8], outcome: &Outcome) -> Vec<u32> {
    if *outcome == Err(UNREADABLE_LINE) {
        return Vec::new();
    }
    let words = std::str::from_utf8(line).unwrap_or_default();
    let words = words.split_ascii_whitespace().skip(1);
    words.map_while(|word| word.parse().ok()).collect()
}

/// The name of the call that a line asks for, if it can be read.
fn name_of(line: &[u8]) -> Cow<'_, str> {
    let name = line.split(|byte| byte.is_ascii_whitespace()).next();
    String::from_utf8_lossy(name.unwrap_or_default())
}

/// The first line printed that isn't the calculator's, and the input up to it.
fn described(input: &[u8], printed: &[u8], expected: &[u8]) -> String {
    let same = lines(printed)
        .zip(lines(expected))
        .take_while(|(printed, expected)| printed == expected)
        .count();
    let reply = |text| lines(text).nth(same).unwrap_or_default().escape_ascii();
    let read: Vec<&[u8]> = lines(input).take(same + 1).collect();
    format!(
        "line {}: the program prints \"{}\", the calculator \"{}\"; input up to it \"{}\"",
        same + 1,
        reply(printed),
        reply(expected),
        read.concat().escape_ascii()
    )
}

/// The lines with their line feeds.
fn lines(text: &[u8]) -> impl Iterator<Item = &[u8]> {
    text.split_inclusive(|&byte| byte == b'\n')
}

#[cfg(test)]
mod tests {
    use super::{count_calls, Findings};

    /// Of three bills the first has no change inside and the last is refused.
    #[test]
    fn the_bills_that_a_session_rates_are_counted() {
        let input = b"open 0 0 2 0 0
bill 0 486 515 1000 50000 40000 0 0
bill 0 780 800 1000 50000 40000 0 300
cert 0 1 496
bill 0 515 516 1000 50000 40000 0 0
cert 0 1 500
total
";
        let mut findings = Findings::new();
        count_calls(&mut findings, input);
        let counts = findings.program.changes.met().map(|(_, counts)| counts);
        let met = counts.concat().into_iter().filter(|&(_, times)| times > 0);
        assert!(met.eq([
            ("two stretches".to_string(), 2),
            ("QHS share across day 792".to_string(), 1),
            ("ETII begins, by a certificate".to_string(), 2),
            (
                "minimum of a QHS share changes, billed or rebilled".to_string(),
                1
            ),
        ]));
    }

    /// The rebill and the last bill that is taken find the same price by either price-fix day, so that
    /// they aren't counted; nor are the lines that can't be read.
    #[test]
    fn the_calls_on_amended_contracts_are_counted() {
        let input = b"price 300 45000
price 540 31200
open 5 0 0 300 290
amend 5 800 540 545
amend 5 800 540 545 0
bill 5 800 800 10 50000 0 0 0
bill 5 801 801 10 50000 0 0 00
bill 5 801 801 10 50000 0 0 0
price 540 1000000
price 540 45000
rebill 5 801 801 10 50000 0 0 0
bill 5 802 802 10 50000 0 0 0
bill 5 799 801 10 50000 0 0 0
";
        let expected = [
            "amended, no row held",
            "bill refused by 17, up to the day after the end",
            "bill that starts on the end, shown by R",
            "bill that starts after the end, shown by R",
        ];
        assert_eq!(met_once(input), expected);
    }

    #[test]
    fn the_bills_of_the_most_kwh_are_counted() {
        let input = b"open 5 0 2 0 0
bill 5 800 800 40000000 50000 0 0 0
bill 5 801 801 40000001 50000 0 0 0
bill 5 802 802 39999999 50000 0 0 0
rebill 5 800 800 40000001 50000 0 0 0
rebill 5 802 802 40000000 50000 0 0 0
rebill 5 802 802 40000000 50000 0 0 00
";
        let expected = [
            "bill of 40,000,000 kWh accepted",
            "bill of 40,000,001 kWh refused by 8",
            "rebill of 40,000,000 kWh accepted",
            "rebill of 40,000,001 kWh refused by 8",
        ];
        assert_eq!(met_once(input), expected);
    }

    /// The sorts of calls that the lines of an input meet, each once.
    fn met_once(input: &[u8]) -> Vec<String> {
        let mut findings = Findings::new();
        count_calls(&mut findings, input);
        let met = findings.program.sorts().map(|(_, sorts)| sorts.met());
        let met = met.concat().into_iter().filter(|&(_, times)| times > 0);
        met.map(|(sort, times)| {
            assert_eq!(times, 1, "{sort}");
            sort
        })
        .collect()
    }
}
