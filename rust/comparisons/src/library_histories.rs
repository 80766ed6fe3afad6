//! Random histories through the library and the twin: each call gets the ledger as the call
//! before it left it, and each bill its own book (document 01, section "A history and its
//! sheet").

use crate::amending_calls::AMENDING;
use crate::books::random_book;
use crate::call_made::CallMade;
use crate::changing_calls::CHANGING;
use crate::compared_calls::{compare_call, LedgerCall};
use crate::counts::Findings;
use crate::generator::{random_call, start, Profile, CLAIMING, FILLING, MIXED};
use crate::random::Random;
use crate::rows_met::{count_certificate, count_rows};
use calculator::calls::Call;
use calculator::codes::Territory;
use calculator::packed::{unpack, Facts, LEDGER_BYTES};

/// Histories of one kind.
struct Histories {
    kind: &'static str,
    count: u64,
    calls: usize,
    profile: &'static Profile,
}

/// Enough calls that the rows, and the claims, are used up before the last ones.
const HISTORIES: [Histories; 5] = [
    Histories {
        kind: "mixed histories",
        count: 1_750,
        calls: 70,
        profile: MIXED,
    },
    Histories {
        kind: "histories that fill the rows",
        count: 4,
        calls: 1_700,
        profile: FILLING,
    },
    Histories {
        kind: "histories of claims",
        count: 4,
        calls: 1_250,
        profile: CLAIMING,
    },
    Histories {
        kind: "histories of bills with a change inside",
        count: 190,
        calls: 750,
        profile: CHANGING,
    },
    Histories {
        kind: "histories of amended contracts",
        count: 300,
        calls: 400,
        profile: AMENDING,
    },
];

/// Compares the histories of every kind.
pub fn compare(findings: &mut Findings, seed: u64) {
    for histories in &HISTORIES {
        for number in 0..histories.count {
            compare_history(findings, histories, seed, number);
        }
    }
}

/// A history starts over a buffer of any contents.
fn compare_history(findings: &mut Findings, histories: &Histories, seed: u64, number: u64) {
    let kind = histories.kind;
    findings.library.count_run(kind);
    let mut random = Random::new(seed, kind, number);
    let mut history = History {
        ledger: (0..LEDGER_BYTES).map(|_| random.number() as u8).collect(),
        facts: Facts::fresh(Territory::GreatBritain),
    };
    let mut call = start(&mut random, &history.facts);
    for step in 0..=histories.calls {
        let place = || format!("seed {seed}, {kind}, number {number}, call {step}");
        let book = random_book(&mut random, &call);
        history.compare_next_call(findings, &book, &call, count_call, place);
        call = random_call(&mut random, &history.facts, histories.profile);
    }
    count_rows(&mut findings.rows, &history.facts);
}

fn count_call(findings: &mut Findings, made: &CallMade) {
    if let Call::Cert { contract, .. } = *made.call {
        count_certificate(&mut findings.rows, contract, made.before, made.after);
    }
    findings.library.count_call(made);
}

/// A history while it is compared.
pub struct History {
    pub ledger: Vec<u8>,
    /// The facts that the ledger holds.
    pub facts: Facts,
}

impl History {
    /// Compares the next call, with the book that it brings, and counts it: the bills with a change
    /// inside, and what the function given counts.
    pub fn compare_next_call(
        &mut self,
        findings: &mut Findings,
        book: &[u32],
        call: &Call,
        count: impl Fn(&mut Findings, &CallMade),
        place: impl Fn() -> String,
    ) {
        let ledger = &self.ledger;
        let ledger_call = LedgerCall { ledger, book, call };
        let expected = compare_call(findings, &ledger_call, place);
        let left = unpack(&expected.ledger).expect("a history leaves a well-formed ledger");
        let made = CallMade {
            call,
            book,
            outcome: &expected.outcome,
            before: &self.facts,
            after: &left,
        };
        let changes = &mut findings.library.changes;
        changes.count_call(call.name(), made.before, made.after);
        count(findings, &made);
        self.ledger = expected.ledger;
        self.facts = left;
    }
}
