//! What a call does to a row that a ledger stores, or beside it.

use crate::call_made::CallMade;
use crate::rows_met::{contract_of, key};
use calculator::calls::Call;
use calculator::packed::{Facts, Row};
use calculator::rates::{class_of_bill, Class};

const RE_RATED: &str = "re-rated by a certificate";
const LEFT: &str = "left by a certificate for its shares";
const CANCELLED: &str = "cancelled";
const CLAIMED: &str = "in a claim";
const REPORTED: &str = "in a report";
const TOTALLED: &str = "in a total";
const BESIDE_BILL: &str = "beside a new bill";

/// What calls other than a rebill do.
const EVENTS: [&str; 7] = [
    RE_RATED,
    LEFT,
    CANCELLED,
    CLAIMED,
    REPORTED,
    TOTALLED,
    BESIDE_BILL,
];

/// Every sort of rows of these names, with the events of their rebills.
pub fn sorts(names: &[String], events_of_rebill: &[&str]) -> Vec<String> {
    let mut sorts = Vec::new();
    for name in names {
        let events = EVENTS.iter().chain(events_of_rebill);
        sorts.extend(events.map(|event| sort(name, event)));
    }
    sorts
}

/// The sort of a row by its name and what a call does to it.
pub fn sort(name: &str, event: &str) -> String {
    format!("{name}, {event}")
}

/// Whether a call other than open and amend, which change no row, names the row's contract and, where
/// it names a first day too, the row; a call that names no contract concerns a row with an amount.
pub fn concerns(call: &Call, row: &Row) -> bool {
    match *call {
        Call::Cert { contract, .. } | Call::Report { contract } => contract == row.contract,
        Call::Bill(numbers) => numbers.contract == row.contract,
        Call::Rebill(numbers) => (numbers.contract, numbers.first) == key(row),
        Call::Cancel { contract, first } => (contract, first) == key(row),
        Call::Claim | Call::Total => row.amount != 0,
        Call::Start { .. } | Call::Open { .. } | Call::Amend { .. } => false,
    }
}

/// What a call other than a rebill did to a row that it concerns.
pub fn event(made: &CallMade, row: &Row) -> Option<&'static str> {
    made.outcome.as_ref().ok()?;
    match made.call {
        Call::Cert { .. } if !made.after.rows.contains(row) => Some(RE_RATED),
        Call::Cert { .. } if row.bill.has_shares() => {
            (class(made.before, row) != class(made.after, row)).then_some(LEFT)
        }
        Call::Cancel { .. } => Some(CANCELLED),
        Call::Claim => Some(CLAIMED),
        Call::Report { .. } => Some(REPORTED),
        Call::Total => Some(TOTALLED),
        Call::Bill(_) => Some(BESIDE_BILL),
        _ => None,
    }
}

/// The class that the row would have without shares.
fn class(facts: &Facts, row: &Row) -> Class {
    class_of_bill(contract_of(facts, row).certificate, row.bill.first_day)
}
