//! The calls that are measured on ledgers with changes inside bills. Those of bill, rebill and cert
//! are of the middle contract, and what each of them leaves is the ledger that total is measured on.

use crate::calls::{proved, proved_bill, proved_rebill};
use crate::calls_on_ledgers::CallOnLedger;
use crate::changes::{class, Contents, EFFECTIVE_DAY, MIDDLE_CONTRACT, MINIMUM_BILL};

/// The calls, each of the ledger's contents and the price book.
pub const CALLS_ON_CHANGES: [fn(Contents, &[u32]) -> CallOnLedger; 4] = [bill, rebill, cert, total];

/// A bill for days around day 792, or from it on.
fn bill(contents: Contents, book: &[u32]) -> CallOnLedger {
    let numbers = contents.bill_numbers(MIDDLE_CONTRACT, MINIMUM_BILL);
    let mut ledgers = contents.ledgers(book);
    ledgers.cancel(numbers.contract, numbers.first);
    CallOnLedger {
        name: "bill",
        ledger: ledgers.bytes(),
        rows: contents.rows() - 1,
        proved: Box::new(move |ledger, book| proved_bill(ledger, book, numbers)),
        twin: Box::new(move |ledger, book| twin::bill(ledger, book, numbers)),
    }
}

/// The same bill once more.
fn rebill(contents: Contents, book: &[u32]) -> CallOnLedger {
    let numbers = contents.bill_numbers(MIDDLE_CONTRACT, MINIMUM_BILL);
    CallOnLedger {
        name: "rebill",
        ledger: contents.ledgers(book).bytes(),
        rows: contents.rows(),
        proved: Box::new(move |ledger, book| proved_rebill(ledger, book, numbers)),
        twin: Box::new(move |ledger, book| twin::rebill(ledger, book, numbers)),
    }
}

/// The certificate of a contract that has none.
fn cert(contents: Contents, book: &[u32]) -> CallOnLedger {
    let (contract, class, day) = (MIDDLE_CONTRACT, class(MIDDLE_CONTRACT), EFFECTIVE_DAY);
    let mut ledgers = contents.ledgers(book);
    ledgers.cert(contract, 0, 0);
    CallOnLedger {
        name: "cert",
        ledger: ledgers.bytes(),
        rows: contents.rows(),
        proved: Box::new(move |ledger, _| proved(ebds::calls::cert(ledger, contract, class, day))),
        twin: Box::new(move |ledger, _| twin::cert(ledger, contract, class, day)),
    }
}

/// The total.
pub fn total(contents: Contents, book: &[u32]) -> CallOnLedger {
    CallOnLedger::total(contents.ledgers(book).bytes(), contents.rows())
}
