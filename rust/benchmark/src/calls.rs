//! The calls that are measured, each as the proved call and as the twin's.

use crate::both_ledgers::NORTHERN_IRELAND;
use crate::ledgers::{
    bill_numbers, CLOSED_CONTRACT, FIRST_DAY, FREE_DAY, LARGE_CONTRACT, MIDDLE_CONTRACT,
    ORIGINAL_END_DAY,
};

/// What a call answers: its numbers, or the number that turns it down.
pub type Answer = Result<[i64; 3], u32>;

/// A call on a ledger, with the price book.
pub type Call = fn(&mut [u8], &[u32]) -> Answer;

/// The rows held by the ledgers that a call is measured on.
const ROWS: [usize; 4] = [0, 256, 512, 1_024];

/// The same for bill, which 1,024 held rows turn down: it fills the last place.
const ROWS_WITH_ROOM: [usize; 4] = [0, 256, 512, 1_023];

/// A call that is measured.
pub struct Case {
    pub name: &'static str,
    pub rows: [usize; 4],
    pub proved: Call,
    pub twin: Call,
}

/// The calls on a ledger, in document 01's order, with amend after cert. A bill, a rebill and a
/// cancellation are of a row with shares in the middle of the others, a certificate, an amendment
/// and a report of the contract with the most rows.
pub const CASES: [Case; 10] = [
    Case {
        name: "start",
        rows: ROWS,
        proved: |ledger, _| proved(ebds::calls::start(ledger, NORTHERN_IRELAND)),
        twin: |ledger, _| twin::start(ledger, NORTHERN_IRELAND),
    },
    Case {
        name: "open",
        rows: ROWS,
        proved: |ledger, _| proved(ebds::calls::open(ledger, CLOSED_CONTRACT, 0, 0, 1, 2)),
        twin: |ledger, _| twin::open(ledger, CLOSED_CONTRACT, 0, 0, 1, 2),
    },
    Case {
        name: "bill",
        rows: ROWS_WITH_ROOM,
        proved: |ledger, book| proved_bill(ledger, book, bill_numbers(MIDDLE_CONTRACT, FREE_DAY)),
        twin: |ledger, book| twin::bill(ledger, book, bill_numbers(MIDDLE_CONTRACT, FREE_DAY)),
    },
    Case {
        name: "rebill",
        rows: ROWS,
        proved: |ledger, book| {
            proved_rebill(ledger, book, bill_numbers(MIDDLE_CONTRACT, FIRST_DAY))
        },
        twin: |ledger, book| twin::rebill(ledger, book, bill_numbers(MIDDLE_CONTRACT, FIRST_DAY)),
    },
    Case {
        name: "cert",
        rows: ROWS,
        proved: |ledger, _| proved(ebds::calls::cert(ledger, LARGE_CONTRACT, 1, FIRST_DAY)),
        twin: |ledger, _| twin::cert(ledger, LARGE_CONTRACT, 1, FIRST_DAY),
    },
    Case {
        name: "amend",
        rows: ROWS,
        proved: |ledger, _| {
            proved(ebds::calls::amend(
                ledger,
                LARGE_CONTRACT,
                ORIGINAL_END_DAY,
                1,
                2,
            ))
        },
        twin: |ledger, _| twin::amend(ledger, LARGE_CONTRACT, ORIGINAL_END_DAY, 1, 2),
    },
    Case {
        name: "cancel",
        rows: ROWS,
        proved: |ledger, _| proved(ebds::calls::cancel(ledger, MIDDLE_CONTRACT, FIRST_DAY)),
        twin: |ledger, _| twin::cancel(ledger, MIDDLE_CONTRACT, FIRST_DAY),
    },
    Case {
        name: "claim",
        rows: ROWS,
        proved: |ledger, _| proved(ebds::calls::claim(ledger)),
        twin: |ledger, _| twin::claim(ledger),
    },
    Case {
        name: "report",
        rows: ROWS,
        proved: |ledger, _| proved(ebds::calls::report(ledger, LARGE_CONTRACT)),
        twin: |ledger, _| twin::report(ledger, LARGE_CONTRACT),
    },
    Case {
        name: "total",
        rows: ROWS,
        proved: |ledger, _| proved(ebds::calls::total(ledger)),
        twin: |ledger, _| twin::total(ledger),
    },
];

/// The answer of a proved call, in the twin's form.
pub fn proved(answer: Result<[i64; 3], ebds::Refusal>) -> Answer {
    answer.map_err(ebds::Refusal::number)
}

/// The proved bill.
pub fn proved_bill(ledger: &mut [u8], book: &[u32], numbers: twin::BillNumbers) -> Answer {
    proved(ebds::calls::bill(ledger, book, proved_numbers(numbers)))
}

/// The proved rebill.
pub fn proved_rebill(ledger: &mut [u8], book: &[u32], numbers: twin::BillNumbers) -> Answer {
    proved(ebds::calls::rebill(ledger, book, proved_numbers(numbers)))
}

/// The numbers of a bill as the proved calls take them.
fn proved_numbers(numbers: twin::BillNumbers) -> ebds::BillNumbers {
    ebds::BillNumbers {
        contract: numbers.contract,
        first: numbers.first,
        last: numbers.last,
        kwh: numbers.kwh,
        supply: numbers.supply,
        wap: numbers.wap,
        etii_share: numbers.etii_share,
        qhs_share: numbers.qhs_share,
    }
}
