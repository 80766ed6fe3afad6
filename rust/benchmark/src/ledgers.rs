//! The ledgers that calls are measured on: 63 open contracts of every fuel, kind and class, with as
//! many rows as asked for, every fourth of a contract's with shares. A row has one day, so that no
//! change is inside it.

use calculator::codes::MOST_KWH_GIVEN;

use crate::both_ledgers::BothLedgers;

/// The contract with a quarter of the rows: fixed, electricity, without a certificate.
pub const LARGE_CONTRACT: u32 = 0;

/// A variable contract, whose bills must lie within one month, with its rows in the middle.
pub const MIDDLE_CONTRACT: u32 = 29;

/// The one contract that isn't open.
pub const CLOSED_CONTRACT: u32 = 63;

/// The day of each contract's first row, and of its certificate. Each row takes one day.
pub const FIRST_DAY: u32 = 511;

/// The original end day of the amendment that is measured, after each row of the contract with a
/// quarter of the rows.
pub const ORIGINAL_END_DAY: u32 = 800;

/// The scheme's last day, which no row takes.
pub const FREE_DAY: u32 = 851;

/// How many days apart the rows of a contract are, unless it is the one with a quarter of them,
/// whose rows are one day apart.
const DAYS_APART: u32 = 25;

/// How many days there are from one whose bills have shares to the next. Rows are 1 or 25 days
/// apart, 1 more than a multiple of it: so a contract's first row has shares, and every fourth after
/// it. A bill for the free day has shares, too.
const DAYS_BETWEEN_SHARES: u32 = 4;

/// Document 01's code of fixed contracts.
pub const FIXED: u32 = 0;

/// Document 01's code of flexible contracts.
pub const FLEXIBLE: u32 = 2;

/// Document 01's code of index contracts.
const INDEX: u32 = 3;

/// A book in which every price is published.
pub fn book() -> Vec<u32> {
    (0..1_740).map(reference_price).collect()
}

/// A ledger with that many rows.
pub fn ledger(rows: usize, book: &[u32]) -> Vec<u8> {
    let mut ledgers = BothLedgers::start();
    for contract in 0..CLOSED_CONTRACT {
        open(&mut ledgers, contract);
    }
    let rows = rows as u32;
    let large = rows / 4;
    for row in 0..large {
        ledgers.bill(book, bill_numbers(LARGE_CONTRACT, FIRST_DAY + row));
    }
    let small_contracts = CLOSED_CONTRACT - 1;
    for row in 0..rows - large {
        let contract = 1 + row % small_contracts;
        let day = FIRST_DAY + row / small_contracts * DAYS_APART;
        ledgers.bill(book, bill_numbers(contract, day));
    }
    ledgers.bytes()
}

/// Opens a contract, with its certificate.
fn open(ledgers: &mut BothLedgers, contract: u32) {
    let kind = kind(contract);
    // A fixed contract's price-fix day and day of entry.
    let days = match kind {
        FIXED => 14 * contract,
        _ => 0,
    };
    ledgers.open(contract, fuel(contract), kind, days, days);
    let (class, day) = certificate(contract);
    ledgers.cert(contract, class, day);
}

/// The numbers of a contract's bill for one day.
pub fn bill_numbers(contract: u32, day: u32) -> twin::BillNumbers {
    let place = 1_024 * contract + day;
    let kwh = varied_kwh(place);
    let (etii_share, qhs_share) = shares(day, kwh);
    twin::BillNumbers {
        contract,
        first: day,
        last: day,
        kwh,
        supply: varied(place, 9_000, 60_000),
        wap: match kind(contract) {
            FLEXIBLE => reference_price(place),
            _ => 0,
        },
        etii_share,
        qhs_share,
    }
}

/// The ETII share and the QHS share of a bill; where it has them, a quarter of its kWh is baseline.
fn shares(day: u32, kwh: u32) -> (u32, u32) {
    match (day - FIRST_DAY) % DAYS_BETWEEN_SHARES {
        0 => (kwh / 4, kwh / 2),
        _ => (0, 0),
    }
}

/// The kWh of a bill for a place in the ledger, below the most that a bill may give.
pub fn varied_kwh(place: u32) -> u32 {
    varied(place, 0, MOST_KWH_GIVEN)
}

/// A price for a place in the book or ledger, from below the lowest support price to above the
/// highest.
pub fn reference_price(place: u32) -> u32 {
    varied(place, 9_000, 30_000)
}

/// A number for a place in the book or ledger, from `least` on and below `least + range`.
pub fn varied(place: u32, least: u32, range: u32) -> u32 {
    least + place.wrapping_mul(2_654_435_769) % range
}

/// The kind of a contract; each kind comes every fourth contract.
fn kind(contract: u32) -> u32 {
    contract % 4
}

/// The fuel of a contract; an index contract is of electricity.
fn fuel(contract: u32) -> u32 {
    match kind(contract) {
        INDEX => 0,
        _ => contract / 4 % 2,
    }
}

/// The class and effective day of a contract; each class comes every third contract.
fn certificate(contract: u32) -> (u32, u32) {
    match contract % 3 {
        0 => (0, 0),
        class => (class, FIRST_DAY),
    }
}
