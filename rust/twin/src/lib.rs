//! The calls of document 01, with papers 1 to 6 of document 02, hand-written in Rust on the same
//! packed bytes: what the times of the proved calls are measured against.
//!
//! Each call answers three numbers in document 01's order, unused ones 0, or the number that
//! turns it down; it then changes no byte.

mod amounts;
mod bills;
mod calendar;
mod check;
mod contracts;
mod packed;
mod rates;
mod refusals;
mod rows;

pub use bills::BillNumbers;
pub use packed::LEDGER_LENGTH;

use check::{check, MOST_CLAIMS};
use contracts::{Certificate, Contract};
use packed::{contract_slots_mut, row_slots, row_slots_mut, Header, Row, ROW_COUNT, UNHELD};
use refusals::{
    NOT_WELL_FORMED, NO_CLAIM_LEFT, NO_ROOM, ROW_AFTER_ORIGINAL_END, SHARED_DAY, WRONGLY_OPEN,
    WRONG_CODE, WRONG_DAY,
};
use rows::{begins_within, ends_after, new_place, place_of, places_of_contract};

/// How many ticks a penny has.
const TICKS_PER_PENNY: i64 = 10_000;

/// start: a fresh ledger over bytes of any contents.
pub fn start(ledger: &mut [u8], territory: u32) -> Result<[i64; 3], u32> {
    if ledger.len() != LEDGER_LENGTH {
        return Err(NOT_WELL_FORMED);
    }
    if territory > 1 {
        return Err(WRONG_CODE);
    }
    ledger.fill(0);
    let header = Header {
        territory,
        claims: 0,
        pence: 0,
    };
    header.pack(ledger);
    Ok([0; 3])
}

/// open: an unamended contract under a number that isn't open, without a certificate.
pub fn open(
    ledger: &mut [u8],
    contract: u32,
    fuel: u32,
    kind: u32,
    price_fix_day: u32,
    entry_day: u32,
) -> Result<[i64; 3], u32> {
    let checked = check(ledger)?;
    if checked.is_open(contract)? {
        return Err(WRONGLY_OPEN);
    }
    let territory = checked.header.territory;
    let opened = Contract::from_numbers(territory, fuel, kind, price_fix_day, entry_day)?;
    contract_slots_mut(ledger)[contract as usize] = opened.pack();
    Ok([0; 3])
}

/// bill: adds a row; answers R, rate and amount.
pub fn bill(ledger: &mut [u8], book: &[u32], numbers: BillNumbers) -> Result<[i64; 3], u32> {
    let checked = check(ledger)?;
    let contract = numbers.contract(&checked, book)?;
    let place = new_place(&row_slots(ledger)[..checked.held], numbers)?;
    let row = numbers.row(contract, book)?;
    if checked.held == ROW_COUNT {
        return Err(NO_ROOM);
    }
    let slots = row_slots_mut(ledger);
    slots.copy_within(place..checked.held, place + 1);
    slots[place] = row.pack();
    let Row { bill, amount } = row;
    Ok([bill.reference, contract.rate(&bill), amount])
}

/// rebill: puts a row in place of the one with that contract and first day; answers R, rate and
/// the new amount minus the old.
pub fn rebill(ledger: &mut [u8], book: &[u32], numbers: BillNumbers) -> Result<[i64; 3], u32> {
    let checked = check(ledger)?;
    let contract = numbers.contract(&checked, book)?;
    let held = &mut row_slots_mut(ledger)[..checked.held];
    let place = place_of(held, numbers.contract, numbers.first)?;
    if begins_within(held.get(place + 1), numbers) {
        return Err(SHARED_DAY);
    }
    let row = numbers.row(contract, book)?;
    let old = Row::unpack(&held[place]);
    held[place] = row.pack();
    let Row { bill, amount } = row;
    Ok([bill.reference, contract.rate(&bill), amount - old.amount])
}

/// cert: another certificate in place of the contract's, and its rows without shares re-rated;
/// answers the net change and the count of rows whose amount changed.
pub fn cert(
    ledger: &mut [u8],
    contract: u32,
    class: u32,
    effective_day: u32,
) -> Result<[i64; 3], u32> {
    let checked = check(ledger)?;
    let terms = checked.contract(contract)?;
    let certified = terms.with(Certificate::from_numbers(class, effective_day)?);
    contract_slots_mut(ledger)[contract as usize] = certified.pack();
    let held = &mut row_slots_mut(ledger)[..checked.held];
    let places = places_of_contract(held, contract);
    let mut change = 0;
    let mut changed = 0;
    for slot in &mut held[places] {
        let row = Row::unpack(slot);
        if row.bill.has_shares() {
            continue;
        }
        let amount = certified.amount(&row.bill);
        if amount != row.amount {
            *slot = Row { amount, ..row }.pack();
            change += amount - row.amount;
            changed += 1;
        }
    }
    Ok([change, changed, 0])
}

/// amend: an amendment of a fixed contract that has none. It alters no row.
pub fn amend(
    ledger: &mut [u8],
    contract: u32,
    original_end_day: u32,
    price_fix_day: u32,
    entry_day: u32,
) -> Result<[i64; 3], u32> {
    let checked = check(ledger)?;
    let terms = checked.contract(contract)?;
    let amended = terms.amended(original_end_day, price_fix_day, entry_day)?;
    let held = &row_slots(ledger)[..checked.held];
    if ends_after(held, contract, original_end_day) {
        return Err(ROW_AFTER_ORIGINAL_END);
    }
    contract_slots_mut(ledger)[contract as usize] = amended.pack();
    Ok([0; 3])
}

/// cancel: removes the row with that contract and first day; answers minus its amount.
pub fn cancel(ledger: &mut [u8], contract: u32, first: u32) -> Result<[i64; 3], u32> {
    let checked = check(ledger)?;
    checked.contract(contract)?;
    let held = &mut row_slots_mut(ledger)[..checked.held];
    let place = place_of(held, contract, first)?;
    let old = Row::unpack(&held[place]);
    held.copy_within(place + 1.., place);
    held[checked.held - 1] = UNHELD;
    Ok([-old.amount, 0, 0])
}

/// claim: answers floor(due / 10,000) minus the pence claimed before, and due modulo 10,000.
pub fn claim(ledger: &mut [u8]) -> Result<[i64; 3], u32> {
    let checked = check(ledger)?;
    let before = checked.header;
    if before.claims == MOST_CLAIMS {
        return Err(NO_CLAIM_LEFT);
    }
    let header = Header {
        territory: before.territory,
        claims: before.claims + 1,
        pence: checked.due / TICKS_PER_PENNY,
    };
    header.pack(ledger);
    let rest = checked.due % TICKS_PER_PENNY;
    Ok([header.pence - before.pence, rest, 0])
}

/// report: answers rows, kWh and due of the contract. It changes no byte.
pub fn report(ledger: &[u8], contract: u32) -> Result<[i64; 3], u32> {
    let checked = check(ledger)?;
    checked.contract(contract)?;
    let held = &row_slots(ledger)[..checked.held];
    let slots = &held[places_of_contract(held, contract)];
    let mut kwh = 0;
    let mut due = 0;
    for row in slots.iter().map(Row::unpack) {
        kwh += row.bill.kwh;
        due += row.amount;
    }
    Ok([slots.len() as i64, kwh, due])
}

/// total: answers due, and due minus 10,000 times the pence claimed. It changes no byte.
pub fn total(ledger: &[u8]) -> Result<[i64; 3], u32> {
    let checked = check(ledger)?;
    let claimed = TICKS_PER_PENNY * checked.header.pence;
    Ok([checked.due, checked.due - claimed, 0])
}

/// day: answers the day number of a date.
pub fn day(year: u32, month: u32, day: u32) -> Result<[i64; 3], u32> {
    let number = calendar::day_number((year, month, day)).ok_or(WRONG_DAY)?;
    Ok([number as i64, 0, 0])
}

/// date: answers year, month and day of a day number.
pub fn date(day_number: u32) -> Result<[i64; 3], u32> {
    let (year, month, day) = calendar::date_of(day_number).ok_or(WRONG_DAY)?;
    Ok([i64::from(year), i64::from(month), i64::from(day)])
}
