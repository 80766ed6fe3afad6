//! The calls of document 01 (section "Calls") and of document 02, on bytes of any length and with
//! any numbers.
//!
//! A call answers three numbers in document 01's order, unused ones 0. A call that is turned
//! down changes no byte.
//!
//! # Panics
//!
//! A call panics if the library breaks what its header says: it gives a refusal that the header
//! doesn't list, or numbers beside a refusal.
//!
//! # Safety
//!
//! All `unsafe` of this package stands here. The declarations are those of include/ebds.h. The
//! library reads and writes within the lengths given and keeps no pointer, for it is proved for
//! all lengths and contents. It asks that pointers be aligned, not null even for a length of 0,
//! and point to memory that doesn't overlap and that nobody else writes: the pointers of Rust's
//! slices are aligned and not null, and the borrows of a `&mut` slice, of a `&` slice and of the
//! local answer overlap in nothing.

use crate::{BillNumbers, Refusal};

extern "C" {
    fn ebds_start(ledger: *mut u8, ledger_length: usize, territory: u32, answer: *mut i64) -> u32;
    fn ebds_open(
        ledger: *mut u8,
        ledger_length: usize,
        contract: u32,
        fuel: u32,
        kind: u32,
        price_fix_day: u32,
        entry_day: u32,
        answer: *mut i64,
    ) -> u32;
    fn ebds_bill(
        ledger: *mut u8,
        ledger_length: usize,
        book: *const u32,
        book_length: usize,
        contract: u32,
        first: u32,
        last: u32,
        kwh: u32,
        supply: u32,
        wap: u32,
        etii_share: u32,
        qhs_share: u32,
        answer: *mut i64,
    ) -> u32;
    fn ebds_rebill(
        ledger: *mut u8,
        ledger_length: usize,
        book: *const u32,
        book_length: usize,
        contract: u32,
        first: u32,
        last: u32,
        kwh: u32,
        supply: u32,
        wap: u32,
        etii_share: u32,
        qhs_share: u32,
        answer: *mut i64,
    ) -> u32;
    fn ebds_cert(
        ledger: *mut u8,
        ledger_length: usize,
        contract: u32,
        certificate_class: u32,
        effective_day: u32,
        answer: *mut i64,
    ) -> u32;
    fn ebds_cancel(
        ledger: *mut u8,
        ledger_length: usize,
        contract: u32,
        first: u32,
        answer: *mut i64,
    ) -> u32;
    fn ebds_claim(ledger: *mut u8, ledger_length: usize, answer: *mut i64) -> u32;
    fn ebds_report(ledger: *const u8, ledger_length: usize, contract: u32, answer: *mut i64)
        -> u32;
    fn ebds_total(ledger: *const u8, ledger_length: usize, answer: *mut i64) -> u32;
    fn ebds_amend(
        ledger: *mut u8,
        ledger_length: usize,
        contract: u32,
        original_end_day: u32,
        price_fix_day: u32,
        entry_day: u32,
        answer: *mut i64,
    ) -> u32;
    fn ebds_day(year: u32, month: u32, day: u32, answer: *mut i64) -> u32;
    fn ebds_date(day_number: u32, answer: *mut i64) -> u32;
}

/// `ebds_bill` and `ebds_rebill`, which take the same.
type BillCall = unsafe extern "C" fn(
    *mut u8,
    usize,
    *const u32,
    usize,
    u32,
    u32,
    u32,
    u32,
    u32,
    u32,
    u32,
    u32,
    *mut i64,
) -> u32;

/// What a call answers: its numbers, or what turns it down.
type Answer = Result<[i64; 3], Refusal>;

/// What a call of the library answers. The numbers are none of the library's before the call, so
/// that one that it doesn't write is seen.
fn answer(call: impl FnOnce(*mut i64) -> u32) -> Answer {
    let mut numbers = [i64::MIN; 3];
    let number = call(numbers.as_mut_ptr());
    if number == 0 {
        return Ok(numbers);
    }
    assert_eq!(numbers, [0; 3], "numbers beside refusal {number}");
    Err(Refusal::from_number(number).expect("a refusal that the header lists"))
}

/// start: a fresh ledger over bytes of any contents. Answers no numbers.
pub fn start(ledger: &mut [u8], territory: u32) -> Answer {
    answer(|answer| unsafe { ebds_start(ledger.as_mut_ptr(), ledger.len(), territory, answer) })
}

/// open: an unamended contract without a certificate; the two days are 0 unless fixed. Answers no numbers.
pub fn open(
    ledger: &mut [u8],
    contract: u32,
    fuel: u32,
    kind: u32,
    price_fix_day: u32,
    entry_day: u32,
) -> Answer {
    answer(|answer| unsafe {
        ebds_open(
            ledger.as_mut_ptr(),
            ledger.len(),
            contract,
            fuel,
            kind,
            price_fix_day,
            entry_day,
            answer,
        )
    })
}

/// bill: adds a row. Answers R, rate and amount.
pub fn bill(ledger: &mut [u8], book: &[u32], numbers: BillNumbers) -> Answer {
    give_bill(ebds_bill, ledger, book, numbers)
}

/// rebill: puts a row in place of the one with that contract and first day. Answers R, rate and
/// the new amount minus the old.
pub fn rebill(ledger: &mut [u8], book: &[u32], numbers: BillNumbers) -> Answer {
    give_bill(ebds_rebill, ledger, book, numbers)
}

/// Gives a bill's numbers to `ebds_bill` or `ebds_rebill`.
fn give_bill(call: BillCall, ledger: &mut [u8], book: &[u32], numbers: BillNumbers) -> Answer {
    answer(|answer| unsafe {
        call(
            ledger.as_mut_ptr(),
            ledger.len(),
            book.as_ptr(),
            book.len(),
            numbers.contract,
            numbers.first,
            numbers.last,
            numbers.kwh,
            numbers.supply,
            numbers.wap,
            numbers.etii_share,
            numbers.qhs_share,
            answer,
        )
    })
}

/// cert: replaces the contract's certificate and re-rates its rows. Answers the net change and
/// the count of rows whose amount changed.
pub fn cert(ledger: &mut [u8], contract: u32, class: u32, effective_day: u32) -> Answer {
    answer(|answer| unsafe {
        ebds_cert(
            ledger.as_mut_ptr(),
            ledger.len(),
            contract,
            class,
            effective_day,
            answer,
        )
    })
}

/// cancel: removes the row with that contract and first day. Answers minus its amount.
pub fn cancel(ledger: &mut [u8], contract: u32, first: u32) -> Answer {
    answer(|answer| unsafe {
        ebds_cancel(ledger.as_mut_ptr(), ledger.len(), contract, first, answer)
    })
}

/// claim: answers floor(due / 10,000) minus the pence claimed before, and due modulo 10,000.
pub fn claim(ledger: &mut [u8]) -> Answer {
    answer(|answer| unsafe { ebds_claim(ledger.as_mut_ptr(), ledger.len(), answer) })
}

/// report: answers rows, kWh and due of the contract. It changes no byte.
pub fn report(ledger: &[u8], contract: u32) -> Answer {
    answer(|answer| unsafe { ebds_report(ledger.as_ptr(), ledger.len(), contract, answer) })
}

/// total: answers due, and due minus 10,000 times the pence claimed. It changes no byte.
pub fn total(ledger: &[u8]) -> Answer {
    answer(|answer| unsafe { ebds_total(ledger.as_ptr(), ledger.len(), answer) })
}

/// amend: gives a fixed contract its amendment: bills that start after the original end take these
/// price-fix and entry days. It alters no row. Answers no numbers.
pub fn amend(
    ledger: &mut [u8],
    contract: u32,
    original_end_day: u32,
    price_fix_day: u32,
    entry_day: u32,
) -> Answer {
    answer(|answer| unsafe {
        ebds_amend(
            ledger.as_mut_ptr(),
            ledger.len(),
            contract,
            original_end_day,
            price_fix_day,
            entry_day,
            answer,
        )
    })
}

/// day: answers the day number of a date.
pub fn day(year: u32, month: u32, day: u32) -> Answer {
    answer(|answer| unsafe { ebds_day(year, month, day, answer) })
}

/// date: answers year, month and day of a day number.
pub fn date(day_number: u32) -> Answer {
    answer(|answer| unsafe { ebds_date(day_number, answer) })
}
