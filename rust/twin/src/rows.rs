//! Held rows found by their order, which is ascending by contract, then first day (document 01,
//! section on the packed ledger).

use std::ops::Range;

use crate::bills::BillNumbers;
use crate::packed::{Row, RowSlot};
use crate::refusals::{NO_SUCH_ROW, SHARED_DAY};

/// The place of the row with that contract and first day, or number 9.
pub fn place_of(held: &[RowSlot], contract: u32, first: u32) -> Result<usize, u32> {
    held.binary_search_by_key(&(contract, first), Row::sort_key)
        .map_err(|_| NO_SUCH_ROW)
}

/// The place of a new row, or number 10 where a row of the contract shares a day with it.
pub fn new_place(held: &[RowSlot], numbers: BillNumbers) -> Result<usize, u32> {
    let key = (numbers.contract, numbers.first);
    let place = held.partition_point(|slot| Row::sort_key(slot) < key);
    let before = held[..place].last().map(|slot| Row::unpack(slot).bill);
    let ends_within =
        before.is_some_and(|bill| bill.contract == numbers.contract && bill.last >= numbers.first);
    if ends_within || begins_within(held.get(place), numbers) {
        return Err(SHARED_DAY);
    }
    Ok(place)
}

/// Whether a slot that follows the row of a bill holds a row of the same contract that begins on
/// or before the bill's last day.
pub fn begins_within(slot: Option<&RowSlot>, numbers: BillNumbers) -> bool {
    slot.map(Row::sort_key)
        .is_some_and(|(contract, first)| contract == numbers.contract && first <= numbers.last)
}

/// Whether a row of the contract ends after that day: its last row does if any does.
pub fn ends_after(held: &[RowSlot], contract: u32, day: u32) -> bool {
    let last = held[places_of_contract(held, contract)].last();
    last.is_some_and(|slot| Row::unpack(slot).bill.last > day)
}

/// The places of a contract's rows.
pub fn places_of_contract(held: &[RowSlot], contract: u32) -> Range<usize> {
    let begin = held.partition_point(|slot| Row::sort_key(slot).0 < contract);
    let end = held.partition_point(|slot| Row::sort_key(slot).0 <= contract);
    begin..end
}
