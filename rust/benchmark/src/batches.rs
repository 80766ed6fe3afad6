//! Calls timed in batches, each on a fresh copy of a ledger.

use std::hint::black_box;
use std::time::{Duration, Instant};

use crate::calls::Answer;
use crate::timing::Comparison;

/// How many calls a batch times.
pub const BATCH: usize = 16;

/// How many batches are timed of each of two ways.
pub const BATCHES: usize = 400;

/// The times of the proved call and of the twin's on a ledger.
pub fn compare_calls<C>(calls: [C; 2], ledger: &[u8], book: &[u32]) -> Comparison
where
    C: Fn(&mut [u8], &[u32]) -> Answer + Copy,
{
    let mut copies = vec![ledger.to_vec(); BATCH];
    Comparison::of(BATCHES, calls, |call| {
        time_batch(call, ledger, book, &mut copies)
    })
}

/// The times of a call on two ledgers.
pub fn compare_ledgers<C>(call: C, ledgers: [&[u8]; 2], book: &[u32]) -> Comparison
where
    C: Fn(&mut [u8], &[u32]) -> Answer + Copy,
{
    let mut copies = vec![ledgers[0].to_vec(); BATCH];
    Comparison::of(BATCHES, ledgers, |ledger| {
        time_batch(call, ledger, book, &mut copies)
    })
}

/// The answer, after which the proved call and the twin's must have left the same bytes.
pub fn answer_of_both<C>(calls: [C; 2], ledger: &[u8], book: &[u32]) -> Answer
where
    C: Fn(&mut [u8], &[u32]) -> Answer,
{
    let [proved, twin] = calls;
    let mut proved_ledger = ledger.to_vec();
    let mut twin_ledger = ledger.to_vec();
    let answer = twin(&mut twin_ledger, book);
    assert_eq!(proved(&mut proved_ledger, book), answer, "the same answer");
    assert!(proved_ledger == twin_ledger, "the same bytes");
    answer
}

/// The time of a call on each copy of the ledger. Most calls change the ledger; so the copies are
/// made anew before the clock starts, and what is timed is calls alone.
fn time_batch<C>(call: C, ledger: &[u8], book: &[u32], copies: &mut [Vec<u8>]) -> Duration
where
    C: Fn(&mut [u8], &[u32]) -> Answer,
{
    for copy in copies.iter_mut() {
        copy.copy_from_slice(ledger);
    }
    let began = Instant::now();
    for copy in copies {
        let _ = black_box(call(black_box(copy), black_box(book)));
    }
    began.elapsed()
}
