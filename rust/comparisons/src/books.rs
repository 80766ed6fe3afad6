//! Random price books, each for one bill or rebill.

use crate::generator::random_price;
use crate::random::Random;
use calculator::book::BOOK_ENTRIES;
use calculator::calls::Call;

/// Lengths that aren't a book's.
const WRONG_LENGTHS: [usize; 5] = [0, 1, 1_739, 1_741, 3_480];

/// Prices that no entry may have.
const HIGH_PRICES: [u32; 3] = [1_000_000, 1 << 20, u32::MAX];

/// The book that a call brings: random prices, at times zeros, a wrong length or a price that
/// is too high. Calls other than bill and rebill bring none.
pub fn random_book(random: &mut Random, call: &Call) -> Vec<u32> {
    if !matches!(call, Call::Bill(_) | Call::Rebill(_)) {
        return Vec::new();
    }
    match random.below(40) {
        0 => {
            let length = random.one_of(&WRONG_LENGTHS);
            random_prices(random, length)
        }
        1 => {
            let mut book = random_prices(random, BOOK_ENTRIES);
            book[random.below(BOOK_ENTRIES)] = random.one_of(&HIGH_PRICES);
            book
        }
        2 | 3 => vec![0; BOOK_ENTRIES],
        _ => random_prices(random, BOOK_ENTRIES),
    }
}

fn random_prices(random: &mut Random, count: usize) -> Vec<u32> {
    (0..count).map(|_| random_price(random)).collect()
}
