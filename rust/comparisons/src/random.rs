//! Random numbers that are the same whenever the seed is the same.

use std::ops::RangeInclusive;

/// What is added to the state for each number (the splitmix64 generator).
const INCREMENT: u64 = 0x9E37_79B9_7F4A_7C15;

/// A source of random numbers.
pub struct Random {
    state: u64,
}

impl Random {
    /// The source of one part of the comparisons, by its name and number, so that the part
    /// doesn't depend on the parts before it.
    pub fn new(seed: u64, part: &str, number: u64) -> Random {
        let mut random = Random { state: seed };
        for word in part.bytes().map(u64::from).chain([number]) {
            random.state = random.number() ^ word;
        }
        random
    }

    /// A number of 64 bits.
    pub fn number(&mut self) -> u64 {
        self.state = self.state.wrapping_add(INCREMENT);
        let mut mixed = self.state;
        mixed = (mixed ^ (mixed >> 30)).wrapping_mul(0xBF58_476D_1CE4_E5B9);
        mixed = (mixed ^ (mixed >> 27)).wrapping_mul(0x94D0_49BB_1331_11EB);
        mixed ^ (mixed >> 31)
    }

    /// A number below the limit, which isn't 0.
    pub fn below(&mut self, limit: usize) -> usize {
        (self.number() % limit as u64) as usize
    }

    /// A number of the range.
    pub fn within(&mut self, range: RangeInclusive<u32>) -> u32 {
        let count = range.end() - range.start() + 1;
        range.start() + self.below(count as usize) as u32
    }

    /// True once in that many times.
    pub fn once_in(&mut self, times: usize) -> bool {
        self.below(times) == 0
    }

    /// One of the items, of which there is at least one.
    pub fn one_of<T: Copy>(&mut self, items: &[T]) -> T {
        items[self.below(items.len())]
    }

    /// One of the items, but none once in that many times, and where there is none.
    pub fn mostly_one_of<T: Copy>(&mut self, items: &[T], none_once_in: usize) -> Option<T> {
        let none = items.is_empty() || self.once_in(none_once_in);
        (!none).then(|| self.one_of(items))
    }

    /// One of the items, drawn by weight.
    pub fn weighted<T: Copy>(&mut self, items: &[(usize, T)]) -> T {
        let all = items.iter().map(|(weight, _)| weight).sum();
        let mut rest = self.below(all);
        for &(weight, item) in items {
            if rest < weight {
                return item;
            }
            rest -= weight;
        }
        unreachable!("the rest is below the sum of the weights")
    }
}

#[cfg(test)]
mod tests {
    use super::Random;

    #[test]
    fn the_numbers_are_those_of_splitmix64() {
        let mut random = Random { state: 0 };
        assert_eq!(random.number(), 0xE220_A839_7B1D_CDAF);
        assert_eq!(random.number(), 0x6E78_9E6A_A1B9_65F4);
    }

    #[test]
    fn a_part_has_its_own_numbers_and_the_same_every_time() {
        let first = |seed, part, number| Random::new(seed, part, number).number();
        assert_eq!(first(1, "sessions", 2), first(1, "sessions", 2));
        assert_ne!(first(1, "sessions", 2), first(1, "sessions", 3));
        assert_ne!(first(1, "sessions", 2), first(1, "histories", 2));
        assert_ne!(first(1, "sessions", 2), first(2, "sessions", 2));
    }

    #[test]
    fn every_number_of_a_range_and_every_weighted_item_is_drawn() {
        let mut random = Random::new(1, "ranges", 0);
        let mut drawn = [false; 3];
        let mut items = [0; 3];
        for _ in 0..600 {
            drawn[random.within(5..=7) as usize - 5] = true;
            items[random.weighted(&[(1, 0), (0, 1), (4, 2)])] += 1;
        }
        assert_eq!(drawn, [true; 3]);
        assert!(items[0] > 0 && items[1] == 0 && items[2] > items[0]);
    }
}
