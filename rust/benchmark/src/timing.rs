//! Times of two ways to do the same, taken in turn, so that what slows the computer down for a
//! while slows both.

use std::time::Duration;

/// The times of the two ways.
pub struct Comparison {
    pub first: Times,
    second: Times,
    /// The median of the turns' ratios: the first's time in units of the second's.
    ratio: f64,
}

/// The times of one way.
pub struct Times {
    /// The median in nanoseconds.
    pub median: f64,
    /// The distance of the quartiles in percent of the median.
    spread: f64,
}

impl Comparison {
    /// Times two ways in turn, as often as `turns` says. One turn before them isn't counted.
    pub fn of<W: Copy>(turns: usize, ways: [W; 2], mut time: impl FnMut(W) -> Duration) -> Self {
        let mut nanoseconds = |way| time(way).as_nanos() as f64;
        let taken = (0..=turns).map(|_| (nanoseconds(ways[0]), nanoseconds(ways[1])));
        let (first, second): (Vec<f64>, Vec<f64>) = taken.skip(1).unzip();
        let ratios = first
            .iter()
            .zip(&second)
            .map(|(first, second)| first / second);
        Comparison {
            ratio: quartiles(ratios.collect())[1],
            first: Times::of(first),
            second: Times::of(second),
        }
    }

    /// The nanoseconds by which the second's median is above the first's.
    pub fn difference(&self) -> f64 {
        self.second.median - self.first.median
    }

    /// Five columns of a Markdown table: the median and spread of the first, those of the second,
    /// and the ratio. The medians are in a unit of so many nanoseconds.
    pub fn columns(&self, unit: f64, decimals: usize) -> String {
        let Comparison {
            first,
            second,
            ratio,
        } = self;
        format!(
            "{:.decimals$} | {:.0}% | {:.decimals$} | {:.0}% | {ratio:.2}",
            first.median / unit,
            first.spread,
            second.median / unit,
            second.spread
        )
    }
}

impl Times {
    fn of(nanoseconds: Vec<f64>) -> Times {
        let [lower, median, upper] = quartiles(nanoseconds);
        Times {
            median,
            spread: 100.0 * (upper - lower) / median,
        }
    }
}

/// The three quartiles of numbers; the second is the median.
fn quartiles(mut numbers: Vec<f64>) -> [f64; 3] {
    numbers.sort_unstable_by(f64::total_cmp);
    [1, 2, 3].map(|number| numbers[numbers.len() * number / 4])
}
