//! The scheme's months by their days (document 01, section "Days").

use calculator::dates::{scheme_month, LAST_DAY};

/// The last day of the month of a day of the scheme.
pub fn month_end(day: u32) -> u32 {
    let same_month = |later: &u32| scheme_month(*later) == scheme_month(day);
    let days = (day..=LAST_DAY).take_while(same_month);
    days.last().expect("the day is in the scheme")
}

/// How many months a span touches.
pub fn months_touched((first_day, last_day): (u32, u32)) -> u32 {
    let month = |day| scheme_month(day).expect("the day is in the scheme");
    month(last_day) - month(first_day) + 1
}

#[cfg(test)]
mod tests {
    use super::{month_end, months_touched};

    /// The first days of the scheme's months, and of the month after the last.
    const FIRST_DAYS: [u32; 13] = [
        486, 516, 547, 577, 608, 639, 669, 700, 730, 761, 792, 821, 852,
    ];

    #[test]
    fn every_day_has_the_last_day_of_its_month() {
        for days in FIRST_DAYS.windows(2) {
            for day in days[0]..days[1] {
                assert_eq!(month_end(day), days[1] - 1, "{day}");
            }
        }
    }

    #[test]
    fn the_first_and_the_last_month_of_a_span_are_counted() {
        for (span, months) in [
            ((486, 486), 1),
            ((486, 515), 1),
            ((515, 516), 2),
            ((486, 546), 2),
            ((515, 547), 3),
            ((486, 576), 3),
            ((486, 851), 12),
        ] {
            assert_eq!(months_touched(span), months, "{span:?}");
        }
    }
}
