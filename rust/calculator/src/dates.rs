//! Day numbers from 1 December 2021 to 31 March 2024, computed from the calendar's rules.
//!
//! Day 0 is the earliest price-fix date that earns a discount (guidance, section 3.4,
//! "Calculation of Discount for Fixed Price Contracts") and day 851 is the scheme's last
//! day (section 1.6). The numbering is document 01's, section "Days".

/// The day that has number 0.
const FIRST_DATE: Date = Date {
    year: 2021,
    month: 12,
    day: 1,
};

/// The number of 31 March 2024, the scheme's last day.
pub const LAST_DAY: u32 = 851;

/// April 2023 counted in months from year 0: the month of the Scheme Start Date
/// (guidance, section 1.6).
const FIRST_SCHEME_MONTH: u32 = 12 * 2023 + 4;

/// A date of the Gregorian calendar; January is month 1.
#[derive(Clone, Copy, Debug, PartialEq, Eq)]
pub struct Date {
    pub year: u32,
    pub month: u32,
    pub day: u32,
}

/// The day number of a date, or `None` for numbers that are no date and for dates before
/// 1 December 2021 or after 31 March 2024.
pub fn day_number(year: u32, month: u32, day: u32) -> Option<u32> {
    let date = Date { year, month, day };
    if !is_calendar_date(date) {
        return None;
    }
    let number = ordinal(date).checked_sub(ordinal(FIRST_DATE))?;
    u32::try_from(number)
        .ok()
        .filter(|&number| number <= LAST_DAY)
}

/// The date that has a day number, or `None` for a number above 851.
pub fn date_of(day_number: u32) -> Option<Date> {
    if day_number > LAST_DAY {
        return None;
    }
    let Date {
        mut year,
        mut month,
        ..
    } = FIRST_DATE;
    let mut days_left = day_number;
    while days_left >= days_in_month(year, month) {
        days_left -= days_in_month(year, month);
        if month == 12 {
            (year, month) = (year + 1, 1);
        } else {
            month += 1;
        }
    }
    Some(Date {
        year,
        month,
        day: days_left + 1,
    })
}

/// The scheme month of a day, 0 for April 2023 to 11 for March 2024, or `None` for a day
/// outside the scheme.
pub fn scheme_month(day_number: u32) -> Option<u32> {
    let date = date_of(day_number)?;
    (12 * date.year + date.month).checked_sub(FIRST_SCHEME_MONTH)
}

/// Every fourth year is a leap year, but of the centuries only every fourth.
fn is_leap_year(year: u32) -> bool {
    year.is_multiple_of(4) && (!year.is_multiple_of(100) || year.is_multiple_of(400))
}

/// The length of a month, 1 to 12.
fn days_in_month(year: u32, month: u32) -> u32 {
    match month {
        2 if is_leap_year(year) => 29,
        2 => 28,
        4 | 6 | 9 | 11 => 30,
        _ => 31,
    }
}

/// Whether the calendar, counted from 1 January of year 1, has this date.
fn is_calendar_date(date: Date) -> bool {
    date.year >= 1
        && (1..=12).contains(&date.month)
        && (1..=days_in_month(date.year, date.month)).contains(&date.day)
}

/// The number of a date in the count that gives 1 to 1 January of year 1.
fn ordinal(date: Date) -> u64 {
    let whole_years = u64::from(date.year - 1);
    let leap_days = whole_years / 4 - whole_years / 100 + whole_years / 400;
    let whole_months: u32 = (1..date.month)
        .map(|month| days_in_month(date.year, month))
        .sum();
    365 * whole_years + leap_days + u64::from(whole_months) + u64::from(date.day)
}

#[cfg(test)]
mod tests {
    use super::{ordinal, Date};

    /// Days after leap years and after a century with and without a leap day.
    #[test]
    fn ordinals_count_leap_days() {
        let table = [
            ((1, 1, 1), 1),
            ((1900, 3, 1), 693_655),
            ((1970, 1, 1), 719_163),
            ((2000, 3, 1), 730_180),
            ((2025, 1, 1), 739_252),
        ];
        for ((year, month, day), expected) in table {
            assert_eq!(ordinal(Date { year, month, day }), expected);
        }
    }
}
