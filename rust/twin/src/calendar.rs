//! Day numbers and dates (document 01, section "Days").

/// How many day numbers there are: 0 for 1 December 2021 to 851 for 31 March 2024.
const DAY_COUNT: usize = 852;

/// April 2023, which is scheme month 0, in months counted from year 0.
const FIRST_MONTH: u32 = 12 * 2023 + 4;

/// Year, month and day; an earlier date compares as less.
pub type Date = (u32, u32, u32);

/// The date of each day number.
static DATES: [Date; DAY_COUNT] = dates();

const fn dates() -> [Date; DAY_COUNT] {
    let mut dates = [(2021, 12, 1); DAY_COUNT];
    let mut day = 1;
    while day < DAY_COUNT {
        dates[day] = day_after(dates[day - 1]);
        day += 1;
    }
    dates
}

const fn day_after((year, month, day): Date) -> Date {
    if day < month_length(year, month) {
        (year, month, day + 1)
    } else if month < 12 {
        (year, month + 1, 1)
    } else {
        (year + 1, 1, 1)
    }
}

/// The length of a month of the years 2021 to 2024, of which one is a leap year.
const fn month_length(year: u32, month: u32) -> u32 {
    match month {
        2 if year == 2024 => 29,
        2 => 28,
        4 | 6 | 9 | 11 => 30,
        _ => 31,
    }
}

/// The day number of a date, or `None` for a date that isn't in the table.
pub fn day_number(date: Date) -> Option<usize> {
    DATES.binary_search(&date).ok()
}

/// The date of a day number, or `None` for one above 851.
pub fn date_of(day_number: u32) -> Option<Date> {
    DATES.get(day_number as usize).copied()
}

/// The scheme month of a day from 486 to 851.
pub fn scheme_month(day_number: u32) -> usize {
    let (year, month, _) = DATES[day_number as usize];
    (12 * year + month - FIRST_MONTH) as usize
}
