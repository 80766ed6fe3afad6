//! Day numbers: every day of the range, the landmarks, scheme months and refused dates.

use calculator::dates::{date_of, day_number, scheme_month, Date, LAST_DAY};

/// The months from December 2021 to March 2024 with their lengths, written out.
const MONTHS: [(u32, u32, u32); 28] = [
    (2021, 12, 31),
    (2022, 1, 31),
    (2022, 2, 28),
    (2022, 3, 31),
    (2022, 4, 30),
    (2022, 5, 31),
    (2022, 6, 30),
    (2022, 7, 31),
    (2022, 8, 31),
    (2022, 9, 30),
    (2022, 10, 31),
    (2022, 11, 30),
    (2022, 12, 31),
    (2023, 1, 31),
    (2023, 2, 28),
    (2023, 3, 31),
    (2023, 4, 30),
    (2023, 5, 31),
    (2023, 6, 30),
    (2023, 7, 31),
    (2023, 8, 31),
    (2023, 9, 30),
    (2023, 10, 31),
    (2023, 11, 30),
    (2023, 12, 31),
    (2024, 1, 31),
    (2024, 2, 29),
    (2024, 3, 31),
];

#[test]
fn every_date_of_the_written_months_has_the_next_day_number() {
    let mut expected = 0;
    for (year, month, length) in MONTHS {
        for day in 1..=length {
            assert_eq!(day_number(year, month, day), Some(expected));
            assert_eq!(date_of(expected), Some(Date { year, month, day }));
            expected += 1;
        }
    }
    assert_eq!(expected, 852);
}

#[test]
fn every_day_number_returns_through_its_date() {
    for number in 0..=LAST_DAY {
        let date = date_of(number).expect("a day number up to 851 has a date");
        assert_eq!(day_number(date.year, date.month, date.day), Some(number));
    }
}

#[test]
fn no_other_numbers_are_dates_of_the_range() {
    let mut accepted = 0;
    for year in 2019..=2026 {
        for month in 0..=14 {
            for day in 0..=33 {
                accepted += u32::from(day_number(year, month, day).is_some());
            }
        }
    }
    assert_eq!(accepted, 852);
}

#[test]
fn landmarks_have_document_01_numbers() {
    assert_eq!(day_number(2021, 12, 1), Some(0));
    assert_eq!(day_number(2023, 4, 1), Some(486));
    assert_eq!(day_number(2023, 4, 26), Some(511));
    assert_eq!(day_number(2024, 2, 1), Some(792));
    assert_eq!(day_number(2024, 2, 29), Some(820));
    assert_eq!(day_number(2024, 3, 31), Some(851));
}

#[test]
fn neighbours_of_the_range_are_refused() {
    assert_eq!(day_number(2021, 11, 30), None);
    assert_eq!(day_number(2024, 4, 1), None);
    assert_eq!(date_of(852), None);
    assert_eq!(date_of(u32::MAX), None);
}

#[test]
fn numbers_that_are_no_date_are_refused() {
    assert_eq!(day_number(2023, 2, 29), None);
    assert_eq!(day_number(2024, 2, 30), None);
    assert_eq!(day_number(2023, 4, 31), None);
    assert_eq!(day_number(2023, 12, 32), None);
    assert_eq!(day_number(2023, 0, 1), None);
    assert_eq!(day_number(2023, 13, 1), None);
    assert_eq!(day_number(2023, 1, 0), None);
    assert_eq!(day_number(0, 0, 0), None);
    assert_eq!(day_number(0, 12, 1), None);
}

#[test]
fn the_largest_numbers_are_refused() {
    assert_eq!(day_number(u32::MAX, 12, 31), None);
    assert_eq!(day_number(2023, u32::MAX, 1), None);
    assert_eq!(day_number(2023, 4, u32::MAX), None);
    assert_eq!(day_number(u32::MAX, u32::MAX, u32::MAX), None);
}

#[test]
fn scheme_months_follow_the_calendar_from_april_2023() {
    let scheme_months = &MONTHS[16..];
    assert_eq!(scheme_months.len(), 12);
    let mut number = 486;
    for (index, &(_, _, length)) in (0..).zip(scheme_months) {
        for _ in 0..length {
            assert_eq!(scheme_month(number), Some(index));
            number += 1;
        }
    }
    assert_eq!(number, 852);
}

#[test]
fn days_outside_the_scheme_have_no_scheme_month() {
    for number in 0..486 {
        assert_eq!(scheme_month(number), None);
    }
    assert_eq!(scheme_month(852), None);
    assert_eq!(scheme_month(u32::MAX), None);
}
