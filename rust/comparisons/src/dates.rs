//! Every day number and every date, with numbers around them that are none, through the
//! program and the library (document 01, section "Days").

use crate::compared_calls::compare_answers;
use crate::counts::Findings;
use crate::program_sessions::compare_session;
use calculator::calls;

/// Numbers that are far from any date.
const FAR_NUMBERS: [u32; 5] = [0, 1, 100, 1 << 31, u32::MAX];

/// Compares all of them through the program and the library.
pub fn compare(findings: &mut Findings) {
    let day_numbers: Vec<u32> = (0..=1_100).chain(FAR_NUMBERS).collect();
    let dates = dates();
    compare_session(findings, "day numbers", "all", &date_lines(&day_numbers));
    compare_session(findings, "dates", "all", &day_lines(&dates));
    for number in day_numbers {
        let outcome = calls::date(number);
        compare_answers(findings, "date", &[number], &outcome, |implementation| {
            (implementation.date)(number)
        });
    }
    for [year, month, day] in dates {
        let outcome = calls::day(year, month, day);
        compare_answers(
            findings,
            "day",
            &[year, month, day],
            &outcome,
            |implementation| (implementation.day)(year, month, day),
        );
    }
}

/// Six years around the table with months and days that they don't have, and far numbers.
fn dates() -> Vec<[u32; 3]> {
    let mut dates = Vec::new();
    for year in 2020..=2025 {
        for month in 0..=14 {
            dates.extend((0..=33).map(|day| [year, month, day]));
        }
    }
    for far in FAR_NUMBERS {
        dates.extend([[far, 4, 1], [2023, far, 1], [2023, 4, far], [far; 3]]);
    }
    dates
}

fn date_lines(day_numbers: &[u32]) -> Vec<u8> {
    let lines = day_numbers.iter().map(|number| format!("date {number}\n"));
    lines.collect::<String>().into_bytes()
}

fn day_lines(dates: &[[u32; 3]]) -> Vec<u8> {
    let line = |[year, month, day]: &[u32; 3]| format!("day {year} {month} {day}\n");
    dates.iter().map(line).collect::<String>().into_bytes()
}
