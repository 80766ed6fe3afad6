//! Document 01, "Turned down, in checking order", with document 02, papers 1, 2, 5 and 6, and their numbers 14 to 18: each number that
//! the program can meet, and for each pair of neighbouring tests a line that fails both, which the earlier test turns down. The program's
//! own ledger and book never meet numbers 2 and 3; the tests of the package `ebds` do.

use program::{expect, expect_lines};

/// Contract 0 flexible electricity, with a bill of days 486 to 515; contract 1 variable gas, with no price published.
const OPENED: &str = "open 0 0 2 0 0\nbill 0 486 515 1 1 1 0 0\nopen 1 1 1 0 0\n";

/// The line printed last, after the lines of `OPENED`.
fn refused_after_opening(line: &str, number: u32) {
    let last = format!("refused {number}");
    expect(
        format!("{OPENED}{line}\n").as_bytes(),
        &["ok", "ok 1 0 0", "ok", &last],
    );
}

/// Each line is turned down with the number.
fn refused(number: u32, lines: &[&str]) {
    for line in lines {
        refused_after_opening(line, number);
    }
}

#[test]
fn number_1_a_line_that_cannot_be_read() {
    refused(
        1,
        &[
            "",
            "bills",
            "Total",
            "total 0",
            "report",
            "report 01",
            "report +1",
            "report -1",
            "report  1",
            "report 1 ",
            " report 1",
        ],
    );
}

/// A bill and a rebill of six, seven and nine numbers, and with shares that can't be read.
#[test]
fn number_1_the_shares_of_a_bill() {
    for call in ["bill 0 600 600 1 1 1", "rebill 0 486 515 1 1 1"] {
        for end in [
            "",
            " 0",
            " 0 0 0",
            " 0 0 ",
            " 0  0",
            " 0 00",
            " 0 4294967296",
            " 4294967296 0",
        ] {
            refused_after_opening(&format!("{call}{end}"), 1);
        }
    }
}

/// An amend of none, three and five numbers, and with a day that can't be read.
#[test]
fn number_1_the_numbers_of_an_amendment() {
    refused(
        1,
        &[
            "amend",
            "amend 0",
            "amend 0 668 540",
            "amend 0 668 540 545 0",
            "amend 0 668 540 545 ",
            "amend 0 668  540 545",
            "amend 0 668 540 0545",
            "amend 0 668 540 -1",
            "amend 0 4294967296 540 545",
            "amend 0 668 4294967296 545",
            "amend 0 668 540 4294967296",
            "Amend 0 668 540 545",
            "amends 0 668 540 545",
        ],
    );
}

#[test]
fn number_4_the_contract_number() {
    refused(
        4,
        &[
            "open 64 0 2 0 0",
            "bill 64 600 600 1 1 1 0 0",
            "rebill 64 486 515 1 1 1 0 0",
            "cert 64 1 486",
            "cancel 64 486",
            "report 64",
            "amend 64 668 540 545",
            "amend 4294967295 668 540 545",
        ],
    );
}

#[test]
fn number_5_open_already_or_not_open() {
    refused(
        5,
        &[
            "open 0 0 2 0 0",
            "bill 63 600 600 1 1 1 0 0",
            "rebill 63 486 515 1 1 1 0 0",
            "cert 63 1 486",
            "cancel 63 486",
            "report 63",
            "amend 63 668 540 545",
        ],
    );
}

/// Flexible, variable and index contracts, and an amended one.
#[test]
fn number_16_not_fixed_or_amended_already() {
    refused(16, &["amend 0 668 540 545", "amend 1 668 540 545"]);
    expect_lines(&[
        "start 1: ok",
        "open 2 0 3 0 0: ok",
        "amend 2 668 540 545: refused 16",
        "open 3 0 0 300 290: ok",
        "amend 3 668 540 545: ok",
        "amend 3 668 540 545: refused 16",
        "amend 3 851 0 0: refused 16",
        // a certificate leaves the amendment
        "cert 3 1 486: ok 0 0",
        "amend 3 668 540 545: refused 16",
        "cert 3 0 0: ok 0 0",
        "amend 3 668 540 545: refused 16",
    ]);
}

#[test]
fn number_6_codes() {
    refused(
        6,
        &[
            "start 2",
            "open 2 2 2 0 0",
            "open 2 0 4 0 0",
            "open 2 0 3 0 0",
            "cert 0 3 486",
        ],
    );
    expect(
        b"start 1\nopen 2 1 3 0 0\nopen 2 0 3 0 0\n",
        &["ok", "refused 6", "ok"],
    );
}

#[test]
fn number_7_days() {
    refused(
        7,
        &[
            "open 2 0 0 852 0",
            "open 2 0 0 0 852",
            "open 2 0 1 1 0",
            "open 2 0 2 0 1",
        ],
    );
    refused(
        7,
        &[
            "cert 0 1 485",
            "cert 0 1 852",
            "cert 0 2 510",
            "cert 0 2 852",
            "cert 0 0 486",
        ],
    );
    refused(
        7,
        &[
            "bill 0 485 600 1 1 1 0 0",
            "bill 0 601 600 1 1 1 0 0",
            "bill 0 600 852 1 1 1 0 0",
            "rebill 0 486 852 1 1 1 0 0",
        ],
    );
    refused(
        7,
        &[
            "day 2023 2 29",
            "day 2021 11 30",
            "day 2024 4 1",
            "day 2023 0 1",
            "date 852",
        ],
    );
}

/// The first days of the scheme months, and the day after the last.
const MONTHS: [u32; 13] = [
    486, 516, 547, 577, 608, 639, 669, 700, 730, 761, 792, 821, 852,
];

/// Northern Ireland, with every price of a month published; contract 1 is of that fuel and kind.
fn opened_with_prices(fuel: u32, kind: u32) -> String {
    let prices: String = (1_704..1_740)
        .map(|entry| format!("price {entry} 20000\n"))
        .collect();
    format!("start 1\n{prices}open 1 {fuel} {kind} 0 0\n")
}

/// What is printed last, for the last of these lines.
fn last_reply(lines: &str) -> String {
    let printed = String::from_utf8(program::printed(lines.as_bytes())).expect("ASCII");
    let reply = printed.lines().last();
    reply.expect("a line is printed").to_string()
}

/// Holds a span of contract 1, billed, and billed again in place of a row of its first day, to a number, 0 where both are taken.
fn expect_span(opened: &str, (first, last): (u32, u32), number: u32) {
    let numbers = |last| format!("1 {first} {last} 10 20000 0 0 0");
    let bill = format!("{opened}bill {}\n", numbers(last));
    let rebill = format!(
        "{opened}bill {}\nrebill {}\n",
        numbers(first),
        numbers(last)
    );
    for lines in [bill, rebill] {
        let reply = last_reply(&lines);
        let expected = match number {
            0 => reply.starts_with("ok "),
            _ => reply == format!("refused {number}"),
        };
        assert!(expected, "{first} to {last}, {number}: {reply}");
    }
}

#[test]
fn number_15_a_variable_or_index_span_of_two_months() {
    for (fuel, kind) in [(0, 1), (1, 1), (0, 3)] {
        let opened = opened_with_prices(fuel, kind);
        for month in MONTHS.windows(2) {
            let (begins, next) = (month[0], month[1]);
            expect_span(&opened, (begins, next - 1), 0);
            if next < 852 {
                expect_span(&opened, (begins, next), 15);
                expect_span(&opened, (next - 1, next), 15);
            }
        }
        for span in [(500, 530), (486, 576), (486, 851)] {
            expect_span(&opened, span, 15);
        }
        for span in [(486, 852), (486, u32::MAX), (516, 515), (485, 515)] {
            let (first, last) = span;
            let line = format!("{opened}bill 1 {first} {last} 10 20000 0 0 0\n");
            assert_eq!(last_reply(&line), "refused 7", "{first} to {last}");
        }
    }
}

#[test]
fn fixed_and_flexible_spans_of_two_months_are_taken() {
    for (fuel, kind) in [(0, 0), (1, 0), (0, 2), (1, 2)] {
        let opened = opened_with_prices(fuel, kind) + "price 0 20000\nprice 852 20000\n";
        for span in [(515, 516), (500, 530), (486, 576), (486, 851)] {
            expect_span(&opened, span, 0);
        }
    }
}

/// The reply to an amendment of a fixed contract, 2, without rows.
fn reply_to_amend(numbers: &str) -> String {
    last_reply(&format!("open 2 0 0 300 290\namend 2 {numbers}\n"))
}

#[test]
fn number_7_the_days_of_an_amendment() {
    for (day, of_scheme, of_table) in [
        ("0", "refused 7", "ok"),
        ("485", "refused 7", "ok"),
        ("486", "ok", "ok"),
        ("851", "ok", "ok"),
        ("852", "refused 7", "refused 7"),
        ("4294967295", "refused 7", "refused 7"),
    ] {
        assert_eq!(reply_to_amend(&format!("{day} 540 545")), of_scheme);
        assert_eq!(reply_to_amend(&format!("668 {day} 545")), of_table);
        assert_eq!(reply_to_amend(&format!("668 540 {day}")), of_table);
    }
}

/// Bills and rebills that start on or before day 668 and end after it, and those that don't.
#[test]
fn number_17_a_span_across_the_original_end() {
    let amended = "price 300 20000\nprice 540 20000\nopen 1 0 0 300 290\namend 1 668 540 545\n";
    for (span, number) in [
        ((486, 668), 0),
        ((668, 668), 0),
        ((669, 669), 0),
        ((669, 851), 0),
        ((668, 669), 17),
        ((486, 669), 17),
        ((486, 851), 17),
    ] {
        expect_span(amended, span, number);
    }
    let at_ends = [
        (486, (486, 487), 17),
        (486, (487, 851), 0),
        (851, (486, 851), 0),
    ];
    for (end, span, number) in at_ends {
        let amended = amended.replace("668", &end.to_string());
        expect_span(&amended, span, number);
    }
}

/// Rows of days 600 to 629 and 700 to 729.
#[test]
fn number_18_a_row_that_ends_after_the_end_given() {
    expect_lines(&[
        "price 300 20000: ok",
        "open 2 0 0 300 290: ok",
        "bill 2 600 629 10 20000 0 0 0: ok 20000 0 0",
        "bill 2 700 729 10 20000 0 0 0: ok 20000 0 0",
        "amend 2 486 540 545: refused 18",
        "amend 2 629 540 545: refused 18",
        "amend 2 728 540 545: refused 18",
        "cancel 2 700: ok 0",
        "amend 2 628 540 545: refused 18",
        "amend 2 629 540 545: ok",
    ]);
}

#[test]
fn number_8_amounts_and_prices() {
    refused(
        8,
        &[
            "bill 0 600 600 40000001 1 1 0 0",
            "bill 0 600 600 1 1000000 1 0 0",
            "bill 0 600 600 1 1 1000000 0 0",
            "bill 1 600 600 1 1 1 0 0",
        ],
    );
    refused(
        8,
        &[
            "rebill 0 486 515 40000001 1 1 0 0",
            "price 1740 0",
            "price 0 1000000",
        ],
    );
}

#[test]
fn number_8_kwh_above_40_000_000() {
    for kwh in [
        "40000001",
        "99999999",
        "100000000",
        "100000001",
        "134217727",
        "134217728",
        "4294967295",
    ] {
        refused_after_opening(&format!("bill 0 600 600 {kwh} 1 1 0 0"), 8);
        refused_after_opening(&format!("rebill 0 486 515 {kwh} 1 1 0 0"), 8);
    }
}

/// At R 30,201 and S 67,030 a kWh has 10 ticks. 40,000,001 kWh change nothing.
#[test]
fn kwh_up_to_40_000_000_are_no_number_8() {
    for kwh in [0, 1, 39_999_999, 40_000_000] {
        let (amount, change) = (10 * kwh, 10 * (kwh - 1));
        expect_lines(&[
            "open 0 0 2 0 0: ok",
            "bill 0 486 515 1 67030 30201 0 0: ok 30201 10 10",
            &format!("bill 0 600 600 {kwh} 67030 30201 0 0: ok 30201 10 {amount}"),
            &format!("rebill 0 486 515 {kwh} 67030 30201 0 0: ok 30201 10 {change}"),
            "bill 0 601 601 40000001 67030 30201 0 0: refused 8",
            "rebill 0 486 515 40000001 67030 30201 0 0: refused 8",
            &format!("report 0: ok 2 {} {}", 2 * kwh, 2 * amount),
        ]);
    }
}

/// Bills and rebills of 1,000 kWh, with their two shares.
#[test]
fn number_14_shares_above_kwh() {
    for shares in [
        "1001 0",
        "0 1001",
        "1000 1",
        "1 1000",
        "500 501",
        "4294967295 0",
        "0 4294967295",
        "4294967295 1",
        "1 4294967295",
        "4294967295 1001",
        "2147483648 2147483648",
        "4294967295 4294967295",
    ] {
        refused_after_opening(&format!("bill 0 600 600 1000 1 1 {shares}"), 14);
        refused_after_opening(&format!("rebill 0 486 515 1000 1 1 {shares}"), 14);
    }
    refused(
        14,
        &["bill 0 600 600 0 1 1 1 0", "bill 0 600 600 0 1 1 0 1"],
    );
    refused(
        14,
        &[
            "bill 0 600 600 40000000 1 1 40000001 0",
            "bill 0 600 600 40000000 1 1 0 40000001",
            "bill 0 600 600 40000000 1 1 20000000 20000001",
        ],
    );
}

#[test]
fn shares_of_exactly_kwh_are_no_number_14() {
    for (kwh, shares) in [
        (0, "0 0"),
        (1_000, "1000 0"),
        (1_000, "0 1000"),
        (1_000, "400 600"),
        (40_000_000, "40000000 0"),
        (40_000_000, "0 40000000"),
        (40_000_000, "39999999 1"),
    ] {
        expect(
            format!(
                "{OPENED}bill 0 600 600 {kwh} 1 1 {shares}\nrebill 0 486 515 {kwh} 1 1 {shares}\n"
            )
            .as_bytes(),
            &["ok", "ok 1 0 0", "ok", "ok 1 0 0", "ok 1 0 0"],
        );
    }
}

#[test]
fn number_9_no_such_row() {
    refused(
        9,
        &[
            "rebill 0 487 515 1 1 1 0 0",
            "rebill 1 486 515 1 1 0 0 0",
            "cancel 0 487",
            "cancel 1 486",
        ],
    );
}

#[test]
fn number_10_a_day_shared() {
    refused(
        10,
        &[
            "bill 0 486 486 1 1 1 0 0",
            "bill 0 515 600 1 1 1 0 0",
            "bill 0 500 501 1 1 1 0 0",
        ],
    );
    expect(
        format!("{OPENED}bill 0 516 520 1 1 1 0 0\nrebill 0 486 516 1 1 1 0 0\nrebill 0 486 510 1 1 1 0 0\n")
            .as_bytes(),
        &["ok", "ok 1 0 0", "ok", "ok 1 0 0", "refused 10", "ok 1 0 0"],
    );
}

#[test]
fn number_11_no_price() {
    refused(11, &["bill 1 486 486 1 1 0 0 0"]);
    expect(
        b"price 1716 11050\nopen 1 1 1 0 0\nbill 1 515 515 1 20000 0 0 0\nbill 1 516 516 1 20000 0 0 0\n",
        &["ok", "ok", "ok 11050 3500 3500", "refused 11"],
    );
}

#[test]
fn the_earlier_test_turns_a_line_down() {
    // 1 before 4, 4 before 6, 5 before 6, 6 before 7
    refused(1, &["report 064"]);
    refused(4, &["open 64 2 4 852 852", "cert 64 3 0"]);
    refused(
        5,
        &[
            "open 0 2 4 852 852",
            "cert 63 3 0",
            "bill 63 0 0 40000001 1 1 0 0",
        ],
    );
    refused(6, &["open 2 2 0 852 0", "cert 0 3 0"]);
    // 7 before 15 and 8, 15 before 8, 14, 9 and 11, 8 before 14, 9, 10 and 11, 14 before 9, 10 and 11
    refused(
        7,
        &[
            "bill 0 485 485 40000001 1 1 0 0",
            "rebill 0 485 485 40000001 1 1 0 0",
            "bill 1 485 516 1 1 0 0 0",
            "rebill 1 515 852 1 1 0 0 0",
        ],
    );
    refused(
        15,
        &[
            "bill 1 515 516 40000001 1 1 4294967295 0",
            "bill 1 515 516 1 1 0 1 1",
            "bill 1 515 516 1 1 0 0 0",
            "rebill 1 515 516 40000001 1 1 4294967295 0",
            "rebill 1 515 516 1 1 0 0 0",
        ],
    );
    refused(
        8,
        &[
            "rebill 0 487 515 40000001 1 1 0 0",
            "bill 0 486 515 40000001 1 1 0 0",
            "bill 1 486 486 40000001 1 0 0 0",
            "bill 0 486 515 1 1000000 1 0 0",
            "bill 0 600 600 40000001 1 1 40000001 1",
            "bill 0 600 600 1 1 1000000 4294967295 1",
            "bill 1 486 486 1 1 1 1 1",
        ],
    );
    refused(
        14,
        &[
            "rebill 0 487 515 1 1 1 1 1",
            "bill 0 486 515 1 1 1 1 1",
            "bill 1 486 486 1 1 0 1 1",
        ],
    );
    // 9 before 10: no row begins on day 487, and the span shares days with the row of 486 to 515
    refused(9, &["rebill 0 487 515 1 1 1 0 0"]);
    // 15 before 10: April's row is held, and the span shares its last day
    expect(
        b"price 1716 11050\nopen 1 1 1 0 0\nbill 1 486 515 1 20000 0 0 0\nbill 1 515 516 1 20000 0 0 0\nbill 1 515 515 1 20000 0 0 0\n",
        &["ok", "ok", "ok 11050 3500 3500", "refused 15", "refused 10"],
    );
    // 10 before 11: the row is held, and its price is published no longer
    expect(
        b"price 1716 11050\nopen 1 1 1 0 0\nbill 1 486 515 1 20000 0 0 0\nprice 1716 0\nbill 1 515 515 1 20000 0 0 0\nrebill 1 486 515 1 20000 0 0 0\n",
        &["ok", "ok", "ok 11050 3500 3500", "ok", "refused 10", "refused 11"],
    );
}

/// Each line fails its test and the later ones of its call.
#[test]
fn the_earlier_test_turns_an_amendment_or_a_span_across_its_end_down() {
    expect_lines(&[
        "price 300 20000: ok",
        "open 0 0 2 0 0: ok",
        "open 2 0 0 300 290: ok",
        "bill 2 600 668 10 20000 0 0 0: ok 20000 0 0",
        "amend 64 485 852 852: refused 4",
        "amend 3 485 852 852: refused 5",
        "amend 0 485 852 852: refused 16",
        "amend 2 485 540 545: refused 7",
        "amend 2 667 852 545: refused 7",
        "amend 2 667 540 852: refused 7",
        "amend 2 667 540 545: refused 18",
        "amend 2 668 540 545: ok",
        "amend 2 485 852 852: refused 16",
        "price 300 0: ok",
        // 7 before 17; 17 before 8, 14, 10 and 11
        "bill 2 668 852 10 20000 0 0 0: refused 7",
        "bill 2 485 669 10 20000 0 0 0: refused 7",
        "bill 2 668 669 40000001 20000 0 0 0: refused 17",
        "bill 2 668 669 10 20000 1 0 0: refused 17",
        "bill 2 668 669 10 20000 0 11 0: refused 17",
        "bill 2 668 669 10 20000 0 0 0: refused 17",
        "bill 2 668 668 10 20000 0 0 0: refused 10",
        "bill 2 599 669 10 20000 0 0 0: refused 17",
        "bill 2 599 599 10 20000 0 0 0: refused 11",
        // and before 9
        "rebill 2 668 852 10 20000 0 0 0: refused 7",
        "rebill 2 668 669 40000001 20000 0 0 0: refused 17",
        "rebill 2 668 669 10 20000 0 11 0: refused 17",
        "rebill 2 668 669 10 20000 0 0 0: refused 17",
        "rebill 2 668 668 10 20000 0 0 0: refused 9",
        "rebill 2 600 669 10 20000 0 0 0: refused 17",
        "rebill 2 600 668 10 20000 0 0 0: refused 11",
    ]);
}

#[test]
fn a_refused_line_changes_nothing() {
    expect(
        format!(
            "{OPENED}bill 0 500 501 9 9 9 0 0\ncancel 0 487\ncert 0 3 486\nreport 0\ntotal\nclaim\n"
        )
        .as_bytes(),
        &[
            "ok",
            "ok 1 0 0",
            "ok",
            "refused 10",
            "refused 9",
            "refused 6",
            "ok 1 1 0",
            "ok 0 0",
            "ok 0 0",
        ],
    );
}
