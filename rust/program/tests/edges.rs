//! The edges of document 01's program: lengths of the input, unusual bytes, numbers at their limits, a full ledger, the last claim and
//! the largest amounts.

use program::{expect, printed};

#[test]
fn no_input_prints_nothing() {
    expect(b"", &[]);
}

#[test]
fn an_input_of_65_536_bytes_is_read_and_one_more_is_not() {
    let mut input = b"total\n".repeat(10_922);
    input.extend_from_slice(b"abc\n");
    assert_eq!(input.len(), 65_536);
    let mut lines = vec!["ok 0 0"; 10_922];
    lines.push("refused 1");
    expect(&input, &lines);
    input.push(b'\n');
    expect(&input, &["refused 1"]);
    expect(&b"total\n".repeat(100_000), &["refused 1"]);
}

#[test]
fn a_last_line_without_its_line_feed_cannot_be_read() {
    expect(b"total\ntotal", &["ok 0 0", "refused 1"]);
    expect(b"\n", &["refused 1"]);
}

#[test]
fn unusual_bytes_cannot_be_read() {
    expect(
        b"\0\ntotal\0\nt\xC3\xB3tal\n\xFF\ntotal\r\ndate\t0\ntotal\n",
        &[
            "refused 1",
            "refused 1",
            "refused 1",
            "refused 1",
            "refused 1",
            "refused 1",
            "ok 0 0",
        ],
    );
}

#[test]
fn numbers_at_their_limits() {
    expect(
        b"date 0\ndate 00\ndate 851\ndate 4294967295\ndate 4294967296\ndate 9999999999\ndate 12345678901\ndate 0000000000\n",
        &["ok 2021 12 1", "refused 1", "ok 2024 3 31", "refused 7", "refused 1", "refused 1", "refused 1", "refused 1"],
    );
    expect(
        b"bill 4294967295 4294967295 4294967295 4294967295 4294967295 4294967295 4294967295 4294967295\nprice 4294967295 4294967295\n",
        &["refused 4", "refused 8"],
    );
}

#[test]
fn a_thousand_claims_and_one_more() {
    let mut lines = vec!["ok 0 0"; 1_000];
    lines.extend(["refused 13", "ok 0 0"]);
    expect(
        &[b"claim\n".repeat(1_001), b"total\n".to_vec()].concat(),
        &lines,
    );
}

/// 64 flexible gas contracts that are QHS from day 511, each with 16 bills of 40,000,000 kWh at the highest R and S; 1,024 rows.
fn full_ledger() -> String {
    let mut input = String::new();
    for contract in 0..64 {
        input += &format!("open {contract} 1 2 0 0\ncert {contract} 2 511\n");
        for day in 792..808 {
            input += &format!("bill {contract} {day} {day} 40000000 999999 999999 0 0\n");
        }
    }
    input
}

/// The lines printed after those of the full ledger, which are as they must be.
fn after_full_ledger(input: &str) -> Vec<String> {
    let printed = printed((full_ledger() + input).as_bytes());
    let text = String::from_utf8(printed).expect("the program prints ASCII");
    let lines: Vec<String> = text.lines().map(str::to_string).collect();
    let mut expected = vec!["ok", "ok 0 0"];
    // 10 × (999,999 − 6,500) ticks a kWh
    expected.extend(["ok 999999 9934990 397399600000000"; 16]);
    let (full, after) = lines.split_at(18 * 64);
    assert_eq!(full, expected.repeat(64));
    after.to_vec()
}

#[test]
fn the_largest_amounts_in_a_full_ledger() {
    assert_eq!(
        after_full_ledger("total\nclaim\nreport 63\ncert 0 0 0\nclaim\ntotal\n"),
        [
            "ok 406937190400000000 406937190400000000",
            "ok 40693719040000 0",
            "ok 16 640000000 6358393600000000",
            // baseline again: 6,970 ticks a kWh
            "ok -6353932800000000 16",
            "ok -635393280000 0",
            "ok 400583257600000000 0",
        ]
    );
}

#[test]
fn a_full_ledger_takes_no_row_until_one_is_cancelled() {
    // 12, before which 8, 10 and 14 are tested; a cancelled row's place serves again
    let input = "bill 0 600 600 40000000 1 1 0 0\nbill 0 600 600 40000001 1 1 0 0\nbill 0 792 792 1 1 1 0 0\nbill 0 600 600 1 1 1 1 1\ncancel 0 792\nbill 0 600 600 1 1 1 0 0\nbill 0 601 601 1 1 1 0 0\n";
    assert_eq!(
        after_full_ledger(input),
        [
            "refused 12",
            "refused 8",
            "refused 10",
            "refused 14",
            "ok -397399600000000",
            "ok 1 0 0",
            "refused 12"
        ]
    );
}

/// A full ledger whose contract 63 gives its rows to contract 62 and is opened by this line, without a certificate.
fn full_ledger_without_rows_of_63(opened: &str) -> String {
    let mut input = full_ledger().replace("open 63 1 2 0 0\ncert 63 2 511", opened);
    for day in 792..808 {
        input = input.replace(
            &format!("bill 63 {day} {day} "),
            &format!("bill 62 {} {} ", day + 16, day + 16),
        );
    }
    input
}

/// The price of April 2023 isn't published for the variable contract 63.
#[test]
fn a_missing_price_is_found_before_a_full_ledger() {
    let input = full_ledger_without_rows_of_63("open 63 1 1 0 0")
        + "bill 0 600 600 1 1 1 0 0\nbill 63 486 486 1 1 0 0 0\n";
    let printed = printed(input.as_bytes());
    assert!(printed.ends_with(b"9934990 397399600000000\nrefused 12\nrefused 11\n"));
}

/// The fixed contract 63 has the original end 600. It may still be amended while the ledger is full.
#[test]
fn a_span_across_the_original_end_is_found_before_a_full_ledger() {
    let input = full_ledger_without_rows_of_63("open 63 1 0 0 0")
        + "amend 63 600 0 0\nprice 852 20000\nbill 63 600 601 1 1 0 0 0\nbill 63 600 600 1 1 0 0 0\n";
    let printed = printed(input.as_bytes());
    assert!(printed.ends_with(b"9934990 397399600000000\nok\nok\nrefused 17\nrefused 12\n"));
}
