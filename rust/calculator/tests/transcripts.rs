//! The program's text: document 01's run, the examples, and the lines that can't be read.

use calculator::session::transcript;
use std::fs;
use std::path::Path;

fn printed(input: &str) -> String {
    String::from_utf8(transcript(input.as_bytes())).expect("the output is ASCII")
}

/// Every line can't be read.
fn all_unreadable(lines: &[&[u8]]) {
    for line in lines {
        let input = [line, &b"\ntotal\n"[..]].concat();
        let expected = b"refused 1\nok 0 0\n";
        assert_eq!(transcript(&input), expected, "{}", line.escape_ascii());
    }
}

/// Every example, of which the paper's run is one, prints its output.
#[test]
fn every_example_prints_its_output() {
    let folder = Path::new(env!("CARGO_MANIFEST_DIR")).join("../../examples");
    let paths = fs::read_dir(folder).expect("the folder is there");
    let paths = paths.map(|entry| entry.expect("an entry").path());
    let inputs: Vec<_> = paths
        .filter(|path| path.extension() == Some("in".as_ref()))
        .collect();
    assert!(inputs.iter().any(|path| path.ends_with("paper_run.in")));
    for path in inputs {
        let input = fs::read_to_string(&path).expect("its input is read");
        let output = fs::read_to_string(path.with_extension("out")).expect("its output is read");
        assert_eq!(printed(&input), output, "{}", path.display());
    }
}

#[test]
fn no_input_prints_nothing() {
    assert_eq!(printed(""), "");
}

#[test]
fn an_input_of_65_536_bytes_is_read_and_one_more_is_not() {
    let input = "total\n".repeat(10_922) + "abc\n";
    assert_eq!(input.len(), 65_536);
    assert_eq!(printed(&input), "ok 0 0\n".repeat(10_922) + "refused 1\n");
    assert_eq!(printed(&(input + "\n")), "refused 1\n");
}

#[test]
fn a_last_line_without_its_line_feed_cannot_be_read() {
    assert_eq!(printed("total\ntotal"), "ok 0 0\nrefused 1\n");
    assert_eq!(printed("claim\n\n"), "ok 0 0\nrefused 1\n");
}

#[test]
fn names_spaces_and_counts() {
    all_unreadable(&[
        b"",
        b" ",
        b"totals",
        b"Total",
        b"tota",
        b"total ",
        b" total",
        b"total 0",
        b"report",
        b"report 1 2",
        b"report  1",
        b"report 1 ",
        b"report\t1",
        b"report 1\r",
        b"0",
        b"price 1",
        b"day 2023 4",
        b"date",
        b"start",
        b"cert 0 1",
        b"open 0 0 2 0",
        b"bill 0 486 515 1 1",
        b"bill 0 486 515 1 1 1",
        b"bill 0 486 515 1 1 1 0",
        b"bill 0 486 515 1 1 1 0 0 0",
        b"rebill 0 486 515 1 1 1",
        b"rebill 0 486 515 1 1 1 0",
        b"rebill 0 486 515 1 1 1 0 0 0",
        b"amend",
        b"amend 0 486 0",
        b"amend 0 486 0 0 0",
        b"Amend 0 486 0 0",
        b"amends 0 486 0 0",
        b"amend 0 486 0 00",
        b"amend 0 486 0 4294967296",
    ]);
}

#[test]
fn numbers_of_1_to_10_digits() {
    all_unreadable(&[
        b"date 00",
        b"date 01",
        b"date +1",
        b"date -1",
        b"date 1.0",
        b"date 0x1",
        b"date 1_0",
        b"date 4294967296",
        b"date 9999999999",
        b"date 12345678901",
        b"date 0000000001",
    ]);
    assert_eq!(printed("date 0\n"), "ok 2021 12 1\n");
    assert_eq!(printed("date 4294967295\n"), "refused 7\n");
}

#[test]
fn unusual_bytes() {
    all_unreadable(&[
        b"\0",
        b"total\0",
        b"t\xC3\xB3tal",
        b"\xFF",
        b"date \xB2",
        b"date\xC2\xA00",
        b"date 1\x80",
    ]);
}

#[test]
fn days_and_dates() {
    let input = "day 2021 12 1\nday 2024 2 29\nday 2023 2 29\ndate 851\ndate 852\n";
    let output = "ok 0\nok 820\nrefused 7\nok 2024 3 31\nrefused 7\n";
    assert_eq!(printed(input), output);
}

#[test]
fn amend_answers_no_numbers() {
    let opened = "price 7 30300\nprice 530 30400\nopen 0 0 0 7 8\n";
    let amend = "amend 0 600 530 531\n";
    let bills = "bill 0 600 600 1 99999 0 0 0\nbill 0 601 601 1 99999 0 0 0\n";
    let output = "ok\nok\nok\nok\nok 30300 1000 1000\nok 30400 2000 2000\nrefused 16\n";
    assert_eq!(printed(&format!("{opened}{amend}{bills}{amend}")), output);
}

#[test]
fn start_keeps_the_book_and_a_refused_price_changes_nothing() {
    let prices = "price 1739 0\nprice 1740 0\nprice 1716 999999\nprice 1716 1000000\n";
    assert_eq!(printed(prices), "ok\nrefused 8\nok\nrefused 8\n");
    let bill = "open 0 1 1 0 0\nbill 0 486 486 1 99999 0 0 0\n";
    let billed = "ok\nok 999999 6970 6970\n";
    let printed = printed(&format!("{prices}{bill}start 1\ntotal\n{bill}"));
    let expected = format!("ok\nrefused 8\nok\nrefused 8\n{billed}ok\nok 0 0\n{billed}");
    assert_eq!(printed, expected);
}
