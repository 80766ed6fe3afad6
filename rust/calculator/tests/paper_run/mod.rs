//! Document 01's run, for the tests of the posting module and of the packed ledger.

use calculator::calls::Outcome;

/// Document 01's run: each line with its outcome.
pub fn paper_run() -> Vec<(&'static str, Outcome)> {
    vec![
        ("open 0 0 2 0 0", Ok(vec![])),
        (
            "bill 0 486 515 1000 67030 31980 0 0",
            Ok(vec![31_980, 17_800, 17_800_000]),
        ),
        ("claim", Ok(vec![1_780, 0])),
        ("cert 0 1 486", Ok(vec![49_840_000, 1])),
        ("claim", Ok(vec![4_984, 0])),
        (
            "rebill 0 486 515 901 67030 31980 0 0",
            Ok(vec![31_980, 67_640, -6_696_360]),
        ),
        ("claim", Ok(vec![-670, 3_640])),
        ("cancel 0 486", Ok(vec![-60_943_640])),
        ("total", Ok(vec![0, -60_940_000])),
        ("bill 64 486 515 1 1 1 0 0", Err(4)),
    ]
}
