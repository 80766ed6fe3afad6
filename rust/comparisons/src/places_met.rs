//! Where among the held rows a call finds its row or its contract's rows, where it puts a new row,
//! and which rows share a day with its span.

use crate::rows_met::key;
use crate::sorts::Sorts;
use calculator::calls::{BillNumbers, Call, Outcome};
use calculator::codes::spans_share_a_day;
use calculator::packed::Row;
use calculator::refusals::{DAY_SHARED, NO_SUCH_ROW};
use std::cmp::Ordering;

/// The calls that look for a row, or for the rows of a contract.
const LOOKING: [&str; 4] = ["cancel", "rebill", "report", "cert"];

const FIRST_PLACE: &str = "at the first place";
const MIDDLE_PLACE: &str = "at a middle place";
const LAST_PLACE: &str = "at the last place";

/// Where rows are found. The only row is at the first place and at the last.
const PLACES: [&str; 3] = [FIRST_PLACE, MIDDLE_PLACE, LAST_PLACE];

const BEFORE_THE_FIRST: &str = "before the first row";
const BETWEEN: &str = "between rows";
const AFTER_THE_LAST: &str = "after the last row";
const NO_ROWS: &str = "where no row is held";

/// Where a row would stand that isn't held.
const BESIDE: [&str; 4] = [BEFORE_THE_FIRST, BETWEEN, AFTER_THE_LAST, NO_ROWS];

const ROW_BEFORE: &str = "the row before";
const ROW_AFTER: &str = "the row after";
const BOTH_ROWS: &str = "both";

/// The rows that may share a day with a bill.
const SHARING: [&str; 3] = [ROW_BEFORE, ROW_AFTER, BOTH_ROWS];

/// How many rows sort before what is sought, are equal to it and sort after it.
struct Around {
    before: usize,
    equal: usize,
    after: usize,
}

/// Every sort. A rebill keeps the first day of its row, so that it shares no day with the row
/// before.
pub fn sorts() -> Vec<String> {
    let mut sorts = Vec::new();
    for name in LOOKING {
        sorts.extend(PLACES.map(|place| found(name, place)));
        sorts.extend(BESIDE.map(|place| not_found(name, place)));
    }
    sorts.extend(BESIDE.map(put));
    sorts.extend(SHARING.map(|rows| sharing("bill", rows)));
    sorts.push(sharing("rebill", ROW_AFTER));
    sorts
}

/// Counts the sorts of a call on the rows, if it gets as far as to look for its place among them.
pub fn count_call(sorts: &mut Sorts, rows: &[Row], call: &Call, outcome: &Outcome) {
    for sort in sorts_of_call(rows, call, outcome) {
        sorts.count(&sort);
    }
}

fn found(name: &str, place: &str) -> String {
    format!("{name} found {place}")
}

fn not_found(name: &str, place: &str) -> String {
    format!("{name} not found {place}")
}

fn put(place: &str) -> String {
    format!("bill put {place}")
}

fn sharing(name: &str, rows: &str) -> String {
    format!("{name} sharing a day with {rows}")
}

fn sorts_of_call(rows: &[Row], call: &Call, outcome: &Outcome) -> Vec<String> {
    let name = call.name();
    match (call, outcome) {
        (&Call::Cancel { contract, first }, Ok(_) | Err(NO_SUCH_ROW)) => {
            sorts_of_search(name, &Around::row(rows, contract, first))
        }
        (Call::Rebill(numbers), Ok(_) | Err(NO_SUCH_ROW)) => {
            sorts_of_search(name, &Around::bill(rows, numbers))
        }
        (&(Call::Report { contract } | Call::Cert { contract, .. }), Ok(_)) => {
            sorts_of_search(name, &Around::contract(rows, contract))
        }
        (Call::Bill(numbers), Ok(_)) => vec![put(Around::bill(rows, numbers).beside())],
        (Call::Bill(numbers), Err(DAY_SHARED)) => {
            let before = Around::bill(rows, numbers).before;
            let beside = (rows[..before].last(), rows.get(before));
            vec![sharing(name, rows_sharing(beside, numbers))]
        }
        (Call::Rebill(numbers), Err(DAY_SHARED)) => {
            let replaced = Around::bill(rows, numbers).before;
            let beside = (rows[..replaced].last(), rows.get(replaced + 1));
            vec![sharing(name, rows_sharing(beside, numbers))]
        }
        _ => vec![],
    }
}

fn sorts_of_search(name: &str, around: &Around) -> Vec<String> {
    if around.equal == 0 {
        return vec![not_found(name, around.beside())];
    }
    let places = [
        (FIRST_PLACE, around.before == 0),
        (MIDDLE_PLACE, around.before != 0 && around.after != 0),
        (LAST_PLACE, around.after == 0),
    ];
    let places = places.into_iter().filter(|&(_, is_there)| is_there);
    places.map(|(place, _)| found(name, place)).collect()
}

/// Which of the rows before and after a span share a day with it. The calculator found one among
/// all rows, so one of these does.
fn rows_sharing(beside: (Option<&Row>, Option<&Row>), numbers: &BillNumbers) -> &'static str {
    let span = (numbers.first, numbers.last);
    let shares = |row: Option<&Row>| {
        row.is_some_and(|row| {
            row.contract == numbers.contract && spans_share_a_day(row.bill.span(), span)
        })
    };
    match (shares(beside.0), shares(beside.1)) {
        (true, true) => BOTH_ROWS,
        (true, false) => ROW_BEFORE,
        (false, true) => ROW_AFTER,
        (false, false) => unreachable!("rows farther away end before or begin after these"),
    }
}

impl Around {
    /// Around the row of a contract and first day.
    fn row(rows: &[Row], contract: u32, first: u32) -> Around {
        Around::by(rows, |row| key(row).cmp(&(contract, first)))
    }

    /// Around the row of a bill or rebill.
    fn bill(rows: &[Row], numbers: &BillNumbers) -> Around {
        Around::row(rows, numbers.contract, numbers.first)
    }

    /// Around the rows of a contract.
    fn contract(rows: &[Row], contract: u32) -> Around {
        Around::by(rows, |row| row.contract.cmp(&contract))
    }

    /// By the order of each row to what is sought.
    fn by(rows: &[Row], order: impl Fn(&Row) -> Ordering) -> Around {
        let count = |wanted| rows.iter().filter(|row| order(row) == wanted).count();
        Around {
            before: count(Ordering::Less),
            equal: count(Ordering::Equal),
            after: count(Ordering::Greater),
        }
    }

    /// Where a row would stand that isn't held.
    fn beside(&self) -> &'static str {
        match (self.before, self.after) {
            (0, 0) => NO_ROWS,
            (0, _) => BEFORE_THE_FIRST,
            (_, 0) => AFTER_THE_LAST,
            _ => BETWEEN,
        }
    }
}

#[cfg(test)]
mod tests {
    use super::sorts_of_call;
    use calculator::calls::Call;
    use calculator::codes::Territory;
    use calculator::postings::PostingModule;

    /// The contract and the span of each row; contracts 4 to 8 are open.
    const ROWS: [(u32, (u32, u32)); 4] = [
        (5, (500, 509)),
        (5, (520, 529)),
        (5, (530, 530)),
        (7, (500, 509)),
    ];

    /// A call on so many of the rows meets these sorts.
    fn expect(rows: usize, name: &str, numbers: &[u32], expected: &[&str]) {
        let book = [0; 1_740];
        let mut module = PostingModule::new(Territory::GreatBritain);
        for contract in 4..=8 {
            let open = Call::of("open", &[contract, 0, 2, 0, 0]).expect("a call");
            module.call(&book, &open).expect("it is accepted");
        }
        for (contract, (first, last)) in &ROWS[..rows] {
            let bill =
                Call::of("bill", &[*contract, *first, *last, 1, 1, 1, 0, 0]).expect("a call");
            module.call(&book, &bill).expect("it is accepted");
        }
        let rows = module.facts().rows;
        let call = Call::of(name, numbers).expect("a call");
        let outcome = module.call(&book, &call);
        let expected = expected.iter().map(|sort| format!("{name} {sort}"));
        assert!(
            sorts_of_call(&rows, &call, &outcome)
                .into_iter()
                .eq(expected),
            "{call:?}"
        );
    }

    #[test]
    fn cancellations_and_rebills_of_rows() {
        for (rows, contract, first, sort) in [
            (4, 5, 500, "found at the first place"),
            (4, 5, 520, "found at a middle place"),
            (4, 5, 530, "found at a middle place"),
            (4, 7, 500, "found at the last place"),
            (3, 5, 530, "found at the last place"),
            (4, 5, 499, "not found before the first row"),
            (4, 4, 851, "not found before the first row"),
            (4, 5, 501, "not found between rows"),
            (4, 6, 500, "not found between rows"),
            (4, 7, 499, "not found between rows"),
            (4, 7, 501, "not found after the last row"),
            (4, 8, 486, "not found after the last row"),
            (0, 5, 500, "not found where no row is held"),
        ] {
            expect(rows, "cancel", &[contract, first], &[sort]);
            let rebill = [contract, first, first, 1, 1, 1, 0, 0];
            expect(rows, "rebill", &rebill, &[sort]);
        }
        let only = ["found at the first place", "found at the last place"];
        expect(1, "cancel", &[5, 500], &only);
        expect(4, "cancel", &[9, 500], &[]);
        expect(4, "rebill", &[5, 485, 500, 1, 1, 1, 0, 0], &[]);
    }

    #[test]
    fn the_rows_of_a_contract() {
        for (rows, contract, sorts) in [
            (4, 5, &["found at the first place"][..]),
            (4, 7, &["found at the last place"]),
            (
                3,
                5,
                &["found at the first place", "found at the last place"],
            ),
            (4, 4, &["not found before the first row"]),
            (4, 6, &["not found between rows"]),
            (4, 8, &["not found after the last row"]),
            (0, 5, &["not found where no row is held"]),
            (4, 9, &[]),
        ] {
            expect(rows, "report", &[contract], sorts);
            expect(rows, "cert", &[contract, 1, 500], sorts);
        }
    }

    #[test]
    fn bills_beside_rows() {
        for (rows, contract, span, sorts) in [
            (4, 5, (486, 499), &["put before the first row"][..]),
            (4, 4, (500, 509), &["put before the first row"]),
            (4, 5, (510, 519), &["put between rows"]),
            (4, 6, (500, 509), &["put between rows"]),
            (4, 7, (510, 851), &["put after the last row"]),
            (0, 5, (500, 509), &["put where no row is held"]),
            (4, 5, (509, 519), &["sharing a day with the row before"]),
            (4, 5, (501, 502), &["sharing a day with the row before"]),
            (4, 5, (510, 520), &["sharing a day with the row after"]),
            (4, 5, (510, 851), &["sharing a day with the row after"]),
            (4, 5, (500, 500), &["sharing a day with the row after"]),
            (4, 5, (509, 520), &["sharing a day with both"]),
            (4, 5, (520, 520), &["sharing a day with the row after"]),
            (4, 9, (500, 500), &[]),
        ] {
            let (first, last) = span;
            expect(rows, "bill", &[contract, first, last, 1, 1, 1, 0, 0], sorts);
        }
    }

    #[test]
    fn rebills_that_share_a_day_with_the_row_after() {
        let rebill = |first, last, sort| {
            let numbers = [5, first, last, 1, 1, 1, 0, 0];
            expect(4, "rebill", &numbers, &[sort]);
        };
        rebill(500, 519, "found at the first place");
        rebill(500, 520, "sharing a day with the row after");
        rebill(500, 851, "sharing a day with the row after");
        rebill(520, 530, "sharing a day with the row after");
        rebill(530, 851, "found at a middle place");
    }
}
