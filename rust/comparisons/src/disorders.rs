//! Rows out of order and rows that share a day, made of rows in order. Each row has its right
//! amount, so that nothing else is wrong with it.

use crate::random::Random;
use crate::rows_met::row_of;
use calculator::dates::LAST_DAY;
use calculator::facts::MOST_ROWS;
use calculator::packed::{Facts, Row};
use calculator::rates::Bill;
use std::collections::BTreeSet;
use std::ops::Range;

/// A kind of disorder.
pub struct Disorder {
    pub kind: &'static str,
    /// The rows of the facts in such a disorder: in each of the places that are tried, none where
    /// there is no place for it.
    pub disordered: fn(&mut Random, &Facts) -> Vec<Vec<Row>>,
}

/// All kinds of disorder.
pub const DISORDERS: [Disorder; 11] = [
    Disorder {
        kind: "neighbours of a contract exchanged",
        disordered: neighbours_of_a_contract_exchanged,
    },
    Disorder {
        kind: "neighbours of two contracts exchanged",
        disordered: neighbours_of_two_contracts_exchanged,
    },
    Disorder {
        kind: "distant rows exchanged",
        disordered: distant_rows_exchanged,
    },
    Disorder {
        kind: "last row moved to the front",
        disordered: last_row_moved_to_the_front,
    },
    Disorder {
        kind: "first row moved to the end",
        disordered: first_row_moved_to_the_end,
    },
    Disorder {
        kind: "one day shared",
        disordered: one_day_shared,
    },
    Disorder {
        kind: "first day shared",
        disordered: first_day_shared,
    },
    Disorder {
        kind: "row inside another",
        disordered: row_inside_another,
    },
    Disorder {
        kind: "row repeated",
        disordered: row_repeated,
    },
    Disorder {
        kind: "rows of two contracts exchanged",
        disordered: rows_of_two_contracts_exchanged,
    },
    Disorder {
        kind: "rows of a contract split by another's",
        disordered: rows_of_a_contract_split,
    },
];

fn neighbours_of_a_contract_exchanged(random: &mut Random, facts: &Facts) -> Vec<Vec<Row>> {
    neighbours_exchanged(random, facts, of_one_contract)
}

fn neighbours_of_two_contracts_exchanged(random: &mut Random, facts: &Facts) -> Vec<Vec<Row>> {
    neighbours_exchanged(random, facts, |row, next| !of_one_contract(row, next))
}

fn neighbours_exchanged(
    random: &mut Random,
    facts: &Facts,
    wanted: fn(&Row, &Row) -> bool,
) -> Vec<Vec<Row>> {
    let places = neighbours(&facts.rows, wanted);
    at_places(random, facts, places, |_, rows, place| {
        rows.swap(place, place + 1);
    })
}

/// Rows that have others between them.
fn distant_rows_exchanged(random: &mut Random, facts: &Facts) -> Vec<Vec<Row>> {
    let places = 0..facts.rows.len().saturating_sub(2);
    at_places(random, facts, places, |random, rows, place| {
        let distant = place + 2..rows.len();
        rows.swap(place, distant.start + random.below(distant.len()));
    })
}

fn last_row_moved_to_the_front(_: &mut Random, facts: &Facts) -> Vec<Vec<Row>> {
    rotated(facts, |rows| rows.rotate_right(1))
}

fn first_row_moved_to_the_end(_: &mut Random, facts: &Facts) -> Vec<Vec<Row>> {
    rotated(facts, |rows| rows.rotate_left(1))
}

fn rotated(facts: &Facts, rotate: fn(&mut [Row])) -> Vec<Vec<Row>> {
    if facts.rows.len() < 2 {
        return Vec::new();
    }
    let mut rows = facts.rows.clone();
    rotate(&mut rows);
    vec![rows]
}

/// A row ends on the first day of the next one of its contract, or that begins on its last day.
fn one_day_shared(random: &mut Random, facts: &Facts) -> Vec<Vec<Row>> {
    in_a_contract(random, facts, |random, bill, next, _| {
        if bill.first_day < bill.last_day && random.once_in(2) {
            next.first_day = bill.last_day;
        } else {
            bill.last_day = next.first_day;
        }
    })
}

/// A row begins on the first day of the one of its contract before it; the longer one comes last,
/// or first.
fn first_day_shared(random: &mut Random, facts: &Facts) -> Vec<Vec<Row>> {
    in_a_contract(random, facts, |random, bill, next, _| {
        next.first_day = bill.first_day;
        if random.once_in(2) {
            (*bill, *next) = (*next, *bill);
        }
    })
}

/// A row ends with the next one of its contract or later.
fn row_inside_another(random: &mut Random, facts: &Facts) -> Vec<Vec<Row>> {
    in_a_contract(random, facts, |random, bill, next, free_to| {
        bill.last_day = random.within(next.last_day..=free_to);
    })
}

/// The row is put in once more. Where all slots are held, the last row goes.
fn row_repeated(random: &mut Random, facts: &Facts) -> Vec<Vec<Row>> {
    let places = 0..facts.rows.len().min(MOST_ROWS - 1);
    at_places(random, facts, places, |_, rows, place| {
        rows.insert(place, rows[place]);
        rows.truncate(MOST_ROWS);
    })
}

fn rows_of_two_contracts_exchanged(random: &mut Random, facts: &Facts) -> Vec<Vec<Row>> {
    let runs = runs(&facts.rows);
    let pairs = (0..runs.len()).flat_map(|other| (0..other).map(move |one| (one, other)));
    at_places(random, facts, pairs, |_, rows, (one, other)| {
        let mut exchanged = runs.clone();
        exchanged.swap(one, other);
        let exchanged = exchanged.into_iter().map(|run| &facts.rows[run]);
        *rows = exchanged.collect::<Vec<_>>().concat();
    })
}

/// A row is moved between two of another contract, from before them or from after them.
fn rows_of_a_contract_split(random: &mut Random, facts: &Facts) -> Vec<Vec<Row>> {
    let others = |run: &Range<usize>| facts.rows.len() - run.len();
    let runs = runs(&facts.rows).into_iter();
    let runs = runs.filter(|run| run.len() > 1 && others(run) > 0);
    let runs = runs.map(|run| (run.start, run.end));
    at_places(random, facts, runs, |random, rows, (start, end)| {
        let split = start + 1 + random.below(end - start - 1);
        let other = random.below(rows.len() - (end - start));
        if other < start {
            rows[other..split].rotate_left(1);
        } else {
            rows[split..=other + (end - start)].rotate_right(1);
        }
    })
}

/// The rows of the facts with two neighbours of a contract changed, in each of the places chosen.
/// The change gets the two bills and the last day before the contract's row after them.
fn in_a_contract(
    random: &mut Random,
    facts: &Facts,
    change: fn(&mut Random, &mut Bill, &mut Bill, u32),
) -> Vec<Vec<Row>> {
    let places = neighbours(&facts.rows, of_one_contract);
    at_places(random, facts, places, |random, rows, place| {
        let Row { contract, .. } = rows[place];
        let after = rows.get(place + 2).filter(|row| row.contract == contract);
        let free_to = after.map_or(LAST_DAY, |row| row.bill.first_day - 1);
        let (mut bill, mut next) = (rows[place].bill, rows[place + 1].bill);
        change(random, &mut bill, &mut next, free_to);
        rows[place] = row_of(facts, contract, bill);
        rows[place + 1] = row_of(facts, contract, next);
    })
}

/// The rows of the facts, changed in each of three places: of those given the first, the last and
/// one that is drawn.
fn at_places<Place: Copy + Ord>(
    random: &mut Random,
    facts: &Facts,
    places: impl Iterator<Item = Place>,
    change: impl Fn(&mut Random, &mut Vec<Row>, Place),
) -> Vec<Vec<Row>> {
    let places: Vec<Place> = places.collect();
    let (Some(&first), Some(&last)) = (places.first(), places.last()) else {
        return Vec::new();
    };
    let chosen = BTreeSet::from([first, last, random.one_of(&places)]);
    let changed = chosen.into_iter().map(|place| {
        let mut rows = facts.rows.clone();
        change(random, &mut rows, place);
        rows
    });
    changed.collect()
}

/// The places of rows that are as wanted with the row after them.
fn neighbours(rows: &[Row], wanted: fn(&Row, &Row) -> bool) -> impl Iterator<Item = usize> + '_ {
    let places = 0..rows.len().saturating_sub(1);
    places.filter(move |&place| wanted(&rows[place], &rows[place + 1]))
}

fn of_one_contract(row: &Row, other: &Row) -> bool {
    row.contract == other.contract
}

/// The places of each contract's rows.
fn runs(rows: &[Row]) -> Vec<Range<usize>> {
    let mut end = 0;
    let runs = rows.chunk_by(of_one_contract);
    let runs = runs.map(|run| {
        let start = end;
        end += run.len();
        start..end
    });
    runs.collect()
}

#[cfg(test)]
mod tests {
    use super::DISORDERS;
    use crate::random::Random;
    use crate::rows_met::key;
    use crate::searched_ledgers::{searched_facts, SHAPES};
    use calculator::packed::{pack, unpack, Facts, Row};
    use std::ops::Range;

    /// Facts with the rows that a disorder makes of each of them.
    fn disordered(kind: &str) -> Vec<(Facts, Vec<Row>)> {
        let disorder = DISORDERS.iter().find(|disorder| disorder.kind == kind);
        let disorder = disorder.expect("there is such a kind");
        let mut disordered = Vec::new();
        for shape in &SHAPES {
            for rows in [3, 9, 255] {
                let mut random = Random::new(1, shape.name, rows as u64);
                let facts = searched_facts(&mut random, shape, rows);
                let all = (disorder.disordered)(&mut random, &facts).into_iter();
                disordered.extend(all.map(|rows| (facts.clone(), rows)));
            }
        }
        disordered
    }

    fn is_well_formed(facts: &Facts, rows: Vec<Row>) -> bool {
        let facts = Facts {
            rows,
            ..facts.clone()
        };
        unpack(&pack(&facts)).is_some()
    }

    /// Every row by itself is well formed, and all of them together aren't.
    #[test]
    fn nothing_but_the_order_is_wrong() {
        for disorder in &DISORDERS {
            let disordered = disordered(disorder.kind);
            assert!(disordered.len() > 15, "{}", disorder.kind);
            for (facts, rows) in disordered {
                assert!(is_well_formed(&facts, facts.rows.clone()));
                let changed = rows.iter().filter(|row| !facts.rows.contains(row));
                for row in changed {
                    assert!(is_well_formed(&facts, vec![*row]), "{}", disorder.kind);
                }
                assert!(!is_well_formed(&facts, rows), "{}", disorder.kind);
            }
        }
    }

    #[test]
    fn rows_out_of_order_are_those_that_were_in_order() {
        for kind in [
            "neighbours of a contract exchanged",
            "neighbours of two contracts exchanged",
            "distant rows exchanged",
            "last row moved to the front",
            "first row moved to the end",
            "rows of two contracts exchanged",
            "rows of a contract split by another's",
        ] {
            for (facts, mut rows) in disordered(kind) {
                assert!(!rows.is_sorted_by_key(key), "{kind}");
                rows.sort_by_key(key);
                assert!(rows == facts.rows, "{kind}");
            }
        }
    }

    /// Holds the neighbours that share a day, of which there is one pair, to the test. The other
    /// rows are in order.
    fn expect_of_neighbours(kind: &str, test: impl Fn(&Row, &Row) -> bool) {
        for (_, rows) in disordered(kind) {
            assert!(rows.is_sorted_by_key(key), "{kind}");
            let neighbours = rows.windows(2).map(|rows| (&rows[0], &rows[1]));
            let sharing = neighbours.filter(|(row, next)| {
                row.contract == next.contract && next.bill.first_day <= row.bill.last_day
            });
            let sharing: Vec<_> = sharing.collect();
            assert!(
                matches!(sharing[..], [(row, next)] if test(row, next)),
                "{kind}"
            );
        }
    }

    #[test]
    fn rows_that_share_a_day() {
        expect_of_neighbours("one day shared", |row, next| {
            row.bill.first_day < next.bill.first_day && row.bill.last_day == next.bill.first_day
        });
        expect_of_neighbours("first day shared", |row, next| key(row) == key(next));
        expect_of_neighbours("row inside another", |row, next| {
            row.bill.first_day < next.bill.first_day && next.bill.last_day <= row.bill.last_day
        });
        expect_of_neighbours("row repeated", |row, next| row == next);
    }

    /// A row of another contract stands between two of the contract.
    #[test]
    fn rows_of_a_contract_that_are_split() {
        for (_, rows) in disordered("rows of a contract split by another's") {
            let split = rows.windows(3).any(|rows| {
                rows[0].contract == rows[2].contract && rows[1].contract != rows[0].contract
            });
            assert!(split);
        }
    }

    /// The first two rows are of one contract, and so are the last two.
    #[test]
    fn the_first_and_the_last_rows_of_a_full_ledger() {
        let shape = SHAPES.iter().find(|shape| shape.name == "three contracts");
        let mut random = Random::new(1, "full", 0);
        let facts = searched_facts(&mut random, shape.expect("there is such a shape"), 1_024);
        for disorder in &DISORDERS {
            let all = (disorder.disordered)(&mut random, &facts);
            assert!(
                all.iter().all(|rows| rows.len() == 1_024),
                "{}",
                disorder.kind
            );
            let kinds_in_a_contract = [
                "neighbours of a contract exchanged",
                "one day shared",
                "first day shared",
                "row inside another",
                "row repeated",
            ];
            if kinds_in_a_contract.contains(&disorder.kind) {
                let is_same =
                    |rows: &[Row], slots: Range<usize>| rows[slots.clone()] == facts.rows[slots];
                let at_front = all.iter().any(|rows| !is_same(rows, 0..2));
                let at_end = all.iter().any(|rows| is_same(rows, 0..1_022));
                assert!(at_front && at_end, "{}", disorder.kind);
            }
        }
    }
}
