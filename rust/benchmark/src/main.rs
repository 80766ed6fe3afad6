//! Prints the times of the proved calls beside those of the twin, what a change inside a bill and
//! an amendment add to them, and the program's times beside the calculator's, as tables in Markdown.

mod amendments;
mod batches;
mod both_ledgers;
mod calls;
mod calls_on_changes;
mod calls_on_ledgers;
mod changes;
mod ledgers;
mod sessions;
mod timing;

use amendments::{rows_of_amended, unamended, AMENDED};
use batches::{answer_of_both, compare_calls, compare_ledgers, BATCH, BATCHES};
use calls::{Answer, Case, CASES};
use calls_on_changes::CALLS_ON_CHANGES;
use calls_on_ledgers::CallOnLedger;
use changes::CONTENTS;

const NANOSECONDS_PER_MILLISECOND: f64 = 1e6;

/// The fewest rows of which the cost of what they have is told.
const FEWEST_ROWS: usize = 64;

fn main() {
    let book = ledgers::book();
    print_calls(&book);
    println!();
    print_calls_on_changes(&book);
    println!();
    print_costs_of_changes(&book);
    println!();
    print_calls_on_amendments(&book);
    println!();
    print_costs_of_amendments(&book);
    println!();
    print_sessions();
}

fn print_calls(book: &[u32]) {
    println!("Nanoseconds of a call: the median of {BATCHES} batches of {BATCH} calls, a batch of proved calls and one of the twin's in turn. The spread is the distance of the quartiles in percent of the median; the ratio is the median of the turns' ratios.");
    println!();
    println!("| call | rows held | proved | spread | twin | spread | proved / twin |");
    println!("|---|---:|---:|---:|---:|---:|---:|");
    for case in &CASES {
        for rows in case.rows {
            print_call(case, rows, book);
        }
    }
}

/// Measures a call on a ledger with that many rows.
fn print_call(case: &Case, rows: usize, book: &[u32]) {
    let ledger = ledgers::ledger(rows, book);
    let calls = [case.proved, case.twin];
    let name = name_with_answer(case.name, answer_of_both(calls, &ledger, book));
    let times = compare_calls(calls, &ledger, book);
    println!("| {name} | {rows} | {} |", times.columns(BATCH as f64, 0));
}

/// A call's name, with the number where it is turned down.
fn name_with_answer(name: &str, answer: Answer) -> String {
    match answer {
        Ok(_) => name.to_string(),
        Err(number) => format!("{name}, refused {number}"),
    }
}

fn print_calls_on_changes(book: &[u32]) {
    println!("The same on ledgers of 64 contracts with 2 or 16 rows each, of 20 days. A row has a change inside where a certificate takes effect or the new QHS minimum begins on a day after its first: so at most 2 rows of a contract have one. They are counted as the call leaves them. A bill, a rebill and a certificate are of one QHS contract, two of whose rows have a change inside, the one billed among them, where any row has.");
    println!();
    print_heading_of_calls("with a change inside");
    for call in CALLS_ON_CHANGES {
        for contents in CONTENTS {
            print_call_on_ledger(call(contents, book), contents.rows_with_change(), book);
        }
    }
}

fn print_costs_of_changes(book: &[u32]) {
    println!("Nanoseconds that a change inside adds to the check of a row: total on a ledger with such rows less total on the same ledger without, a batch of each in turn, over the number of such rows.");
    println!();
    print_heading_of_costs("with a change inside");
    for contents in CONTENTS {
        let totals = [contents.without_changes(), contents]
            .map(|contents| calls_on_changes::total(contents, book));
        print_cost(totals, contents.rows_with_change(), book);
    }
}

fn print_calls_on_amendments(book: &[u32]) {
    println!("The same on ledgers of 64 fixed contracts with 16 rows each, of 20 days: of an amended contract's rows 8 end before the original end day and 8 begin after it. The rows are the same in each ledger.");
    println!();
    print_heading_of_calls("of amended contracts");
    for amended in AMENDED {
        let total = amendments::total(amended, book);
        print_call_on_ledger(total, rows_of_amended(amended), book);
    }
}

fn print_costs_of_amendments(book: &[u32]) {
    println!("Nanoseconds that an amendment adds to the check of a row of its contract, measured likewise.");
    println!();
    print_heading_of_costs("of amended contracts");
    for amended in AMENDED {
        let totals = [unamended, amended].map(|amended| amendments::total(amended, book));
        print_cost(totals, rows_of_amended(amended), book);
    }
}

/// The heading of a table of calls on ledgers of their own, with what is counted of the rows.
fn print_heading_of_calls(counted: &str) {
    println!("| call | rows held | {counted} | proved | spread | twin | spread | proved / twin |");
    println!("|---|---:|---:|---:|---:|---:|---:|---:|");
}

/// Measures a call on its ledger, of whose rows so many are counted.
fn print_call_on_ledger(call: CallOnLedger, counted: usize, book: &[u32]) {
    let calls = [&*call.proved, &*call.twin];
    let name = name_with_answer(call.name, answer_of_both(calls, &call.ledger, book));
    let times = compare_calls(calls, &call.ledger, book).columns(BATCH as f64, 0);
    println!("| {name} | {} | {counted} | {times} |", call.rows);
}

/// The heading of a table of costs, with the rows that have them.
fn print_heading_of_costs(counted: &str) {
    println!("| rows held | {counted} | proved | twin |");
    println!("|---:|---:|---:|---:|");
}

/// Measures a call on a ledger without something and on one in which so many rows have it, if they
/// are enough.
fn print_cost([without, with]: [CallOnLedger; 2], counted: usize, book: &[u32]) {
    if counted < FEWEST_ROWS {
        return;
    }
    let cost = |call| {
        let times = compare_ledgers(call, [&without.ledger, &with.ledger], book);
        times.difference() / (BATCH * counted) as f64
    };
    let (proved, twin) = (cost(&*with.proved), cost(&*with.twin));
    println!("| {} | {counted} | {proved:.1} | {twin:.1} |", with.rows);
}

fn print_sessions() {
    println!("Milliseconds of a session: the program as a process that is started each time, and the calculator within a process that runs.");
    println!();
    println!("| bytes | lines | program | spread | calculator | spread | program / calculator |");
    println!("|---:|---:|---:|---:|---:|---:|---:|");
    let input = sessions::full_session();
    let times = sessions::measure(input.as_bytes()).columns(NANOSECONDS_PER_MILLISECOND, 2);
    println!("| {} | {} | {times} |", input.len(), input.lines().count());
    println!();
    let start = sessions::measure(b"").first.median / NANOSECONDS_PER_MILLISECOND;
    println!("Of the program's time {start:.2} milliseconds are the start and end of the process: its time on no input.");
}
