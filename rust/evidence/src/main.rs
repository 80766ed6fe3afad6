//! Holds the evidence page and the crates' statements and proofs to each other, by the repository's
//! text alone, without the prover: each name on the page is in the repository; each statement that
//! the page names is reached from the record of what is established or from a function's contract;
//! each file that the record reaches is on the page; and each definition is reached from what is
//! established or from a function. The crate that asks for what is established, from outside, has to
//! ask for all of it; what it asks for isn't reached by that. It prints an error for each that isn't
//! so, and fails where there is one.

mod checks;
mod contracts;
mod files;
mod graph;
mod imports;
mod page;
mod parse;
mod repository;
mod scope;
mod tokens;

use page::{Page, PAGE};
use repository::Repository;
use std::process::ExitCode;

fn main() -> ExitCode {
    let repository = match files::crate_texts() {
        Ok(texts) => Repository::new(texts),
        Err(error) => {
            println!("error: {error}");
            return ExitCode::FAILURE;
        }
    };
    let page = Page::new(&files::text_of(PAGE).unwrap_or_default());
    let mut errors = page.errors(&files::text_of);
    errors.extend(checks::errors(&page, &repository));
    for error in &errors {
        println!("error: {error}");
    }
    if !errors.is_empty() {
        return ExitCode::FAILURE;
    }
    println!(
        "{} names on {PAGE} looked up; {} definitions, each reached from what is established or \
         from a function",
        grouped(page.count()),
        grouped(repository.product_definitions().count())
    );
    ExitCode::SUCCESS
}

/// A number with commas between its groups of three digits.
fn grouped(number: usize) -> String {
    let digits = number.to_string();
    let groups: Vec<&[u8]> = digits.as_bytes().rchunks(3).rev().collect();
    String::from_utf8_lossy(&groups.join(&b',')).into_owned()
}

#[cfg(test)]
mod tests {
    use super::grouped;

    #[test]
    fn numbers_have_commas() {
        let numbers = [0, 84, 999, 1000, 2345, 1234567].map(grouped);
        assert_eq!(numbers, ["0", "84", "999", "1,000", "2,345", "1,234,567"]);
    }
}
