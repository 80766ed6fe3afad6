//! The text of random sessions of the program, with prices published before the bills that
//! need them.

use crate::generator::{random_call, random_price, start, Profile};
use crate::random::Random;
use crate::unreadable_lines::changed_line;
use calculator::book::{entry_needed, BOOK_ENTRIES};
use calculator::calls::Call;
use calculator::codes::{Territory, HIGHEST_PRICE};
use calculator::dates::LAST_DAY;
use calculator::packed::Facts;
use calculator::postings::PostingModule;
use calculator::session::INPUT_BYTES;

/// One line in that many is changed, one is a price, one a day number or a date.
const CHANGED_ONCE_IN: usize = 12;
const PRICE_ONCE_IN: usize = 25;
const DATE_ONCE_IN: usize = 40;

/// A price needed is left unpublished once in that many times.
const UNPUBLISHED_ONCE_IN: usize = 10;

/// A session loses its last line feed, or gets other bytes, once in that many times.
const UNENDED_ONCE_IN: usize = 10;
const OTHER_BYTES_ONCE_IN: usize = 20;

/// The bytes that a line and the price before it have room in.
const ROOM: usize = 200;

/// A session while it is written, with the ledger and the book that its lines leave.
struct SessionText {
    text: Vec<u8>,
    module: PostingModule,
    book: Vec<u32>,
}

/// The text of a session of that many calls, or fewer where the input's limit is reached.
pub fn random_session(random: &mut Random, profile: &Profile, calls: u32) -> Vec<u8> {
    let mut session = SessionText {
        text: Vec::new(),
        module: PostingModule::new(Territory::GreatBritain),
        book: vec![0; BOOK_ENTRIES],
    };
    if random.once_in(2) {
        let facts = session.module.facts();
        let call = start(random, &facts);
        session.add_call(random, &facts, &call);
    }
    for _ in 0..calls {
        if session.text.len() + ROOM > INPUT_BYTES {
            break;
        }
        session.add_lines(random, profile);
    }
    let mut text = session.text;
    if random.once_in(UNENDED_ONCE_IN) {
        text.pop();
    }
    if random.once_in(OTHER_BYTES_ONCE_IN) {
        put_other_bytes(random, &mut text);
    }
    text
}

impl SessionText {
    /// Adds a call, mostly, with the price that it needs.
    fn add_lines(&mut self, random: &mut Random, profile: &Profile) {
        if random.once_in(PRICE_ONCE_IN) {
            let (entry, price) = any_price(random);
            self.add_price(entry, price);
        } else if random.once_in(DATE_ONCE_IN) {
            self.add_line(date_line(random).as_bytes());
        } else {
            let facts = self.module.facts();
            let call = random_call(random, &facts, profile);
            self.add_call(random, &facts, &call);
        }
    }

    fn add_call(&mut self, random: &mut Random, facts: &Facts, call: &Call) {
        if random.once_in(CHANGED_ONCE_IN) {
            self.add_line(&changed_line(random, &line_of(call)));
            return;
        }
        match self.price_missing(facts, call) {
            Some(entry) if !random.once_in(UNPUBLISHED_ONCE_IN) => {
                self.add_price(entry as u32, random_price(random));
            }
            _ => {}
        }
        self.add_line(line_of(call).as_bytes());
        // the outcome is compared when the whole text is
        let _ = self.module.call(&self.book, call);
    }

    /// The book entry that the call needs, if its price isn't published.
    fn price_missing(&self, facts: &Facts, call: &Call) -> Option<usize> {
        let (Call::Bill(numbers) | Call::Rebill(numbers)) = call else {
            return None;
        };
        let contract = facts.contracts.get(numbers.contract as usize)?.as_ref()?;
        let entry = entry_needed(contract, numbers.first)?;
        (self.book[entry] == 0).then_some(entry)
    }

    /// Adds the line of a price, which is published if it is in range.
    fn add_price(&mut self, entry: u32, price: u32) {
        match self.book.get_mut(entry as usize) {
            Some(published) if price <= HIGHEST_PRICE => *published = price,
            _ => {}
        }
        self.add_line(format!("price {entry} {price}").as_bytes());
    }

    fn add_line(&mut self, line: &[u8]) {
        self.text.extend_from_slice(line);
        self.text.push(b'\n');
    }
}

fn line_of(call: &Call) -> String {
    let numbers = call.numbers().into_iter();
    numbers.fold(call.name().to_string(), |line, number| {
        format!("{line} {number}")
    })
}

/// An entry and its price, at times either of them around its limit.
fn any_price(random: &mut Random) -> (u32, u32) {
    let last_entry = BOOK_ENTRIES as u32 - 1;
    match random.below(8) {
        0 => (random.within(last_entry - 2..=last_entry + 2), 1),
        1 => (0, random.within(HIGHEST_PRICE - 2..=HIGHEST_PRICE + 2)),
        _ => (random.within(0..=last_entry), random_price(random)),
    }
}

fn date_line(random: &mut Random) -> String {
    if random.once_in(2) {
        return format!("date {}", random.within(0..=LAST_DAY + 50));
    }
    let (year, month) = (random.within(2021..=2024), random.within(0..=13));
    format!("day {year} {month} {}", random.within(0..=32))
}

/// Puts other bytes in place of a few.
fn put_other_bytes(random: &mut Random, text: &mut [u8]) {
    if text.is_empty() {
        return;
    }
    for _ in 0..3 {
        text[random.below(text.len())] = random.number() as u8;
    }
}

#[cfg(test)]
mod tests {
    use super::{random_session, INPUT_BYTES};
    use crate::generator::FILLING;
    use crate::random::Random;
    use calculator::session::transcript;

    /// More calls than fit: the session uses the rows up within the input's limit.
    #[test]
    fn a_session_that_fills_the_rows_stays_within_the_limit() {
        let session = || random_session(&mut Random::new(1, "sessions", 0), FILLING, 10_000);
        let text = session();
        assert!(text.len() <= INPUT_BYTES);
        assert_eq!(text, session());
        let replies = String::from_utf8(transcript(&text)).expect("the transcript is ASCII");
        assert!(
            replies
                .lines()
                .filter(|reply| *reply == "refused 12")
                .count()
                > 100
        );
    }
}
