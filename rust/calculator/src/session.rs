//! The program's text (document 01, section "The program and one run").

use crate::book::BOOK_ENTRIES;
use crate::calls::{self, Call, Outcome};
use crate::codes::{Territory, HIGHEST_PRICE};
use crate::facts::Facts;
use crate::postings::PostingModule;
use crate::refusals::{refuse_if, NUMBER_OUT_OF_RANGE, UNREADABLE_LINE};

/// The most bytes of an input.
pub const INPUT_BYTES: usize = 65_536;

const LINE_FEED: u8 = b'\n';

/// The digits of the highest number.
const MOST_DIGITS: usize = 10;

/// What a readable line asks for.
enum Command {
    Price { index: u32, value: u32 },
    Day { year: u32, month: u32, day: u32 },
    Date { day_number: u32 },
    OnLedger(Call),
}

/// The ledger and the book of a run of the program.
pub struct Session {
    module: PostingModule,
    book: Vec<u32>,
}

/// The whole output of the program for an input.
pub fn transcript(input: &[u8]) -> Vec<u8> {
    let mut session = Session::fresh();
    let mut output = Vec::new();
    if input.len() > INPUT_BYTES {
        print(&mut output, &Err(UNREADABLE_LINE));
        return output;
    }
    for line in input.split_inclusive(|&byte| byte == LINE_FEED) {
        print(&mut output, &session.reply(line));
    }
    output
}

/// Prints the line of an outcome.
fn print(output: &mut Vec<u8>, outcome: &Outcome) {
    let line = match outcome {
        Ok(numbers) => numbers
            .iter()
            .fold("ok".to_string(), |line, number| format!("{line} {number}")),
        Err(number) => format!("refused {number}"),
    };
    output.extend_from_slice(line.as_bytes());
    output.push(LINE_FEED);
}

impl Session {
    /// A run before its first line: a fresh Great Britain ledger and a book of zeros.
    pub fn fresh() -> Session {
        Session {
            module: PostingModule::new(Territory::GreatBritain),
            book: vec![0; BOOK_ENTRIES],
        }
    }

    /// The facts that the ledger holds.
    pub fn facts(&self) -> Facts {
        self.module.facts()
    }

    /// The outcome of a line, its line feed included.
    pub fn reply(&mut self, line: &[u8]) -> Outcome {
        match read_line(line).ok_or(UNREADABLE_LINE)? {
            Command::Price { index, value } => self.set_price(index, value),
            Command::Day { year, month, day } => calls::day(year, month, day),
            Command::Date { day_number } => calls::date(day_number),
            Command::OnLedger(call) => self.module.call(&self.book, &call),
        }
    }

    fn set_price(&mut self, index: u32, value: u32) -> Outcome {
        let entry = self.book.get_mut(index as usize);
        let entry = entry.ok_or(NUMBER_OUT_OF_RANGE)?;
        refuse_if(value > HIGHEST_PRICE, NUMBER_OUT_OF_RANGE)?;
        *entry = value;
        Ok(vec![])
    }
}

/// What a line asks for, or `None` if it can't be read.
fn read_line(line: &[u8]) -> Option<Command> {
    let line = line.strip_suffix(&[LINE_FEED])?;
    let mut words = line.split(|&byte| byte == b' ');
    let name = str::from_utf8(words.next()?).ok()?;
    let numbers: Vec<u32> = words.map(read_number).collect::<Option<_>>()?;
    match (name, numbers.as_slice()) {
        ("price", &[index, value]) => Some(Command::Price { index, value }),
        ("day", &[year, month, day]) => Some(Command::Day { year, month, day }),
        ("date", &[day_number]) => Some(Command::Date { day_number }),
        (name, numbers) => Call::of(name, numbers).map(Command::OnLedger),
    }
}

/// The number of a word, 1 to 10 digits without leading zeros, at most 4,294,967,295.
fn read_number(word: &[u8]) -> Option<u32> {
    let all_digits = word.iter().all(u8::is_ascii_digit);
    let leading_zero = word.len() > 1 && word[0] == b'0';
    if !all_digits || leading_zero || word.len() > MOST_DIGITS {
        return None;
    }
    str::from_utf8(word).ok()?.parse().ok()
}
