//! Lines that the program can't read, or only just can (document 01, section "The program
//! and one run").

use crate::random::Random;

/// What is put into a line.
const PIECES: [&[u8]; 16] = [
    b" ",
    b"  ",
    b"\t",
    b"\r",
    b"\0",
    b"\x7F",
    b"\x80",
    b"\xFF",
    b"\xC3\xB3",
    b"\xC2\xA0",
    b"0",
    b"9",
    b"+",
    b"-",
    b".",
    b"x",
];

/// What is put in place of a word, or after the last one.
const WORDS: [&[u8]; 20] = [
    b"",
    b"0",
    b"00",
    b"01",
    b"0000000001",
    b"+1",
    b"-1",
    b"1e3",
    b"0x10",
    b"1_000",
    b"1,000",
    b"4294967295",
    b"4294967296",
    b"4294967297",
    b"9999999999",
    b"10000000000",
    b"12345678901",
    b"18446744073709551616",
    b"\xD9\xA3",
    b"total",
];

/// The most bytes of a line of random bytes.
const MOST_RANDOM_BYTES: usize = 40;

/// The line, without a line feed, with one change.
pub fn changed_line(random: &mut Random, line: &str) -> Vec<u8> {
    let mut words: Vec<&[u8]> = line.as_bytes().split(|&byte| byte == b' ').collect();
    let place = random.below(words.len());
    match random.below(7) {
        0 => return with_piece(random, line),
        1 => return random_bytes(random),
        2 => words[place] = random.one_of(&WORDS),
        3 => words.push(random.one_of(&WORDS)),
        4 => words.insert(place, words[place]),
        5 => words.truncate(place),
        _ => drop(words.remove(place)),
    }
    words.join(&b' ')
}

fn with_piece(random: &mut Random, line: &str) -> Vec<u8> {
    let (before, after) = line.as_bytes().split_at(random.below(line.len() + 1));
    [before, random.one_of(&PIECES), after].concat()
}

fn random_bytes(random: &mut Random) -> Vec<u8> {
    let count = random.below(MOST_RANDOM_BYTES);
    let bytes = (0..count).map(|_| random.number() as u8);
    bytes.filter(|&byte| byte != b'\n').collect()
}

#[cfg(test)]
mod tests {
    use super::changed_line;
    use crate::random::Random;
    use std::collections::BTreeSet;

    /// How many numbers a bill's line has, if it has nothing else.
    fn numbers_of_bill(line: &[u8]) -> Option<usize> {
        let mut words = std::str::from_utf8(line).ok()?.split(' ');
        let all_numbers =
            words.next() == Some("bill") && words.clone().all(|word| word.parse::<u32>().is_ok());
        all_numbers.then(|| words.count())
    }

    #[test]
    fn a_bill_gets_every_count_of_numbers_up_to_one_more() {
        let mut random = Random::new(1, "lines", 0);
        let lines = (0..2_000).map(|_| changed_line(&mut random, "bill 1 2 3 4 5 6 7 8"));
        let counts: BTreeSet<usize> = lines.filter_map(|line| numbers_of_bill(&line)).collect();
        assert_eq!(counts, (0..=9).collect());
    }
}
