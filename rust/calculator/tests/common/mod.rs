//! Calls written as the program's lines.

use calculator::calls::Call;

/// The call of a line, as `bill 0 486 515 1000 67030 31980 0 0`.
pub fn call(line: &str) -> Call {
    let mut words = line.split(' ');
    let name = words.next().expect("a name");
    let numbers: Vec<u32> = words.map(|word| word.parse().expect("a number")).collect();
    Call::of(name, &numbers).unwrap_or_else(|| panic!("{line} is no call"))
}
