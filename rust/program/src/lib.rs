//! Runs the program `ebds` as it was built by `rt`, and the script `./ebds` that runs it.

use std::io::Write;
use std::path::{Path, PathBuf};
use std::process::{Command, Output, Stdio};
use std::thread;

/// Where `rt` puts the program, from the root of the repository.
pub const PROGRAM: &str = "crates/ebds/out/ebds";

/// The root of the repository.
pub fn root() -> PathBuf {
    Path::new(env!("CARGO_MANIFEST_DIR")).join("../..")
}

/// The program, which must have been built.
fn program() -> PathBuf {
    let program = root().join(PROGRAM);
    assert!(
        program.exists(),
        "the program isn't built: run `./ebds </dev/null` first"
    );
    program
}

/// The script that runs the program.
pub fn script() -> Command {
    program();
    Command::new(root().join("ebds"))
}

/// How a command ends on an input, with what it writes to standard output and standard error.
pub fn run(mut command: Command, input: &[u8]) -> Output {
    let mut child = command
        .stdin(Stdio::piped())
        .stdout(Stdio::piped())
        .stderr(Stdio::piped())
        .spawn()
        .expect("the command starts");
    let mut stdin = child.stdin.take().expect("standard input is piped");
    let input = input.to_vec();
    // A program that refuses a long input may stop reading before its end.
    let writer = thread::spawn(move || drop(stdin.write_all(&input)));
    let output = child.wait_with_output().expect("the command ends");
    writer.join().expect("the input is written");
    output
}

/// What the program prints of an input.
pub fn printed(input: &[u8]) -> Vec<u8> {
    let output = run(Command::new(program()), input);
    assert!(
        output.status.success() && output.stderr.is_empty(),
        "the program fails: {}, {}",
        output.status,
        String::from_utf8_lossy(&output.stderr)
    );
    output.stdout
}

/// Holds what the program prints of an input to the lines expected.
pub fn expect(input: &[u8], lines: &[&str]) {
    let expected: String = lines.iter().map(|line| format!("{line}\n")).collect();
    let printed = printed(input);
    assert_eq!(
        String::from_utf8_lossy(&printed),
        expected,
        "of the input {:?}",
        String::from_utf8_lossy(&input[..input.len().min(200)])
    );
}

/// Holds a session to its lines, of which each is written with what is printed of it: `line: printed`.
pub fn expect_lines(session: &[&str]) {
    let mut input = String::new();
    let mut lines = Vec::new();
    for both in session {
        let (line, printed) = both.split_once(": ").expect("a line and what is printed");
        input += &format!("{line}\n");
        lines.push(printed);
    }
    expect(input.as_bytes(), &lines);
}
