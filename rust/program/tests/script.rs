//! The script `./ebds`: its status and what it says of a read or a write that fails, of a program that crashes, and of a build.

use program::{root, run, script, PROGRAM};
use std::fs::{self, File};
use std::os::unix::fs::{symlink, PermissionsExt};
use std::path::{Path, PathBuf};
use std::process::{self, Command, Output, Stdio};

/// What the script says before it builds the program.
const BUILDS: &str = "ebds: proving and building the program; this takes some minutes\n";

/// A session of `examples/`: its input, or its output.
fn example(extension: &str) -> PathBuf {
    root().join("examples/paper_run").with_extension(extension)
}

/// Holds an end to its status and to what was written to standard output and standard error.
fn expect_end(output: &Output, status: i32, stdout: &[u8], stderr: &str) {
    assert_eq!(String::from_utf8_lossy(&output.stderr), stderr);
    assert_eq!(
        String::from_utf8_lossy(&output.stdout),
        String::from_utf8_lossy(stdout)
    );
    assert_eq!(output.status.code(), Some(status));
}

/// How the script ends on the example's input, with its standard output elsewhere.
fn end_with_output_to(stdout: impl Into<Stdio>) -> Output {
    script()
        .stdin(File::open(example("in")).expect("the example is there"))
        .stdout(stdout)
        .output()
        .expect("the script ends")
}

#[test]
fn a_session_prints_its_output() {
    let input = fs::read(example("in")).expect("the example is there");
    let expected = fs::read(example("out")).expect("its output is there");
    expect_end(&run(script(), &input), 0, &expected, "");
}

#[test]
fn no_input_prints_nothing() {
    expect_end(&run(script(), b""), 0, b"", "");
}

#[test]
fn an_input_that_is_too_long_gives_one_line() {
    for length in [65_537, 65_538, 1_000_000] {
        let mut input = b"total\n".repeat(length / 6 + 1);
        input.truncate(length);
        expect_end(&run(script(), &input), 0, b"refused 1\n", "");
    }
}

#[test]
fn an_output_that_cannot_be_written() {
    let full = File::options().write(true).open("/dev/full");
    let output = end_with_output_to(full.expect("the device is there"));
    expect_end(&output, 1, b"", "ebds: standard output can't be written\n");
}

#[test]
fn an_input_that_cannot_be_read() {
    let folder = File::open(root()).expect("the folder is there");
    let output = script().stdin(folder).output().expect("the script ends");
    expect_end(&output, 1, b"", "ebds: standard input can't be read\n");
}

#[test]
fn a_closed_pipe_ends_the_program_without_a_word() {
    let mut reader = Command::new("true")
        .stdin(Stdio::piped())
        .spawn()
        .expect("the reader starts");
    let pipe = reader.stdin.take().expect("its input is piped");
    reader.wait().expect("the reader ends");
    expect_end(&end_with_output_to(pipe), 128 + 13, b"", "");
}

#[test]
fn a_closed_input_is_an_error() {
    let mut command = Command::new("timeout");
    command.args(["60", "sh", "-c", "exec ./ebds <&-"]);
    let output = command.current_dir(root()).output();
    let output = output.expect("the script ends");
    assert_eq!(output.status.code(), Some(1));
    assert!(output.stdout.is_empty() && !output.stderr.is_empty());
}

/// A folder with the script and other programs in place of `ebds` and `rt`; it is removed at the end.
struct Elsewhere(PathBuf);

impl Elsewhere {
    fn new(name: &str) -> Self {
        let folder = std::env::temp_dir().join(format!("ebds-{name}-{}", process::id()));
        let program = folder.join(PROGRAM);
        let made = program.parent().expect("the program has a folder");
        fs::create_dir_all(made).expect("the folder is made");
        symlink(root().join("ebds"), folder.join("ebds")).expect("the script is linked");
        Elsewhere(folder)
    }

    /// Writes a program: the lines of a shell script.
    fn write(&self, path: &str, lines: &str) {
        let path = self.0.join(path);
        fs::write(&path, format!("#!/bin/sh\n{lines}")).expect("the program is written");
        fs::set_permissions(&path, fs::Permissions::from_mode(0o755)).expect("it may be run");
    }

    /// How the script ends on an input.
    fn end(&self, input: &[u8]) -> Output {
        let mut command = Command::new(self.0.join("ebds"));
        let path = std::env::var("PATH").expect("the path is set");
        command.env("PATH", format!("{}:{path}", self.0.display()));
        run(command, input)
    }

    fn exists(&self, path: impl AsRef<Path>) -> bool {
        self.0.join(path).exists()
    }
}

impl Drop for Elsewhere {
    fn drop(&mut self) {
        fs::remove_dir_all(&self.0).expect("the folder is removed");
    }
}

#[test]
fn a_crash_keeps_its_status() {
    let elsewhere = Elsewhere::new("crash");
    elsewhere.write(PROGRAM, "echo ok\nkill -SEGV $$\n");
    expect_end(
        &elsewhere.end(b""),
        128 + 11,
        b"ok\n",
        "ebds: the program ended with status 139\n",
    );
}

#[test]
fn a_build_shows_a_line_for_each_crate() {
    let elsewhere = Elsewhere::new("build");
    elsewhere.write(
        "rt",
        "cat >&2 <<'END'
statements std: modules loaded=0 checked=0
only=0 proved=0
rt: chose --jobs 2 for basics
fn basics::least: proved
logic /logic/antt-project.json: libraries=16 files=2756 sum=dac8
statements std: modules loaded=5 checked=0
crate basics: modules loaded=0 checked=40
logic=proved functions=1 sum=dac8 native=nat,char,string
rt: chose --jobs 2 for bill_calls
fn bill_calls::bill: proved
library basics: modules loaded=24 checked=0
crate bill_calls: modules loaded=0 checked=220
axioms libc: none reached of the 128 declared
logic=proved functions=7 sum=dac8 native=nat,char,string
rt: running out/ebds; to give it other input, run that file yourself
END
ln -s /bin/cat out/ebds
cat
",
    );
    let shown = format!("{BUILDS}ebds: basics proved\nebds: bill_calls proved\n");
    expect_end(
        &elsewhere.end(b"total\n\0\xFF"),
        0,
        b"total\n\0\xFF",
        &shown,
    );
    // it is built once
    expect_end(&elsewhere.end(b"total\n"), 0, b"total\n", "");
}

#[test]
fn a_build_that_fails_shows_why() {
    let elsewhere = Elsewhere::new("failure");
    elsewhere.write(
        "rt",
        "cat >&2 <<'END'
crate basics: modules loaded=0 checked=40
logic=proved functions=1 sum=dac8 native=nat,char,string
rt: chose --jobs 2 for text
fn text::find: not proved
fn text::same: proved
library basics: modules loaded=24 checked=0
crate text: modules loaded=0 checked=220
logic=not-proved functions=2 sum=dac8 native=nat,char,string
rt: the library text did not build, so nothing above it was checked
END
exit 1
",
    );
    let shown = format!(
        "{BUILDS}ebds: basics proved\nfn text::find: not proved\nrt: the library text did not build, so nothing above it was checked\n"
    );
    expect_end(&elsewhere.end(b"total\n"), 1, b"", &shown);
    assert!(!elsewhere.exists(PROGRAM));
}
