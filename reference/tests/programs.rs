//! The two programs as they are called: arguments, standard input, files.

use std::fs;
use std::io::Write;
use std::path::PathBuf;
use std::process::{Command, Output, Stdio};

use reference::record::encode;

const REFERENCE: &str = env!("CARGO_BIN_EXE_reference");
const TRACES: &str = env!("CARGO_BIN_EXE_traces");

fn place(name: &str) -> PathBuf {
    PathBuf::from(env!("CARGO_TARGET_TMPDIR")).join(name)
}

fn from_stdin(trace: &[u8]) -> Output {
    let mut child = Command::new(REFERENCE)
        .stdin(Stdio::piped())
        .stdout(Stdio::piped())
        .spawn()
        .unwrap();
    child.stdin.take().unwrap().write_all(trace).unwrap();
    child.wait_with_output().unwrap()
}

#[test]
fn file_and_standard_input_agree() {
    let trace = [encode(9, 0, 10, 4, 0), encode(1, 0, 4, 0, 0)].concat();
    let path = place("agree.trace");
    fs::write(&path, &trace).unwrap();
    let by_file = Command::new(REFERENCE).arg(&path).output().unwrap();
    let long = Command::new(REFERENCE)
        .arg("--long")
        .arg(&path)
        .output()
        .unwrap();
    for output in [from_stdin(&trace), by_file, long] {
        assert!(output.status.success());
        assert_eq!(output.stdout, b"0 0 0 0\n1 0 4 0\nend 4 4\n");
    }
}

#[test]
fn wrong_arguments_fail() {
    for arguments in [&["--long"][..], &["a", "b"], &["/nowhere/at/all"]] {
        let output = Command::new(REFERENCE).args(arguments).output().unwrap();
        assert!(!output.status.success());
        assert!(output.stdout.is_empty());
    }
}

#[test]
fn same_seed_same_traces() {
    let first = place("first");
    let second = place("second");
    for directory in [&first, &second] {
        let status = Command::new(TRACES)
            .args(["5", "100"])
            .arg(directory)
            .status()
            .unwrap();
        assert!(status.success());
    }
    for number in 0..100 {
        let name = format!("{number:05}.trace");
        let trace = fs::read(first.join(&name)).unwrap();
        assert_eq!(trace, fs::read(second.join(&name)).unwrap());
    }
}
