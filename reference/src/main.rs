//! The program `reference`: prints the lines of a trace from a file or standard input.

use std::env;
use std::fs::File;
use std::io;
use std::process::ExitCode;

use reference::replay::{replay, replay_long};

const USAGE: &str = "usage: reference [FILE] | reference --long FILE";

fn main() -> ExitCode {
    let arguments: Vec<String> = env::args().skip(1).collect();
    let arguments: Vec<&str> = arguments.iter().map(String::as_str).collect();
    let sink = io::stdout().lock();
    let result = match arguments[..] {
        [] => replay(io::stdin().lock(), sink),
        ["--long", path] => File::open(path).and_then(|file| replay_long(file, sink)),
        [path] if path != "--long" => File::open(path).and_then(|file| replay(file, sink)),
        _ => Err(io::Error::other(USAGE)),
    };
    match result {
        Ok(()) => ExitCode::SUCCESS,
        Err(error) => {
            eprintln!("reference: {error}");
            ExitCode::FAILURE
        }
    }
}
