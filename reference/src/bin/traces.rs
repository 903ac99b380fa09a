//! The program `traces`: writes made-up traces to files.

use std::env;
use std::error::Error;
use std::fs;
use std::path::Path;
use std::process::ExitCode;

use reference::generate::{million, trace};

const USAGE: &str = "usage: traces SEED COUNT DIR [SCALE] | traces --one-million FILE [SEED]";

fn main() -> ExitCode {
    let arguments: Vec<String> = env::args().skip(1).collect();
    let arguments: Vec<&str> = arguments.iter().map(String::as_str).collect();
    match write(&arguments) {
        Ok(()) => ExitCode::SUCCESS,
        Err(error) => {
            eprintln!("traces: {error}");
            ExitCode::FAILURE
        }
    }
}

fn write(arguments: &[&str]) -> Result<(), Box<dyn Error>> {
    match *arguments {
        ["--one-million", path] => fs::write(path, million(1))?,
        ["--one-million", path, seed] => fs::write(path, million(seed.parse()?))?,
        [seed, count, directory] => many(seed.parse()?, count.parse()?, directory, 1)?,
        [seed, count, directory, scale] => {
            many(seed.parse()?, count.parse()?, directory, scale.parse()?)?
        }
        _ => return Err(USAGE.into()),
    }
    Ok(())
}

fn many(seed: u64, count: u64, directory: &str, scale: u32) -> std::io::Result<()> {
    let directory = Path::new(directory);
    fs::create_dir_all(directory)?;
    for number in 0..count {
        let path = directory.join(format!("{number:05}.trace"));
        fs::write(path, trace(seed, number, scale))?;
    }
    Ok(())
}
