//! The program `race`: times two programs turn by turn on the same standard input, after their outputs were found equal.

use std::env;
use std::error::Error;
use std::fs::File;
use std::process::{Command, ExitCode, Stdio};
use std::time::{Duration, Instant};

const USAGE: &str = "usage: race ROUNDS FILE PROGRAM [WORD..] -- PROGRAM [WORD..]";

fn main() -> ExitCode {
    let arguments: Vec<String> = env::args().skip(1).collect();
    match race(&arguments) {
        Ok(()) => ExitCode::SUCCESS,
        Err(error) => {
            eprintln!("race: {error}");
            ExitCode::FAILURE
        }
    }
}

fn race(arguments: &[String]) -> Result<(), Box<dyn Error>> {
    let [rounds, input, words @ ..] = arguments else {
        return Err(USAGE.into());
    };
    let rounds: usize = rounds.parse()?;
    let commands: Vec<&[String]> = words.split(|word| word == "--").collect();
    let [first, second] = commands[..] else {
        return Err(USAGE.into());
    };
    if rounds == 0 || first.is_empty() || second.is_empty() {
        return Err(USAGE.into());
    }
    if output(first, input)? != output(second, input)? {
        return Err("the outputs differ".into());
    }
    let (mut of_first, mut of_second) = (Vec::new(), Vec::new());
    for _ in 0..rounds {
        of_first.push(time(first, input)?);
        of_second.push(time(second, input)?);
    }
    let (a, b) = (median(of_first), median(of_second));
    println!("outputs equal; medians of {rounds} runs each, turn by turn:");
    println!("  {:8.1} ms  {}", milliseconds(a), first.join(" "));
    println!("  {:8.1} ms  {}", milliseconds(b), second.join(" "));
    println!("  ratio {:.3}", a.as_secs_f64() / b.as_secs_f64());
    Ok(())
}

fn command(words: &[String], input: &str) -> Result<Command, Box<dyn Error>> {
    let mut command = Command::new(&words[0]);
    command.args(&words[1..]).stdin(File::open(input)?);
    Ok(command)
}

fn output(words: &[String], input: &str) -> Result<Vec<u8>, Box<dyn Error>> {
    let output = command(words, input)?.stderr(Stdio::inherit()).output()?;
    if !output.status.success() {
        return Err(format!("{} failed", words[0]).into());
    }
    Ok(output.stdout)
}

fn time(words: &[String], input: &str) -> Result<Duration, Box<dyn Error>> {
    let mut command = command(words, input)?;
    let began = Instant::now();
    let status = command.stdout(Stdio::null()).status()?;
    let took = began.elapsed();
    if !status.success() {
        return Err(format!("{} failed", words[0]).into());
    }
    Ok(took)
}

fn median(mut times: Vec<Duration>) -> Duration {
    times.sort();
    times[times.len() / 2]
}

fn milliseconds(time: Duration) -> f64 {
    time.as_secs_f64() * 1000.0
}
