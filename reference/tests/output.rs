//! The handwritten decimal numbers against those of the standard library.

use std::io::{self, Write};

use reference::output::Output;

fn written(numbers: &[u64]) -> Vec<u8> {
    let mut bytes = Vec::new();
    let mut output = Output::new(&mut bytes);
    for number in numbers {
        output.line(|line| line.number(*number)).unwrap();
    }
    output.finish().unwrap();
    bytes
}

fn expected(numbers: &[u64]) -> Vec<u8> {
    let lines: Vec<String> = numbers.iter().map(|n| format!("{n}\n")).collect();
    lines.concat().into_bytes()
}

/// More than one buffer full, and every value each half of a group can take.
#[test]
fn all_halves_of_a_group() {
    let mut numbers: Vec<u64> = (0..20_000).collect();
    numbers.extend((0..10_000).map(|high| high * 10_000 + 9_999));
    numbers.extend((0..10_000).map(|high| 7_000_000_012_345_678 + high * 100_000_000));
    assert!(written(&numbers) == expected(&numbers));
}

#[test]
fn powers_of_ten_and_two() {
    let tens = (0..20).map(|power| 10u64.pow(power));
    let twos = (0..64).map(|power| 1u64 << power);
    let mut numbers = vec![u64::MAX];
    for number in tens.chain(twos) {
        numbers.extend([number - 1, number, number + 1]);
    }
    assert!(written(&numbers) == expected(&numbers));
}

#[test]
fn longest_line_fits() {
    let mut bytes = Vec::new();
    let mut output = Output::new(&mut bytes);
    for _ in 0..10_000 {
        let field = |line: &mut reference::output::Line| {
            line.number(u64::MAX);
            line.text(b" 0 ");
            line.number(u64::MAX);
            line.byte(b' ');
            line.number(u64::MAX);
        };
        output.line(field).unwrap();
    }
    output.finish().unwrap();
    assert_eq!(bytes.len(), 10_000 * 65);
}

struct Full;

impl Write for Full {
    fn write(&mut self, _: &[u8]) -> io::Result<usize> {
        Err(io::Error::other("full"))
    }

    fn flush(&mut self) -> io::Result<()> {
        Ok(())
    }
}

#[test]
fn failure_of_the_sink_is_told() {
    let mut output = Output::new(Full);
    output.line(|line| line.text(b"lost")).unwrap();
    assert!(output.finish().is_err());
}
