//! A trace read record by record, and the lines it gives.

use std::io::{self, Read, Write};

use crate::machine::{Answer, Machine};
use crate::output::Output;
use crate::record::SIZE;

/// The longest trace that is replayed, in bytes.
pub const LIMIT: usize = 64_000;

/// Bytes read at a time from a trace without limit. Whole records fill it, so
/// that only the last piece can end inside one.
const PIECE: usize = SIZE << 14;

/// Replays a trace, or refuses it as a whole where it passes the limit.
pub fn replay(input: impl Read, sink: impl Write) -> io::Result<()> {
    let mut trace = Vec::with_capacity(LIMIT + 1);
    input.take(LIMIT as u64 + 1).read_to_end(&mut trace)?;
    if trace.len() > LIMIT {
        let mut output = Output::new(sink);
        output.line(|line| line.text(b"input -28"))?;
        return output.finish();
    }
    let mut replay = Replay::new(sink);
    let cut = replay.piece(&trace)?;
    replay.end(cut)
}

/// Replays a trace of any size in memory that does not grow.
pub fn replay_long(mut input: impl Read, sink: impl Write) -> io::Result<()> {
    let mut replay = Replay::new(sink);
    let mut buffer = vec![0; PIECE];
    loop {
        let length = fill(&mut input, &mut buffer)?;
        let cut = replay.piece(&buffer[..length])?;
        if length < PIECE {
            return replay.end(cut);
        }
    }
}

/// Reads until the buffer is full or the input ends.
fn fill(input: &mut impl Read, buffer: &mut [u8]) -> io::Result<usize> {
    let mut filled = 0;
    while filled < buffer.len() {
        match input.read(&mut buffer[filled..]) {
            Ok(0) => break,
            Ok(length) => filled += length,
            Err(error) if error.kind() == io::ErrorKind::Interrupted => {}
            Err(error) => return Err(error),
        }
    }
    Ok(filled)
}

struct Replay<W: Write> {
    machine: Machine,
    /// The number of the next record.
    number: u64,
    output: Output<W>,
}

impl<W: Write> Replay<W> {
    fn new(sink: W) -> Replay<W> {
        Replay {
            machine: Machine::new(),
            number: 0,
            output: Output::new(sink),
        }
    }

    /// Replays the whole records and says whether a cut one is left over.
    fn piece(&mut self, bytes: &[u8]) -> io::Result<bool> {
        let (records, rest) = bytes.as_chunks::<SIZE>();
        for record in records {
            let answer = self.machine.step(record);
            self.line(answer)?;
        }
        Ok(!rest.is_empty())
    }

    fn line(&mut self, answer: Answer) -> io::Result<()> {
        let number = self.number;
        self.number += 1;
        self.output.line(|line| {
            line.number(number);
            match answer {
                Ok((x, y)) => {
                    line.text(b" 0 ");
                    line.number(x);
                    line.byte(b' ');
                    line.number(y);
                }
                Err(refusal) => {
                    line.text(b" -");
                    line.number(refusal.number());
                    line.text(b" 0 0");
                }
            }
        })
    }

    fn end(mut self, cut: bool) -> io::Result<()> {
        if cut {
            self.output.line(|line| line.text(b"tail -22"))?;
        }
        let (ran, reading) = self.machine.end();
        self.output.line(|line| {
            line.text(b"end ");
            line.number(ran);
            line.byte(b' ');
            line.number(reading);
        })?;
        self.output.finish()
    }
}
