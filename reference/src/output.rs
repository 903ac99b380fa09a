//! A large output buffer for lines, which writes decimal numbers by hand.

use std::io::{self, Write};

/// Bytes gathered before they are handed on.
const CAPACITY: usize = 1 << 18;

/// More than any line needs: three numbers of 20 digits, a code and blanks.
const LONGEST_LINE: usize = 80;

/// Numbers are written in groups of eight digits, which fill one 64-bit word.
const GROUP: u64 = 100_000_000;

/// Eight times the character 0.
const ZEROS: u64 = 0x3030_3030_3030_3030;

pub struct Output<W: Write> {
    sink: W,
    bytes: Box<[u8]>,
    used: usize,
}

impl<W: Write> Output<W> {
    pub fn new(sink: W) -> Output<W> {
        Output {
            sink,
            bytes: vec![0; CAPACITY].into_boxed_slice(),
            used: 0,
        }
    }

    /// Writes one line, its line feed included.
    #[inline]
    pub fn line(&mut self, write: impl FnOnce(&mut Line)) -> io::Result<()> {
        if self.used + LONGEST_LINE > CAPACITY {
            self.hand_on()?;
        }
        let mut line = Line {
            place: &mut self.bytes[self.used..self.used + LONGEST_LINE],
            length: 0,
        };
        write(&mut line);
        line.byte(b'\n');
        self.used += line.length;
        Ok(())
    }

    /// Hands everything on. A dropped output loses what was not handed on.
    pub fn finish(mut self) -> io::Result<()> {
        self.hand_on()?;
        self.sink.flush()
    }

    fn hand_on(&mut self) -> io::Result<()> {
        self.sink.write_all(&self.bytes[..self.used])?;
        self.used = 0;
        Ok(())
    }
}

/// The place of one line in the buffer, and how much of it is written. Its
/// functions must be inlined: only then does the length stay in a register,
/// and going through memory for each field costs as much as the digits.
pub struct Line<'a> {
    place: &'a mut [u8],
    length: usize,
}

impl Line<'_> {
    #[inline(always)]
    pub fn text(&mut self, text: &[u8]) {
        self.place[self.length..self.length + text.len()].copy_from_slice(text);
        self.length += text.len();
    }

    #[inline(always)]
    pub fn byte(&mut self, byte: u8) {
        self.place[self.length] = byte;
        self.length += 1;
    }

    #[inline(always)]
    pub fn number(&mut self, number: u64) {
        if number < 10 {
            // Most fields are a single 0 or 1.
            self.byte(b'0' + number as u8);
        } else if number < GROUP {
            self.first_group(number);
        } else if number < GROUP * GROUP {
            self.first_group(number / GROUP);
            self.full_group(number % GROUP);
        } else {
            let low = number % (GROUP * GROUP);
            self.first_group(number / (GROUP * GROUP));
            self.full_group(low / GROUP);
            self.full_group(low % GROUP);
        }
    }

    /// Writes a group that is not 0 without its leading zeros. All eight bytes
    /// are stored and only some kept, because that needs no branch.
    #[inline(always)]
    fn first_group(&mut self, group: u64) {
        let digits = eight_digits(group);
        let zeros = digits.trailing_zeros() / 8;
        self.word((digits | ZEROS) >> (8 * zeros));
        self.length += 8 - zeros as usize;
    }

    #[inline(always)]
    fn full_group(&mut self, group: u64) {
        self.word(eight_digits(group) | ZEROS);
        self.length += 8;
    }

    #[inline(always)]
    fn word(&mut self, word: u64) {
        self.place[self.length..self.length + 8].copy_from_slice(&word.to_le_bytes());
    }
}

/// The digits of a number below 10^8, the first in the lowest byte. The number
/// is halved three times, and the halves of one step are divided together in
/// lanes of one word: by 100 with 10486 / 2^20 and by 10 with 103 / 2^10,
/// which are exact for numbers this small.
#[inline]
fn eight_digits(number: u64) -> u64 {
    let fours = (number / 10_000) | ((number % 10_000) << 32);
    let hundreds = ((fours * 10_486) >> 20) & 0x0000_007f_0000_007f;
    let twos = hundreds | ((fours - 100 * hundreds) << 16);
    let tens = ((twos * 103) >> 10) & 0x000f_000f_000f_000f;
    tens | ((twos - 10 * tens) << 8)
}
