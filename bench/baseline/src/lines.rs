//! Lines of hexadecimal, from a stream and taken apart.

use std::io::{self, BufRead, Read};

/// How many characters a line may have.
pub const LONGEST: usize = 1024;

/// How many bytes a record may have.
pub const RECORD: usize = LONGEST / 2;

/// The lines of a stream, each held in one buffer.
pub struct Lines<R> {
    input: R,
    held: Vec<u8>,
}

impl<R: BufRead> Lines<R> {
    pub fn new(input: R) -> Self {
        Lines {
            input,
            held: Vec::with_capacity(LONGEST + 2),
        }
    }

    /// The next line without its newline. Of a line that is too long only so much is held that this shows.
    pub fn next_line(&mut self) -> io::Result<Option<&[u8]>> {
        self.held.clear();
        let most = LONGEST + 2;
        let read = self
            .input
            .by_ref()
            .take(most as u64)
            .read_until(b'\n', &mut self.held)?;
        if read == 0 {
            return Ok(None);
        }
        if self.held.last() == Some(&b'\n') {
            self.held.pop();
        } else if read == most {
            self.input.skip_until(b'\n')?;
        }
        Ok(Some(&self.held))
    }
}

const WRONG: u8 = 0xF0;

/// The value of each character as a digit.
const DIGITS: [u8; 256] = {
    let mut digits = [WRONG; 256];
    let mut value = 0;
    while value < 16 {
        digits[b"0123456789ABCDEF"[value] as usize] = value as u8;
        value += 1;
    }
    digits
};

/// The record that a line writes, in a buffer of the caller.
pub fn decode<'a>(line: &[u8], record: &'a mut [u8; RECORD]) -> Option<&'a [u8]> {
    if line.is_empty() || !line.len().is_multiple_of(2) || line.len() > LONGEST {
        return None;
    }
    let mut seen = 0;
    for (pair, byte) in line.chunks_exact(2).zip(record.iter_mut()) {
        let (high, low) = (DIGITS[pair[0] as usize], DIGITS[pair[1] as usize]);
        seen |= high | low;
        *byte = high << 4 | low;
    }
    (seen & WRONG == 0).then_some(&record[..line.len() / 2])
}

/// The character of each digit.
pub const CHARACTERS: &[u8; 16] = b"0123456789ABCDEF";

/// Writes a record as a line, without a newline.
pub fn encode(record: &[u8], line: &mut Vec<u8>) {
    for &byte in record {
        line.push(CHARACTERS[(byte >> 4) as usize]);
        line.push(CHARACTERS[(byte & 15) as usize]);
    }
}

#[cfg(test)]
mod tests {
    use super::*;

    fn read(input: &[u8]) -> Vec<Vec<u8>> {
        let mut lines = Lines::new(input);
        let mut all = Vec::new();
        while let Some(line) = lines.next_line().unwrap() {
            all.push(line.to_vec());
        }
        all
    }

    #[test]
    fn newlines_end_lines() {
        assert!(read(b"").is_empty());
        assert_eq!(read(b"\n"), [b""]);
        assert_eq!(read(b"01\n\n02"), [&b"01"[..], b"", b"02"]);
        assert_eq!(read(b"01\n02\n"), [b"01", b"02"]);
    }

    #[test]
    fn overlong_lines_are_cut() {
        for length in [1025, 1026, 1027, 5000] {
            let mut input = vec![b'0'; length];
            input.extend(b"\n01\n");
            let lines = read(&input);
            assert_eq!(lines.len(), 2);
            assert!(lines[0].len() > LONGEST && lines[0].len() <= LONGEST + 2);
            assert_eq!(lines[1], b"01");
        }
    }

    #[test]
    fn only_upper_case_digits_count() {
        let mut record = [0; RECORD];
        assert_eq!(decode(b"01AF", &mut record), Some(&[0x01, 0xAF][..]));
        for line in [&b""[..], b"0", b"0a", b"0\r", b"\xC3\xA9", &[b'0'; 1026]] {
            assert_eq!(decode(line, &mut record), None);
        }
    }
}
