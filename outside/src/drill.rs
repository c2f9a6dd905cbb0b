//! The drill file: calls as runs of six drill numbers, and their answers.

use crate::monitor::{step, Monitor};
use crate::number;
use std::io::{self, Read, Write};

/// The most bytes one call takes.
const CALL_BYTES: usize = 6 * number::MAX_BYTES;

/// What stands at a place of a drill file.
#[derive(Clone, Copy, Debug, PartialEq, Eq)]
pub enum Next {
    /// The input ends between calls.
    End,
    /// A call and the place after it.
    Call([u32; 6], usize),
    /// A bad number: 17 or 18.
    Bad(i64),
}

/// Reads the call at `place`.
pub fn read_call(bytes: &[u8], place: usize) -> Next {
    if place >= bytes.len() {
        return Next::End;
    }
    let mut call = [0u32; 6];
    let mut at = place;
    for field in &mut call {
        match number::read(bytes, at) {
            Ok((value, next)) => {
                *field = value;
                at = next;
            }
            Err(refusal) => return Next::Bad(refusal),
        }
    }
    Next::Call(call, at)
}

/// Reads a whole drill file: the calls before a bad number, and its refusal.
pub fn read_calls(bytes: &[u8]) -> (Vec<[u32; 6]>, Option<i64>) {
    let mut calls = Vec::new();
    let mut place = 0;
    loop {
        match read_call(bytes, place) {
            Next::End => return (calls, None),
            Next::Bad(refusal) => return (calls, Some(refusal)),
            Next::Call(call, next) => {
                calls.push(call);
                place = next;
            }
        }
    }
}

/// Writes calls from the buffer's start and gives the place after them; 16 if
/// the buffer is too short, which then stays as it was.
pub fn write_calls(calls: &[[u32; 6]], buffer: &mut [u8]) -> Result<usize, i64> {
    let needed: usize = calls.iter().flatten().map(|&n| number::length(n)).sum();
    if buffer.len() < needed {
        return Err(number::SHORT_BUFFER);
    }
    calls
        .iter()
        .flatten()
        .try_fold(0, |place, &n| number::write(n, buffer, place))
}

/// Appends one call to a drill file in memory.
pub fn push_call(call: &[u32; 6], file: &mut Vec<u8>) {
    let mut room = [0u8; CALL_BYTES];
    let end = write_calls(std::slice::from_ref(call), &mut room).expect("room for a call");
    file.extend_from_slice(&room[..end]);
}

/// Appends a decimal number to a line.
fn push_decimal(value: i64, line: &mut Vec<u8>) {
    let mut digits = [0u8; 20];
    let mut at = digits.len();
    let mut left = value.unsigned_abs();
    loop {
        at -= 1;
        digits[at] = b'0' + (left % 10) as u8;
        left /= 10;
        if left == 0 {
            break;
        }
    }
    if value < 0 {
        line.push(b'-');
    }
    line.extend_from_slice(&digits[at..]);
}

/// Appends the six fields of an answer.
fn push_fields(answer: &[i64; 6], line: &mut Vec<u8>) {
    for (i, &field) in answer.iter().enumerate() {
        if i > 0 {
            line.push(b' ');
        }
        push_decimal(field, line);
    }
}

/// Appends the six fields of an answer as a line.
pub fn push_answer(answer: &[i64; 6], lines: &mut Vec<u8>) {
    push_fields(answer, lines);
    lines.push(b'\n');
}

/// Runs a drill file on a fresh monitor: one line a call; a bad number gives
/// its refusal alone and stops. The input may have any length.
pub fn run(input: impl Read, output: impl Write) -> io::Result<()> {
    run_with(input, output, |_, _, _| ())
}

/// As `run`, but `go_on` may append to the line of a call and its answer.
pub fn run_with(
    mut input: impl Read,
    mut output: impl Write,
    go_on: impl Fn(&[u32; 6], &[i64; 6], &mut Vec<u8>),
) -> io::Result<()> {
    const CHUNK: usize = 1 << 16;
    let mut monitor = Monitor::fresh();
    let mut buffer = vec![0u8; CHUNK];
    let (mut start, mut end) = (0, 0);
    let mut ended = false;
    let mut lines = Vec::with_capacity(2 * CHUNK);
    loop {
        // A call is read once it cannot run past the bytes at hand.
        while ended || end - start >= CALL_BYTES {
            match read_call(&buffer[..end], start) {
                Next::Call(call, next) => {
                    let answer = step(&mut monitor, call);
                    push_fields(&answer, &mut lines);
                    go_on(&call, &answer, &mut lines);
                    lines.push(b'\n');
                    start = next;
                }
                Next::End => {
                    output.write_all(&lines)?;
                    return output.flush();
                }
                Next::Bad(refusal) => {
                    push_decimal(refusal, &mut lines);
                    lines.push(b'\n');
                    output.write_all(&lines)?;
                    return output.flush();
                }
            }
            if lines.len() >= CHUNK {
                output.write_all(&lines)?;
                lines.clear();
            }
        }
        buffer.copy_within(start..end, 0);
        end -= start;
        start = 0;
        match input.read(&mut buffer[end..]) {
            Ok(0) => ended = true,
            Ok(n) => end += n,
            Err(e) if e.kind() == io::ErrorKind::Interrupted => {}
            Err(e) => return Err(e),
        }
    }
}

#[cfg(test)]
mod tests {
    use super::*;

    fn printed(bytes: &[u8]) -> String {
        let mut out = Vec::new();
        run(bytes, &mut out).unwrap();
        String::from_utf8(out).unwrap()
    }

    /// Gives one byte at a time.
    struct Drip<'a>(&'a [u8]);

    impl Read for Drip<'_> {
        fn read(&mut self, buf: &mut [u8]) -> io::Result<usize> {
            let n = buf.len().min(self.0.len()).min(1);
            buf[..n].copy_from_slice(&self.0[..n]);
            self.0 = &self.0[n..];
            Ok(n)
        }
    }

    const EXAMPLE: [u8; 25] = [
        0, 0, 1, 0, 0, 0, 0, 0, 3, 0, 0, 0, 0, 0, 0x0C, 5, 0, 7, 0x80, 1, 0, 4, 0, 0, 0,
    ];

    #[test]
    fn document_example() {
        let expected = "0 0 0 0 0 0\n0 0 0 0 0 1\n25 0 0 0 0 1\n0 0 0 0 0 0\n";
        assert_eq!(printed(&EXAMPLE), expected);
        let mut out = Vec::new();
        run(Drip(&EXAMPLE), &mut out).unwrap();
        assert_eq!(String::from_utf8(out).unwrap(), expected);
        let (calls, refusal) = read_calls(&EXAMPLE);
        assert_eq!(refusal, None);
        assert_eq!(calls[3], [128, 0, 4, 0, 0, 0]);
        let mut file = Vec::new();
        calls.iter().for_each(|call| push_call(call, &mut file));
        assert_eq!(file, EXAMPLE);
    }

    #[test]
    fn ends_and_bad_numbers() {
        assert_eq!(printed(&[]), "");
        assert_eq!(printed(&[0]), "17\n");
        assert_eq!(printed(&[0, 0, 1, 0, 0]), "17\n");
        assert_eq!(printed(&[0, 0, 1, 0, 0, 0, 0x80]), "0 0 0 0 0 0\n17\n");
        assert_eq!(
            printed(&[0, 0, 1, 0, 0, 0, 5, 0x80, 0, 0, 0, 0, 0, 0]),
            "0 0 0 0 0 0\n18\n"
        );
        assert_eq!(printed(&[0, 0xFF, 0xFF, 0xFF, 0xFF, 0x10]), "18\n");
    }

    #[test]
    fn short_buffer_stays() {
        let calls = [[0, 0, 1, 0, 0, 0], [300, 0, 4, 0, 0, 0]];
        let mut buffer = [7u8; 14];
        assert_eq!(write_calls(&calls, &mut buffer[..12]), Err(16));
        assert_eq!(buffer, [7u8; 14]);
        assert_eq!(write_calls(&calls, &mut buffer), Ok(13));
        assert_eq!(read_calls(&buffer[..13]), (calls.to_vec(), None));
        assert_eq!(buffer[13], 7);
    }

    #[test]
    fn decimals() {
        for value in [0, 7, -5, -102, 4_294_967_295, i64::MIN, i64::MAX] {
            let mut line = Vec::new();
            push_decimal(value, &mut line);
            assert_eq!(String::from_utf8(line).unwrap(), value.to_string());
        }
    }
}
