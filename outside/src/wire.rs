//! The wire side of a request: document 003's primitives of section
//! 13.6.2 as drill numbers. Three sequences:
//!
//! - a reply is wanted, of a transaction: `1 1 2 3 service token 4`
//! - a reply is wanted, of none: `1 0 3 service token 4`
//! - no reply is wanted: `1 0 3 service token 5`

use crate::drill;
use crate::number;
use std::io::{self, Read, Write};

/// TP-BEGIN-DIALOGUE; then 1 if the link is of a transaction, else 0.
pub const BEGIN_DIALOGUE: u32 = 1;
/// TP-DEFERRED-END-DIALOGUE.
pub const DEFERRED_END_DIALOGUE: u32 = 2;
/// TP-DATA; then service and token.
pub const DATA: u32 = 3;
/// TP-GRANT-CONTROL.
pub const GRANT_CONTROL: u32 = 4;
/// TP-END-DIALOGUE.
pub const END_DIALOGUE: u32 = 5;

/// The request cannot be written.
pub const NOT_WRITABLE: i64 = 22;
/// The input is none of the sequences.
pub const NO_SEQUENCE: i64 = 33;

/// The most bytes a sequence takes: seven numbers, of which only the token is
/// ever longer than a byte.
pub const MAX_BYTES: usize = 6 + number::MAX_BYTES;

/// What a sequence means.
#[derive(Clone, Copy, Debug, PartialEq, Eq)]
pub struct Request {
    pub service: u32,
    pub token: u32,
    /// 1 if a reply is wanted, 0 if none.
    pub reply: u32,
    /// 1 if the link is of a transaction, 0 if not.
    pub tx: u32,
}

/// "With a service of 1 to 64".
fn is_service(service: u32) -> bool {
    (1..=64).contains(&service)
}

/// The numbers of a request, or nothing where it cannot be written: for other
/// services, and for no reply in a transaction.
fn numbers(request: &Request) -> Option<Vec<u32>> {
    let Request {
        service,
        token,
        reply,
        tx,
    } = *request;
    let good = matches!((reply, tx), (1, 1) | (1, 0) | (0, 0));
    if !good || !is_service(service) {
        return None;
    }
    let mut numbers = vec![BEGIN_DIALOGUE, tx];
    if tx == 1 {
        numbers.push(DEFERRED_END_DIALOGUE);
    }
    numbers.extend([DATA, service, token]);
    numbers.push(if reply == 1 {
        GRANT_CONTROL
    } else {
        END_DIALOGUE
    });
    Some(numbers)
}

/// Writes a request at the buffer's front and gives how many bytes it took; 22
/// if it cannot be written, then 16 if the buffer is too short, which both
/// leave as it was.
pub fn write(buffer: &mut [u8], request: &Request) -> Result<usize, i64> {
    let numbers = numbers(request).ok_or(NOT_WRITABLE)?;
    let needed: usize = numbers.iter().map(|&n| number::length(n)).sum();
    if buffer.len() < needed {
        return Err(number::SHORT_BUFFER);
    }
    numbers
        .iter()
        .try_fold(0, |place, &n| number::write(n, buffer, place))
}

/// All numbers of the input, left to right to its very end; the first bad one
/// decides: 17 or 18.
fn all_numbers(input: &[u8]) -> Result<Vec<u32>, i64> {
    let mut numbers = Vec::new();
    let mut place = 0;
    while place < input.len() {
        let (value, next) = number::read(input, place)?;
        numbers.push(value);
        place = next;
    }
    Ok(numbers)
}

/// What the numbers mean, if they are one of the sequences and nothing more.
fn meaning(numbers: &[u32]) -> Option<Request> {
    let (service, token, reply, tx) = match *numbers {
        [BEGIN_DIALOGUE, 1, DEFERRED_END_DIALOGUE, DATA, service, token, GRANT_CONTROL] => {
            (service, token, 1, 1)
        }
        [BEGIN_DIALOGUE, 0, DATA, service, token, GRANT_CONTROL] => (service, token, 1, 0),
        [BEGIN_DIALOGUE, 0, DATA, service, token, END_DIALOGUE] => (service, token, 0, 0),
        _ => return None,
    };
    is_service(service).then_some(Request {
        service,
        token,
        reply,
        tx,
    })
}

/// Reads a request: 17 or 18 for the first bad number, wherever it stands;
/// only then 33 for anything but one of the sequences.
pub fn read(input: &[u8]) -> Result<Request, i64> {
    meaning(&all_numbers(input)?).ok_or(NO_SEQUENCE)
}

/// The request that an accepted kind 12 puts on the wire; nothing for every
/// other call and answer.
pub fn of(call: &[u32; 6], answer: &[i64; 6]) -> Option<Request> {
    let [_, _, kind, a, b, c] = *call;
    let [code, _, _, _, _, t] = *answer;
    let (no_reply, no_transaction) = (b & 1 != 0, b & 2 != 0);
    (kind == 12 && code == 0).then_some(Request {
        service: a,
        token: c,
        reply: u32::from(!no_reply),
        tx: u32::from(!no_transaction && t != 0),
    })
}

/// Goes on with the line of an accepted kind 12: a colon, then a space and two
/// hex digits for each byte of its sequence.
fn push_sequence(call: &[u32; 6], answer: &[i64; 6], line: &mut Vec<u8>) {
    if let Some(request) = of(call, answer) {
        let mut room = [0u8; MAX_BYTES];
        let end = write(&mut room, &request).expect("a request that can be written");
        line.push(b':');
        for byte in &room[..end] {
            line.extend_from_slice(format!(" {byte:02x}").as_bytes());
        }
    }
}

/// Runs a drill file as `drill::run` does, the sequence of each accepted kind
/// 12 on its line.
pub fn run(input: impl Read, output: impl Write) -> io::Result<()> {
    drill::run_with(input, output, push_sequence)
}

#[cfg(test)]
mod tests {
    use super::*;
    use crate::generator;
    use crate::monitor::{step, Monitor};
    use std::fs;
    use std::path::Path;

    /// The pairs (reply, tx) that can be written.
    const PAIRS: [(u32, u32); 3] = [(1, 1), (1, 0), (0, 0)];

    fn request(service: u32, token: u32, reply: u32, tx: u32) -> Request {
        Request {
            service,
            token,
            reply,
            tx,
        }
    }

    fn written(request: Request) -> Vec<u8> {
        let mut buffer = [0xEE; 16];
        let end = write(&mut buffer, &request).unwrap();
        assert_eq!(buffer[end..], [0xEE; 16][end..]);
        buffer[..end].to_vec()
    }

    #[test]
    fn three_sequences() {
        assert_eq!(written(request(5, 7, 1, 1)), [1, 1, 2, 3, 5, 7, 4]);
        assert_eq!(written(request(5, 7, 1, 0)), [1, 0, 3, 5, 7, 4]);
        assert_eq!(written(request(5, 7, 0, 0)), [1, 0, 3, 5, 7, 5]);
        assert_eq!(read(&[1, 1, 2, 3, 5, 7, 4]), Ok(request(5, 7, 1, 1)));
        assert_eq!(read(&[1, 0, 3, 5, 7, 4]), Ok(request(5, 7, 1, 0)));
        assert_eq!(read(&[1, 0, 3, 5, 7, 5]), Ok(request(5, 7, 0, 0)));
        // A token is in the drill format, and may look like anything else.
        assert_eq!(
            written(request(64, 300, 0, 0)),
            [1, 0, 3, 64, 0xAC, 0x02, 5]
        );
        assert_eq!(
            read(&[1, 0, 3, 64, 0xAC, 0x02, 5]),
            Ok(request(64, 300, 0, 0))
        );
        assert_eq!(read(&[1, 0, 3, 3, 3, 4]), Ok(request(3, 3, 1, 0)));
        assert_eq!(read(&[1, 0, 3, 5, 4, 5]), Ok(request(5, 4, 0, 0)));
        assert_eq!(read(&[1, 0, 3, 4, 5, 4]), Ok(request(4, 5, 1, 0)));
    }

    #[test]
    fn round_trips() {
        for service in 1..=64 {
            for token in [0, 1, 127, 128, 16_383, 16_384, 1 << 21, 1 << 28, u32::MAX] {
                for (reply, tx) in PAIRS {
                    let request = request(service, token, reply, tx);
                    let bytes = written(request);
                    assert_eq!(read(&bytes), Ok(request));
                    // Stopped early: 17 inside a number, else 33.
                    for cut in 0..bytes.len() {
                        let inside = cut > 0 && bytes[cut - 1] >= 0x80;
                        let refusal = if inside { 17 } else { 33 };
                        assert_eq!(read(&bytes[..cut]), Err(refusal));
                    }
                }
            }
        }
    }

    #[test]
    fn longest() {
        let sizes = PAIRS.map(|(reply, tx)| written(request(64, u32::MAX, reply, tx)).len());
        assert_eq!(sizes, [11, 10, 10]);
        assert_eq!(MAX_BYTES, 11);
        assert_eq!(
            written(request(64, u32::MAX, 1, 1)),
            [1, 1, 2, 3, 64, 0xFF, 0xFF, 0xFF, 0xFF, 0x0F, 4]
        );
    }

    #[test]
    fn writing_refuses_by_22() {
        for (reply, tx) in [(0, 1), (2, 0), (1, 2), (2, 2), (0, 2), (2, 1)] {
            let mut buffer = [9u8; 16];
            assert_eq!(write(&mut buffer, &request(5, 7, reply, tx)), Err(22));
            assert_eq!(buffer, [9; 16]);
            // Asked before the room is.
            assert_eq!(write(&mut [], &request(5, 7, reply, tx)), Err(22));
        }
        for service in [0, 65, 128, 1 << 8 | 5, 1 << 16 | 5, u32::MAX] {
            for (reply, tx) in PAIRS {
                let mut buffer = [9u8; 16];
                assert_eq!(write(&mut buffer, &request(service, 7, reply, tx)), Err(22));
                assert_eq!(buffer, [9; 16]);
                assert_eq!(write(&mut [], &request(service, 7, reply, tx)), Err(22));
            }
        }
    }

    #[test]
    fn short_buffer_stays() {
        for (request, needed) in [
            (request(5, 7, 1, 1), 7),
            (request(5, 7, 1, 0), 6),
            (request(5, 7, 0, 0), 6),
            (request(64, 128, 1, 1), 8),
            (request(64, u32::MAX, 1, 1), 11),
            (request(64, u32::MAX, 0, 0), 10),
        ] {
            for room in 0..13 {
                let mut buffer = vec![9u8; room];
                let answer = write(&mut buffer, &request);
                if room < needed {
                    assert_eq!(answer, Err(16));
                    assert_eq!(buffer, vec![9; room]);
                } else {
                    assert_eq!(answer, Ok(needed));
                    assert!(buffer[needed..].iter().all(|&byte| byte == 9));
                }
            }
        }
    }

    #[test]
    fn no_such_sequence() {
        let inputs: [&[u8]; 32] = [
            &[],
            &[0],
            &[1],
            &[1, 0],
            &[1, 1],
            // Not begun by 1.
            &[0, 0, 3, 5, 7, 4],
            &[2, 0, 3, 5, 7, 4],
            &[3, 5, 7, 4],
            // After 1 neither 0 nor 1.
            &[1, 2, 3, 5, 7, 4],
            &[1, 2, 2, 3, 5, 7, 4],
            &[1, 0x80, 1, 3, 5, 7, 4],
            &[1, 3, 5, 7, 4],
            // 2 without a transaction, or missing with one.
            &[1, 0, 2, 3, 5, 7, 4],
            &[1, 0, 2, 3, 5, 7, 5],
            &[1, 1, 3, 5, 7, 4],
            &[1, 1, 2, 2, 3, 5, 7, 4],
            // 5 with a transaction; 4 and 5 both, or neither.
            &[1, 1, 2, 3, 5, 7, 5],
            &[1, 1, 3, 5, 7, 5],
            &[1, 0, 3, 5, 7],
            &[1, 0, 3, 5, 7, 4, 5],
            &[1, 0, 3, 5, 7, 5, 4],
            &[1, 0, 3, 5, 7, 6],
            // Another number than 3, or the data incomplete.
            &[1, 0, 4, 5, 7, 4],
            &[1, 0, 3, 5, 4],
            &[1, 1, 2, 3, 5, 4],
            // Services outside 1 to 64.
            &[1, 0, 3, 0, 7, 4],
            &[1, 0, 3, 65, 7, 5],
            &[1, 1, 2, 3, 0x80, 1, 7, 4],
            // Something after the end.
            &[1, 0, 3, 5, 7, 4, 0],
            &[1, 1, 2, 3, 5, 7, 4, 0],
            &[1, 1, 2, 3, 5, 7, 4, 4],
            &[1, 0, 3, 5, 7, 5, 1, 0, 3, 5, 7, 5],
        ];
        for input in inputs {
            assert_eq!(read(input), Err(33), "{input:?}");
        }
        assert_eq!(read(&[0; 255]), Err(33));
        let service = |n: u32| {
            let mut bytes = vec![1, 0, 3];
            let mut room = [0u8; number::MAX_BYTES];
            let end = number::write(n, &mut room, 0).unwrap();
            bytes.extend_from_slice(&room[..end]);
            bytes.extend_from_slice(&[7, 4]);
            read(&bytes)
        };
        for n in [0, 65, 127, 128, 256 + 5, u32::MAX] {
            assert_eq!(service(n), Err(33));
        }
        for n in [1, 5, 63, 64] {
            assert_eq!(service(n), Ok(request(n, 7, 1, 0)));
        }
    }

    #[test]
    fn bad_numbers_come_first() {
        // Behind nothing, a whole sequence, one that stops early, a wrong one.
        let fronts: [&[u8]; 8] = [
            &[],
            &[1, 1, 2, 3, 5, 7, 4],
            &[1, 0, 3, 5, 7, 4],
            &[1, 0, 3, 5, 7, 5],
            &[1, 0, 3],
            &[9, 9, 9],
            &[1, 0, 3, 65, 7, 4],
            &[1, 0, 3, 5, 7, 4, 0, 0, 0, 0, 0, 0],
        ];
        for front in fronts {
            let with = |rest: &[u8]| read(&[front, rest].concat());
            assert_eq!(with(&[0x80]), Err(17));
            assert_eq!(with(&[0xFF, 0xFF, 0xFF, 0xFF]), Err(17));
            assert_eq!(with(&[0x80, 0x00]), Err(18));
            assert_eq!(with(&[0xFF, 0xFF, 0xFF, 0xFF, 0x10]), Err(18));
            assert_eq!(with(&[0x80, 0x80, 0x80, 0x80, 0x80]), Err(18));
            // The first bad one decides.
            assert_eq!(with(&[0x80, 0x00, 0x80]), Err(18));
            assert_eq!(with(&[0x80, 0x00, 1, 0, 3, 5, 7, 4]), Err(18));
        }
        // A service or a token longer than needed, or cut.
        assert_eq!(read(&[1, 0, 3, 0x85, 0x00, 7, 4]), Err(18));
        assert_eq!(read(&[1, 0, 3, 5, 0x87, 0x00, 4]), Err(18));
        assert_eq!(read(&[0x81, 0x00, 0, 3, 5, 7, 4]), Err(18));
        assert_eq!(read(&[1, 0, 3, 5, 0x87]), Err(17));
    }

    #[test]
    fn of_a_call_and_its_answer() {
        let accepted = |a, b, c, t| of(&[9, 3, 12, a, b, c], &[0, 1, 0, 0, 0, t]);
        assert_eq!(accepted(5, 0, 7, 1), Some(request(5, 7, 1, 1)));
        assert_eq!(accepted(5, 0, 7, 60_000), Some(request(5, 7, 1, 1)));
        assert_eq!(accepted(5, 0, 7, 0), Some(request(5, 7, 1, 0)));
        assert_eq!(accepted(5, 1, 7, 0), Some(request(5, 7, 0, 0)));
        assert_eq!(accepted(5, 2, 7, 1), Some(request(5, 7, 1, 0)));
        assert_eq!(accepted(5, 3, 7, 1), Some(request(5, 7, 0, 0)));
        // As the call has it, whether or not it can be written.
        assert_eq!(accepted(5, 1, 7, 1), Some(request(5, 7, 0, 1)));
        assert_eq!(accepted(100, 4, 7, 1), Some(request(100, 7, 1, 1)));
        assert_eq!(accepted(0, 7, 0, 1), Some(request(0, 0, 0, 0)));
        for code in [22, 23, 25, 26, 28, 29, -5, 1 << 32, i64::MIN] {
            assert_eq!(of(&[0, 0, 12, 5, 0, 7], &[code, 0, 0, 0, 0, 1]), None);
        }
        for kind in [0, 1, 11, 13, 15, 256 + 12, u32::MAX] {
            assert_eq!(of(&[0, 0, kind, 5, 0, 7], &[0, 1, 0, 0, 0, 1]), None);
        }
    }

    #[test]
    fn lines() {
        let printed = |bytes: &[u8]| {
            let mut out = Vec::new();
            run(bytes, &mut out).unwrap();
            String::from_utf8(out).unwrap()
        };
        // Party 1 offers 5; party 0 asks for it in its transaction and outside,
        // wants no reply, asks for 6; the last call is cut.
        let file = [
            [0, 1, 10, 5, 0, 0],
            [0, 0, 1, 0, 0, 0],
            [0, 0, 3, 0, 0, 0],
            [0, 0, 12, 5, 0, 7],
            [0, 0, 12, 5, 2, 127],
            [0, 0, 12, 5, 3, 0],
            [0, 0, 12, 5, 1, 0],
            [0, 0, 12, 6, 0, 7],
            [0, 0, 13, 5, 4, 7],
        ]
        .concat();
        assert_eq!(
            printed(&[&file[..], &[0, 0, 12]].concat()),
            "0 1 0 0 0 0\n\
             0 0 0 0 0 0\n\
             0 0 0 0 0 1\n\
             0 1 0 0 0 1: 01 01 02 03 05 07 04\n\
             0 2 0 0 0 1: 01 00 03 05 7f 04\n\
             0 0 0 0 0 1: 01 00 03 05 00 05\n\
             22 0 0 0 0 1\n\
             25 0 0 0 0 1\n\
             0 4 0 0 0 1\n\
             17\n"
        );
        assert_eq!(printed(&[]), "");
        assert_eq!(printed(&[0x80, 0x00]), "18\n");
    }

    /// How many lines have each of the three sequences, after asking that the
    /// lines are those of `drill` and that what stands behind the colon reads
    /// back as what the call and its answer say.
    fn sequences(file: &[u8]) -> [usize; 3] {
        let printed = |run: fn(&[u8], &mut Vec<u8>) -> io::Result<()>| {
            let mut out = Vec::new();
            run(file, &mut out).unwrap();
            String::from_utf8(out).unwrap()
        };
        let plain = printed(|file, out| drill::run(file, out));
        let told = printed(|file, out| run(file, out));
        let front = |line: &str| line.split(':').next().unwrap().to_owned();
        assert!(told.lines().map(front).eq(plain.lines()));

        let (calls, refusal) = drill::read_calls(file);
        let lines: Vec<&str> = told.lines().collect();
        assert_eq!(lines.len(), calls.len() + usize::from(refusal.is_some()));
        let mut monitor = Monitor::fresh();
        let mut counts = [0; 3];
        for (call, line) in calls.into_iter().zip(lines) {
            let answer = step(&mut monitor, call);
            let bytes: Option<Vec<u8>> = line.split_once(": ").map(|(_, digits)| {
                let byte = |digits| u8::from_str_radix(digits, 16).unwrap();
                digits.split(' ').map(byte).collect()
            });
            assert_eq!(bytes.is_some(), call[2] == 12 && answer[0] == 0);
            if let Some(bytes) = bytes {
                assert!(bytes.len() <= MAX_BYTES);
                let request = read(&bytes).unwrap();
                assert_eq!(of(&call, &answer), Some(request));
                let pair = |&pair: &(u32, u32)| pair == (request.reply, request.tx);
                counts[PAIRS.iter().position(pair).unwrap()] += 1;
            }
        }
        counts
    }

    #[test]
    fn stored_drill_files() {
        let crates = Path::new(concat!(env!("CARGO_MANIFEST_DIR"), "/../crates"));
        let mut files: Vec<_> = fs::read_dir(crates.join("drill_cases/data"))
            .unwrap()
            .map(|entry| entry.unwrap().path())
            .collect();
        files.push(crates.join("drill/stdin"));
        let mut counts = [0; 3];
        for file in &files {
            let found = sequences(&fs::read(file).unwrap());
            (0..3).for_each(|i| counts[i] += found[i]);
        }
        assert!(counts.iter().all(|&count| count > 0), "{counts:?}");
    }

    #[test]
    fn random_drill_files() {
        let mut counts = [0; 3];
        for seed in 0..20 {
            let mut file = Vec::new();
            generator::random(seed, 2000, &mut |_, call, _| {
                drill::push_call(&call, &mut file)
            });
            let found = sequences(&file);
            (0..3).for_each(|i| counts[i] += found[i]);
        }
        assert!(counts.iter().all(|&count| count > 100), "{counts:?}");
    }
}
