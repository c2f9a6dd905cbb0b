//! Asks the wire side of requests, in queries of bytes, and answers them.
//!
//! wire_vectors                     answers the queries of standard input, a line each
//! wire_vectors make                the queries that are stored
//! wire_vectors random SEED COUNT   COUNT random queries
//!
//! A query starts with two bytes: what is asked, and a count n. Its numbers are
//! 32 bits, lowest byte first.
//!
//! - `00 n`, n bytes: reads them.
//! - `01 n`, service, token, reply, tx: writes the request into n bytes, each ee;
//!   n is at most 16.
//! - `02 00`, a call's six numbers and its answer's (the code in 64 bits,
//!   signed): the request of this call and answer.

use outside::generator::Rng;
use outside::number;
use outside::wire::{self, Request};
use std::collections::HashSet;
use std::io::{self, BufWriter, Read, Write};
use std::process::ExitCode;

/// What stands in a lent byte before.
const BYTE: u8 = 0xEE;
/// The most bytes lent to the writer.
const MOST_ROOM: u8 = 16;

#[derive(Clone, Debug, PartialEq, Eq, Hash)]
enum Query {
    Read(Vec<u8>),
    Write(u8, [u32; 4]),
    Of([u32; 6], i64, [u32; 5]),
}

/// The first bytes of what is left, if there are as many.
fn take<'a>(left: &mut &'a [u8], count: usize) -> Option<&'a [u8]> {
    let (taken, rest) = left.split_at_checked(count)?;
    *left = rest;
    Some(taken)
}

fn take_numbers<const N: usize>(left: &mut &[u8]) -> Option<[u32; N]> {
    let bytes = take(left, 4 * N)?;
    Some(std::array::from_fn(|i| {
        u32::from_le_bytes(bytes[4 * i..][..4].try_into().expect("four bytes"))
    }))
}

fn push_numbers(numbers: &[u32], bytes: &mut Vec<u8>) {
    bytes.extend(numbers.iter().flat_map(|n| n.to_le_bytes()));
}

fn hex(bytes: &[u8]) -> String {
    bytes.iter().map(|b| format!(" {b:02x}")).collect()
}

fn four(request: &Request) -> String {
    let Request {
        service,
        token,
        reply,
        tx,
    } = request;
    format!("{service} {token} {reply} {tx}")
}

impl Query {
    /// The query that what is left starts with; nothing for an incomplete or
    /// unknown one.
    fn take(left: &mut &[u8]) -> Option<Query> {
        match *take(left, 2)? {
            [0, n] => Some(Query::Read(take(left, usize::from(n))?.to_vec())),
            [1, n] if n <= MOST_ROOM => Some(Query::Write(n, take_numbers(left)?)),
            [2, 0] => {
                let call = take_numbers(left)?;
                let code = take(left, 8)?.try_into().expect("eight bytes");
                let rest = take_numbers(left)?;
                Some(Query::Of(call, i64::from_le_bytes(code), rest))
            }
            _ => None,
        }
    }

    /// Appends the query to others.
    fn push(&self, bytes: &mut Vec<u8>) {
        match self {
            Query::Read(input) => {
                bytes.extend([0, u8::try_from(input.len()).expect("at most 255 bytes")]);
                bytes.extend(input);
            }
            Query::Write(room, numbers) => {
                bytes.extend([1, *room]);
                push_numbers(numbers, bytes);
            }
            Query::Of(call, code, rest) => {
                bytes.extend([2, 0]);
                push_numbers(call, bytes);
                bytes.extend(code.to_le_bytes());
                push_numbers(rest, bytes);
            }
        }
    }

    /// The query and its answer.
    fn line(&self) -> String {
        match self {
            Query::Read(input) => match wire::read(input) {
                Ok(request) => format!("read{}: {}", hex(input), four(&request)),
                Err(code) => format!("read{}: refused {code}", hex(input)),
            },
            Query::Write(room, [service, token, reply, tx]) => {
                let request = Request {
                    service: *service,
                    token: *token,
                    reply: *reply,
                    tx: *tx,
                };
                let mut buffer = vec![BYTE; usize::from(*room)];
                let told = match wire::write(&mut buffer, &request) {
                    Ok(count) => count.to_string(),
                    Err(code) => format!("refused {code}"),
                };
                let (asked, buffer) = (four(&request), hex(&buffer));
                format!("write {asked} room {room}: {told} in{buffer}")
            }
            Query::Of(call, code, rest) => {
                let [value, event, token, service, t] = rest.map(i64::from);
                let answer = [*code, value, event, token, service, t];
                let told = wire::of(call, &answer)
                    .map_or_else(|| "nothing".to_owned(), |request| four(&request));
                let six = |numbers: &[i64; 6]| numbers.map(|n| n.to_string()).join(" ");
                format!("of {}, {}: {told}", six(&call.map(i64::from)), six(&answer))
            }
        }
    }
}

/// The three sequences, without service and token.
const FORMS: [(&[u32], u32); 3] = [(&[1, 1, 2, 3], 4), (&[1, 0, 3], 4), (&[1, 0, 3], 5)];

fn sequence((front, last): (&[u32], u32), service: u32, token: u32) -> Vec<u32> {
    [front, &[service, token, last]].concat()
}

fn bytes_of(numbers: &[u32]) -> Vec<u8> {
    let mut bytes = vec![0; number::MAX_BYTES * numbers.len()];
    let end = numbers
        .iter()
        .try_fold(0, |place, &n| number::write(n, &mut bytes, place));
    bytes.truncate(end.expect("room for the numbers"));
    bytes
}

/// Numbers that are cut, longer than needed, too large and too long.
const BAD: [&[u8]; 4] = [
    &[0x80],
    &[0x80, 0x00],
    &[0xFF, 0xFF, 0xFF, 0xFF, 0x10],
    &[0x80, 0x80, 0x80, 0x80, 0x80],
];

/// What is one change away from the numbers: each one up and down, each left
/// out, each twice; something after the end.
fn changed(numbers: &[u32]) -> Vec<Vec<u32>> {
    let mut all = Vec::new();
    for (i, &n) in numbers.iter().enumerate() {
        let (front, rest) = (&numbers[..i], &numbers[i + 1..]);
        let instead = |middle: &[u32]| [front, middle, rest].concat();
        all.push(instead(&[n.wrapping_add(1)]));
        all.push(instead(&[n.wrapping_sub(1)]));
        all.push(instead(&[]));
        all.push(instead(&[n, n]));
    }
    for after in [&[0], &[1], &[4], &[5], &[128], numbers] {
        all.push([numbers, after].concat());
    }
    all
}

fn fixed_writes() -> Vec<Query> {
    let pairs = [(1, 1), (1, 0), (0, 0), (0, 1), (2, 0), (1, 2), (2, 2)];
    let mut queries = Vec::new();
    for (reply, tx) in pairs {
        for service in [1, 64, 0, 65, 128, u32::MAX] {
            let writable = pairs[..3].contains(&(reply, tx)) && [1, 64].contains(&service);
            let rooms: Vec<u8> = if writable {
                (0..=12).collect()
            } else {
                vec![0, 12]
            };
            for token in [0, 127, 128, 16384, u32::MAX] {
                for &room in &rooms {
                    queries.push(Query::Write(room, [service, token, reply, tx]));
                }
            }
        }
    }
    queries
}

/// Reads of the three sequences and of what is near to them.
fn near_reads() -> Vec<Vec<u8>> {
    let mut inputs = Vec::new();
    for form in FORMS {
        for service in [1, 64] {
            for token in [0, 127, 128, u32::MAX] {
                let numbers = sequence(form, service, token);
                let whole = bytes_of(&numbers);
                for end in 0..=whole.len() {
                    inputs.push(whole[..end].to_vec());
                }
                for wrong in changed(&numbers) {
                    let wrong = bytes_of(&wrong);
                    inputs.push(wrong.clone());
                    inputs.extend(BAD.map(|bad| [&wrong, bad].concat()));
                }
                inputs.extend(BAD.map(|bad| [&whole, bad].concat()));
                for i in 0..numbers.len() {
                    let (front, rest) = numbers.split_at(i);
                    inputs.push([&bytes_of(front), BAD[1], &bytes_of(rest)].concat());
                }
            }
        }
    }
    inputs
}

/// Reads that the request names one by one.
fn named_reads() -> Vec<Vec<u8>> {
    let mut inputs = vec![vec![]];
    for form in FORMS {
        for service in [0, 63, 65, 127, 128, u32::MAX] {
            inputs.push(bytes_of(&sequence(form, service, 7)));
        }
        // After 1 neither 0 nor 1.
        for second in [2, 3, 128] {
            let mut numbers = sequence(form, 5, 7);
            numbers[1] = second;
            inputs.push(bytes_of(&numbers));
            inputs.push(bytes_of(&numbers[..2]));
        }
        // A number longer than needed, at each place.
        for token in [0, 7, 128, 1 << 21, u32::MAX] {
            let numbers = sequence(form, 5, token);
            for i in 0..numbers.len() {
                let mut longer = bytes_of(&numbers[..=i]);
                *longer.last_mut().expect("a number") |= 0x80;
                longer.push(0);
                longer.extend(bytes_of(&numbers[i + 1..]));
                inputs.push(longer);
            }
        }
    }
    let numbers: [&[u32]; 15] = [
        // 2 without a transaction, and missing with one.
        &[1, 0, 2, 3, 5, 7, 4],
        &[1, 0, 2, 3, 5, 7, 5],
        &[1, 1, 3, 5, 7, 4],
        &[1, 1, 3, 5, 7, 5],
        // 5 with a transaction; 4 and 5 exchanged, and both.
        &[1, 1, 2, 3, 5, 7, 5],
        &[1, 0, 3, 5, 7, 4],
        &[1, 0, 3, 5, 7, 5],
        &[1, 0, 3, 5, 7, 4, 5],
        &[1, 0, 3, 5, 7, 5, 4],
        // Two numbers, and seven and eight and thirty.
        &[1, 0],
        &[1, 1],
        &[1; 7],
        &[1; 8],
        &[1, 1, 2, 3, 5, 7, 4, 4],
        &[1; 30],
    ];
    inputs.extend(numbers.map(bytes_of));
    inputs.push(bytes_of(&sequence(FORMS[2], 5, 7)).repeat(5));
    // As long as a query can ask.
    let zeros = [0; 255];
    inputs.push(zeros.to_vec());
    inputs.extend(BAD.map(|bad| [&zeros[bad.len()..], bad].concat()));
    inputs
}

fn fixed_ofs() -> Vec<Query> {
    let mut queries: Vec<Query> = Vec::new();
    // Fields that nothing depends on change from query to query.
    let mut ask = |kind: u32, a: u32, b: u32, c: u32, code: i64, t: u32| {
        let i = queries.len() as u32;
        let call = [i, i % 16, kind, a, b, c];
        queries.push(Query::Of(call, code, [i % 5, i % 3, i % 7, i % 2, t]));
    };
    let services = [1, 64, 0, 100];
    let tokens = [0, u32::MAX];
    // All of the accepted requests; of the others, services and tokens in turn.
    let mut turn = 0;
    for kind in [11, 12, 13] {
        for code in [0, 22, 25, -5, 29] {
            for b in 0..8 {
                for t in [0, 1, 60_000] {
                    if (kind, code) == (12, 0) {
                        for a in services {
                            for c in tokens {
                                ask(kind, a, b, c, code, t);
                            }
                        }
                    } else {
                        ask(kind, services[turn % 4], b, tokens[turn / 4 % 2], code, t);
                        turn += 1;
                    }
                }
            }
            // One more, so that the next ones meet others.
            turn += 1;
        }
    }
    // Ends of the ranges, and numbers that fit only in their lowest bits.
    for kind in [
        0,
        1,
        12 + (1 << 8),
        12 + (1 << 16),
        12 + (1 << 31),
        u32::MAX,
    ] {
        ask(kind, 5, 0, 7, 0, 1);
    }
    for code in [1, -1, 1 << 8, 1 << 32, -1 << 32, i64::MIN, i64::MAX] {
        ask(12, 5, 0, 7, code, 1);
    }
    for b in [
        1 << 8,
        1 << 16,
        1 << 31,
        u32::MAX,
        u32::MAX - 1,
        u32::MAX - 2,
    ] {
        ask(12, 5, b, 7, 0, 1);
    }
    for t in [2, 1 << 8, 1 << 16, 1 << 31, u32::MAX] {
        ask(12, 5, 0, 7, 0, t);
    }
    for a in [5 + (1 << 8), 1 << 31, u32::MAX] {
        ask(12, a, 0, 128, 0, 1);
    }
    queries
}

/// A token of any length.
fn token(rng: &mut Rng) -> u32 {
    match rng.below(4) {
        0 => rng.pick(&[0, 1, 4, 5, 127, 128, 16383, 16384, u32::MAX]),
        _ => rng.next_u32() >> rng.pick(&[0, 4, 11, 18, 25]),
    }
}

/// A byte of few: numbers of a sequence, and beginnings of longer ones.
fn few(rng: &mut Rng) -> u8 {
    match rng.below(6) {
        0..=1 => rng.pick(&[0x80, 0x80, 0x81, 0xFF]),
        2 => rng.pick(&[6, 15, 16, 64, 65, 127]),
        _ => rng.below(6) as u8,
    }
}

/// Bytes of few.
fn random_bytes(rng: &mut Rng) -> Vec<u8> {
    (0..1 + rng.below(12)).map(|_| few(rng)).collect()
}

/// A byte replaced, removed or inserted.
fn change(rng: &mut Rng, bytes: &mut Vec<u8>) {
    let byte = if rng.once_in(2) {
        few(rng)
    } else {
        rng.below(256) as u8
    };
    let at = rng.below(bytes.len() as u32 + 1) as usize;
    match rng.below(3) {
        0 if at < bytes.len() => bytes[at] = byte,
        1 if at < bytes.len() => drop(bytes.remove(at)),
        _ => bytes.insert(at, byte),
    }
}

/// One of the sequences, of a service of 0 to 65.
fn random_sequence(rng: &mut Rng) -> Vec<u8> {
    let (form, service) = (rng.pick(&FORMS), rng.below(66));
    bytes_of(&sequence(form, service, token(rng)))
}

/// One of the sequences, in three of four with one change.
fn random_near(rng: &mut Rng) -> Vec<u8> {
    let mut bytes = random_sequence(rng);
    if !rng.once_in(4) {
        change(rng, &mut bytes);
    }
    bytes
}

/// A sequence with some changes, or something behind it.
fn random_far(rng: &mut Rng) -> Vec<u8> {
    let mut bytes = random_sequence(rng);
    match rng.below(3) {
        0 => (0..2 + rng.below(3)).for_each(|_| change(rng, &mut bytes)),
        1 => bytes.extend(random_bytes(rng)),
        _ => bytes.extend(random_near(rng)),
    }
    bytes
}

fn random_write(rng: &mut Rng) -> Query {
    let service = match rng.below(8) {
        0 => rng.pick(&[0, 65, 128, 256 + 5, u32::MAX]),
        1 => rng.next_u32(),
        _ => 1 + rng.below(64),
    };
    let (reply, tx) = match rng.below(8) {
        0 => (rng.below(4), rng.below(4)),
        1 => rng.pick(&[(0, 1), (1, u32::MAX), (1 << 8, 0), (1, 1 + (1 << 31))]),
        _ => rng.pick(&[(1, 1), (1, 0), (0, 0)]),
    };
    // Mostly about as many bytes as are needed.
    let room = match rng.below(3) {
        0 => rng.below(u32::from(MOST_ROOM) + 1),
        _ => 5 + rng.below(7),
    };
    Query::Write(room as u8, [service, token(rng), reply, tx])
}

fn random_of(rng: &mut Rng) -> Query {
    let kind = match rng.below(8) {
        0 => rng.below(22),
        1 => rng.pick(&[11, 13, 12 + (1 << 8), 12 + (1 << 31)]),
        _ => 12,
    };
    let code = match rng.below(8) {
        0 => i64::from(rng.below(41)) - 8,
        1 => i64::from(rng.next_u32()) << rng.below(32),
        _ => 0,
    };
    let b = match rng.below(6) {
        0 => rng.next_u32(),
        _ => rng.below(8),
    };
    let t = match rng.below(6) {
        0 => rng.next_u32(),
        1..=2 => 0,
        _ => rng.below(60_001),
    };
    let any = |rng: &mut Rng| rng.next_u32() >> rng.below(32);
    let call = [any(rng), rng.below(17), kind, rng.below(70), b, token(rng)];
    let rest = [any(rng), any(rng), any(rng), any(rng), t];
    Query::Of(call, code, rest)
}

fn random_query(rng: &mut Rng) -> Query {
    match rng.below(16) {
        0..=3 => Query::Read(random_bytes(rng)),
        4..=7 => Query::Read(random_near(rng)),
        8..=11 => Query::Read(random_far(rng)),
        12..=13 => random_write(rng),
        _ => random_of(rng),
    }
}

/// The queries that are stored, each once.
fn fixed() -> Vec<Query> {
    let mut queries = fixed_writes();
    queries.extend(near_reads().into_iter().map(Query::Read));
    queries.extend(named_reads().into_iter().map(Query::Read));
    queries.extend(fixed_ofs());
    let mut rng = Rng::new(2);
    queries.extend((0..2000).map(|_| Query::Read(random_bytes(&mut rng))));
    queries.extend((0..2000).map(|_| Query::Read(random_near(&mut rng))));
    let mut seen = HashSet::new();
    queries.retain(|query| seen.insert(query.clone()));
    queries
}

/// Answers the queries, up to the end or one that is incomplete or unknown.
fn answer(mut input: impl Read, output: impl Write) -> io::Result<()> {
    let mut queries = Vec::new();
    input.read_to_end(&mut queries)?;
    let mut output = BufWriter::new(output);
    let mut left = &queries[..];
    while let Some(query) = Query::take(&mut left) {
        writeln!(output, "{}", query.line())?;
    }
    output.flush()
}

fn give(queries: impl Iterator<Item = Query>, mut output: impl Write) -> io::Result<()> {
    let mut bytes = Vec::new();
    queries.for_each(|query| query.push(&mut bytes));
    output.write_all(&bytes)?;
    output.flush()
}

fn main() -> ExitCode {
    let words: Vec<String> = std::env::args().skip(1).collect();
    let number = |n: usize| words.get(n).and_then(|word| word.parse::<u64>().ok());
    let mode = words.first().map(String::as_str);
    let out = io::stdout().lock();
    let done = match (mode, words.len(), number(1), number(2)) {
        (None, 0, None, None) => answer(io::stdin().lock(), out),
        (Some("make"), 1, None, None) => give(fixed().into_iter(), out),
        (Some("random"), 3, Some(seed), Some(count)) => {
            let mut rng = Rng::new(seed);
            give((0..count).map(|_| random_query(&mut rng)), out)
        }
        _ => {
            eprintln!("wire_vectors [make | random SEED COUNT]");
            return ExitCode::FAILURE;
        }
    };
    match done {
        Ok(()) => ExitCode::SUCCESS,
        // The reader of our lines went away: nothing left to do.
        Err(e) if e.kind() == io::ErrorKind::BrokenPipe => ExitCode::SUCCESS,
        Err(e) => {
            eprintln!("wire_vectors: {e}");
            ExitCode::FAILURE
        }
    }
}

#[cfg(test)]
mod tests {
    use super::*;

    fn lines(queries: &[u8]) -> String {
        let mut out = Vec::new();
        answer(queries, &mut out).unwrap();
        String::from_utf8(out).unwrap()
    }

    #[test]
    fn one_line_each() {
        let queries = [
            Query::Read(vec![1, 0, 3, 5, 7, 4]),
            Query::Read(vec![]),
            Query::Write(8, [5, 7, 1, 1]),
            Query::Write(2, [0, 7, 1, 1]),
            Query::Write(0, [5, 7, 1, 1]),
            Query::Of([0, 0, 12, 5, 0, 7], 0, [1, 0, 0, 0, 1]),
            Query::Of([0, 0, 12, 5, 0, 7], 25, [0, 0, 0, 0, 1]),
            Query::Of([0, 0, 12, 5, 0, 7], -5, [0, 0, 0, 0, u32::MAX]),
        ];
        let mut bytes = Vec::new();
        queries.iter().for_each(|query| query.push(&mut bytes));
        assert_eq!(
            lines(&bytes),
            "read 01 00 03 05 07 04: 5 7 1 0\n\
             read: refused 33\n\
             write 5 7 1 1 room 8: 7 in 01 01 02 03 05 07 04 ee\n\
             write 0 7 1 1 room 2: refused 22 in ee ee\n\
             write 5 7 1 1 room 0: refused 16 in\n\
             of 0 0 12 5 0 7, 0 1 0 0 0 1: 5 7 1 1\n\
             of 0 0 12 5 0 7, 25 0 0 0 0 1: nothing\n\
             of 0 0 12 5 0 7, -5 0 0 0 0 4294967295: nothing\n"
        );
    }

    #[test]
    fn incomplete_and_unknown() {
        let read = [0, 1, 9];
        let told = "read 09: refused 33\n";
        assert_eq!(lines(&[]), "");
        assert_eq!(lines(&read), told);
        let write = [&[1, 16][..], &[0; 16]].concat();
        let of = [&[2, 0][..], &[0; 52]].concat();
        for query in [&read[..], &write, &of] {
            assert_eq!(lines(query).lines().count(), 1);
            for cut in 0..query.len() {
                assert_eq!(lines(&[&read, &query[..cut]].concat()), told);
            }
        }
        for front in [[1, 17], [2, 1], [3, 0], [255, 0]] {
            let query = [&front[..], &[0; 60]].concat();
            assert_eq!(lines(&[&read[..], &query].concat()), told);
        }
    }

    /// Asks that so many lines, at least, begin and end so.
    fn has(lines: &str, front: &str, end: &str, least: usize) {
        let is = |line: &&str| line.starts_with(front) && line.ends_with(end);
        let count = lines.lines().filter(is).count();
        assert!(count >= least, "{front} .. {end}: {count}");
    }

    #[test]
    fn stored_queries() {
        let mut bytes = Vec::new();
        give(fixed().into_iter(), &mut bytes).unwrap();
        assert!(fixed().len() < 12_000 && bytes.len() < 300_000);
        let lines = lines(&bytes);
        assert_eq!(lines.lines().count(), fixed().len());
        for (front, end, least) in [
            ("read", "refused 17", 500),
            ("read", "refused 18", 1000),
            ("read", "refused 33", 1000),
            ("read", " 1 1", 100),
            ("read", " 1 0", 100),
            ("read", " 0 0", 100),
            ("write 1 4294967295 1 1 room 10: refused 16 in ee", "ee", 1),
            ("write 1 4294967295 1 1 room 11: 11 in 01 01", "04", 1),
            ("write 64 0 0 0 room 5: refused 16 in ee", "ee", 1),
            ("write 64 0 0 0 room 6: 6 in 01 00", "05", 1),
            ("write 65 0 1 1 room 0: refused 22 in", "in", 1),
            ("write 1 0 0 1 room 12: refused 22 in ee", "ee", 1),
            ("of", "nothing", 100),
            ("of", " 1 1", 20),
            ("of", " 1 0", 20),
            ("of", " 0 0", 20),
            ("of", " 0 1", 20),
        ] {
            has(&lines, front, end, least);
        }
    }

    #[test]
    fn ofs_meet() {
        let mut met = HashSet::new();
        for query in fixed_ofs() {
            if let Query::Of([_, _, kind, a, b, c], code, [_, _, _, _, t]) = query {
                for with in [("a", a), ("c", c)] {
                    met.extend([
                        (with, "kind", i64::from(kind)),
                        (with, "code", code),
                        (with, "b", i64::from(b)),
                        (with, "t", i64::from(t)),
                    ]);
                }
            }
        }
        let services = [1, 64, 0, 100].map(|a| ("a", a));
        for with in services.into_iter().chain([("c", 0), ("c", u32::MAX)]) {
            let all = |name, values: &[i64]| values.iter().all(|&v| met.contains(&(with, name, v)));
            assert!(all("kind", &[11, 12, 13]), "{with:?}");
            assert!(all("code", &[0, 22, 25, -5, 29]), "{with:?}");
            assert!(all("b", &[0, 1, 2, 3, 4, 5, 6, 7]), "{with:?}");
            assert!(all("t", &[0, 1, 60_000]), "{with:?}");
        }
    }

    #[test]
    fn random_queries() {
        let mut bytes = Vec::new();
        let mut rng = Rng::new(1);
        give((0..5000).map(|_| random_query(&mut rng)), &mut bytes).unwrap();
        let lines = lines(&bytes);
        assert_eq!(lines.lines().count(), 5000);
        for (front, end) in [
            ("read", "refused 17"),
            ("read", "refused 18"),
            ("read", "refused 33"),
            ("read", " 1 1"),
            ("read", " 1 0"),
            ("read", " 0 0"),
            ("write", " ee"),
            ("write", " 04"),
            ("write", " 05"),
            ("of", "nothing"),
            ("of", " 1 1"),
            ("of", " 1 0"),
            ("of", " 0 0"),
            ("of", " 0 1"),
        ] {
            has(&lines, front, end, 10);
        }
    }
}
