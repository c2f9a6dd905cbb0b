//! A host of the proved wire side: lends it its buffers as C does, and holds it to this implementation.
//!
//! The request of each call of random histories and of answers that no call gets; each such request written into buffers of every
//! length up to 13 bytes; the bytes, every start of them, and changes of them read.

use outside::generator::{self, Rng};
use outside::lent_wire::{of, read, write, Outgoing, Read, Request, Written};
use outside::wire as plain;

/// The host's memory around a lent buffer, which no call may touch.
const AROUND: usize = 16;
const ROOMS: usize = 13;
const BYTE: u8 = 0xEE;

#[derive(Default)]
struct Counts {
    requests: u64,
    writes: u64,
    reads: u64,
}

fn check_read(input: &[u8], counts: &mut Counts) {
    let expected = match plain::read(input) {
        Ok(r) => Read {
            code: 0,
            request: Request::new(&r),
        },
        Err(code) => Read {
            code,
            request: Request::NONE,
        },
    };
    assert_eq!(read(input), expected, "{input:02x?}");
    counts.reads += 1;
}

/// A request in every room, and what stands there before and after.
fn check_write(r: &plain::Request, counts: &mut Counts) {
    for room in 0..=ROOMS {
        let mut memory = [BYTE; AROUND + ROOMS + AROUND];
        let told = write(&mut memory[AROUND..][..room], Request::new(r));
        let mut expected = [BYTE; AROUND + ROOMS + AROUND];
        let wrote = match plain::write(&mut expected[AROUND..][..room], r) {
            Ok(length) => Written { code: 0, length },
            Err(code) => Written { code, length: 0 },
        };
        assert_eq!(told, wrote, "{r:?} in {room}");
        assert_eq!(memory, expected, "{r:?} in {room}");
        counts.writes += 1;
    }
}

/// The bytes of a request, every start of them, one byte changed, taken out or put in, and more behind them.
fn check_bytes(r: &plain::Request, rng: &mut Rng, counts: &mut Counts) {
    let mut buffer = [0; plain::MAX_BYTES];
    let Ok(length) = plain::write(&mut buffer, r) else {
        return;
    };
    let bytes = &buffer[..length];
    (0..=length).for_each(|n| check_read(&bytes[..n], counts));
    let any = |rng: &mut Rng| rng.below(256) as u8;
    for _ in 0..8 {
        let place = rng.below(length as u32) as usize;
        let mut other = bytes.to_vec();
        other[place] = any(rng);
        check_read(&other, counts);
        other.remove(place);
        check_read(&other, counts);
        other.insert(place, any(rng));
        other.insert(place, any(rng));
        check_read(&other, counts);
        let mut longer = bytes.to_vec();
        longer.extend((0..rng.below(8)).map(|_| any(rng)));
        check_read(&longer, counts);
    }
}

fn check_of(call: [u32; 6], answer: [i64; 6], rng: &mut Rng, counts: &mut Counts) {
    let request = plain::of(&call, &answer);
    let expected = Outgoing {
        count: u32::from(request.is_some()),
        request: request.map_or(Request::NONE, |r| Request::new(&r)),
    };
    assert_eq!(of(call, answer), expected, "{call:?} {answer:?}");
    if let Some(r) = request {
        counts.requests += 1;
        check_write(&r, counts);
        check_bytes(&r, rng, counts);
    }
}

fn main() {
    let mut counts = Counts::default();
    let mut calls = 0u64;
    for seed in 1..=100 {
        let mut rng = Rng::new(seed);
        generator::random(seed, 2000, &mut |_, call, answer| {
            check_of(call, answer, &mut rng, &mut counts);
            calls += 1;
            // Answers that this call does not get, and calls that do not get this answer.
            let [clock, party, _, a, b, c] = call;
            let few = b % 8;
            let [.., t] = answer;
            check_of(
                [clock, party, 12, a, few, c],
                [0, 0, 0, 0, 0, t],
                &mut rng,
                &mut counts,
            );
        });
        for _ in 0..20_000 {
            let bytes: Vec<u8> = (0..rng.below(16)).map(|_| rng.below(256) as u8).collect();
            check_read(&bytes, &mut counts);
        }
    }
    let Counts {
        requests,
        writes,
        reads,
    } = counts;
    println!("wire: {calls} calls alike, {requests} requests in {writes} buffers, {reads} inputs read alike");
}
