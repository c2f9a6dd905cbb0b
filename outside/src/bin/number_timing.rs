// Times the proved reader and writer beside plain Rust ones that make the same tests, in one run: nanoseconds a number.
use std::hint::black_box;
use std::time::Instant;

#[link(name = "number_timing", kind = "static")]
extern "C" {
    fn number_timing_read(input: *const u8, len: usize) -> u64;
    fn number_timing_write(values: *const u32, count: usize, buffer: *mut u8, len: usize) -> usize;
}

fn proved_read(input: &[u8]) -> u64 {
    unsafe { number_timing_read(input.as_ptr(), input.len()) }
}

fn proved_write(values: &[u32], buffer: &mut [u8]) -> usize {
    unsafe {
        number_timing_write(
            values.as_ptr(),
            values.len(),
            buffer.as_mut_ptr(),
            buffer.len(),
        )
    }
}

fn read(input: &[u8], place: usize) -> Result<(u32, usize), u32> {
    let mut value = 0u32;
    for k in 0..5 {
        let Some(&byte) = input.get(place + k) else {
            return Err(17);
        };
        if k == 4 && byte > 0x0F {
            return Err(18);
        }
        value |= u32::from(byte & 0x7F) << (7 * k);
        if byte < 0x80 {
            return if byte == 0 && k > 0 {
                Err(18)
            } else {
                Ok((value, place + k + 1))
            };
        }
    }
    Err(18)
}

fn write(buffer: &mut [u8], place: usize, value: u32) -> Result<usize, u32> {
    let size = match value {
        0..=0x7F => 1,
        0x80..=0x3FFF => 2,
        0x4000..=0x1F_FFFF => 3,
        0x20_0000..=0xFFF_FFFF => 4,
        _ => 5,
    };
    if place > buffer.len() || buffer.len() - place < size {
        return Err(16);
    }
    let (mut rest, mut at) = (value, place);
    while rest >= 0x80 {
        buffer[at] = rest as u8 | 0x80;
        rest >>= 7;
        at += 1;
    }
    buffer[at] = rest as u8;
    Ok(at + 1)
}

#[inline(never)]
fn plain_read(input: &[u8]) -> u64 {
    let (mut sum, mut place) = (0u64, 0);
    while place < input.len() {
        let Ok((value, next)) = read(input, place) else {
            return sum;
        };
        sum = sum.wrapping_add(u64::from(value));
        place = next;
    }
    sum
}

#[inline(never)]
fn plain_write(values: &[u32], buffer: &mut [u8]) -> usize {
    let mut place = 0;
    for value in values {
        let Ok(next) = write(buffer, place, *value) else {
            return place;
        };
        place = next;
    }
    place
}

// The best of many rounds, in nanoseconds a number.
fn best(count: usize, mut round: impl FnMut()) -> f64 {
    (0..60)
        .map(|_| {
            let start = Instant::now();
            round();
            start.elapsed().as_nanos() as f64 / count as f64
        })
        .fold(f64::INFINITY, f64::min)
}

fn main() {
    let mut state = 1u64;
    let mut draw = || {
        state = state
            .wrapping_mul(6364136223846793005)
            .wrapping_add(1442695040888963407);
        state >> 33
    };
    let count = 1 << 16;
    let mut time = |name: &str, limit: &mut dyn FnMut(u64) -> u64| {
        let values: Vec<u32> = (0..count)
            .map(|_| {
                let kind = draw();
                ((draw() << 1 | draw() & 1) % limit(kind)) as u32
            })
            .collect();
        let (mut ours, mut theirs) = (vec![0u8; count * 5], vec![0u8; count * 5]);
        let len = proved_write(&values, &mut ours);
        assert_eq!(len, plain_write(&values, &mut theirs));
        assert_eq!(ours, theirs);
        assert_eq!(proved_read(&ours[..len]), plain_read(&ours[..len]));
        assert_eq!(
            proved_read(&ours[..len]),
            values.iter().map(|v| u64::from(*v)).sum::<u64>()
        );
        let read = best(count, || {
            black_box(proved_read(black_box(&ours[..len])));
        });
        let plain = best(count, || {
            black_box(plain_read(black_box(&ours[..len])));
        });
        println!(
            "read {name}: proved {read:.2} ns, plain {plain:.2} ns, ratio {:.2}",
            read / plain
        );
        let wrote = best(count, || {
            black_box(proved_write(black_box(&values), black_box(&mut ours)));
        });
        let plain = best(count, || {
            black_box(plain_write(black_box(&values), black_box(&mut theirs)));
        });
        println!(
            "write {name}: proved {wrote:.2} ns, plain {plain:.2} ns, ratio {:.2}",
            wrote / plain
        );
    };
    time("one byte", &mut |_| 1 << 7);
    time("two bytes", &mut |_| 1 << 14);
    time("five bytes", &mut |_| 1 << 32);
    time("mixed", &mut |kind| {
        1 << [7, 14, 21, 28, 32][(kind % 5) as usize]
    });
}
