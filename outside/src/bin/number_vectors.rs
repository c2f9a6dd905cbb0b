// Writes the listing that the program crates/number_vectors must write, by a reader and a writer of its own.

// A number by its definition: its groups are found first, then added up from the highest.
fn read(input: &[u8], place: usize) -> Result<(u32, usize), u32> {
    let bytes = input.get(place..).unwrap_or(&[]);
    let long = bytes.iter().take_while(|b| **b >= 0x80).count();
    if long >= 5 {
        return Err(18);
    }
    if long == bytes.len() {
        return Err(17);
    }
    let groups = &bytes[..=long];
    let value = groups
        .iter()
        .rev()
        .fold(0u64, |sum, b| (sum << 7) | u64::from(b & 0x7F));
    let superfluous = long > 0 && groups[long] == 0;
    match u32::try_from(value) {
        Ok(value) if !superfluous => Ok((value, place + long + 1)),
        _ => Err(18),
    }
}

fn bytes_of(value: u32) -> Vec<u8> {
    let count = (32 - value.leading_zeros()).div_ceil(7).max(1);
    (0..count)
        .map(|k| {
            let group = (value >> (7 * k)) as u8 & 0x7F;
            if k + 1 < count {
                group | 0x80
            } else {
                group
            }
        })
        .collect()
}

fn write(buffer: &mut [u8], place: usize, value: u32) -> Result<usize, u32> {
    let bytes = bytes_of(value);
    let next = place + bytes.len();
    buffer
        .get_mut(place..next)
        .ok_or(16u32)?
        .copy_from_slice(&bytes);
    Ok(next)
}

fn hex(bytes: &[u8]) -> String {
    bytes.iter().map(|b| format!(" {b:02x}")).collect()
}

fn show_read(input: &[u8], place: usize) {
    match read(input, place) {
        Ok((value, next)) => println!("read{} at {place}: {value} next {next}", hex(input)),
        Err(code) => println!("read{} at {place}: refused {code}", hex(input)),
    }
}

fn show_write(buffer: &mut [u8], place: usize, value: u32) {
    match write(buffer, place, value) {
        Ok(next) => println!("write {value} at {place}: next {next} in{}", hex(buffer)),
        Err(code) => println!("write {value} at {place}: refused {code} in{}", hex(buffer)),
    }
    show_read(buffer, place);
}

struct Generator(u64);

impl Generator {
    fn draw(&mut self) -> u64 {
        self.0 = (self.0 * 1103515245 + 12345) % (1 << 31);
        self.0 >> 16
    }
}

fn main() {
    let values = [
        0, 1, 127, 128, 300, 16383, 16384, 2097151, 2097152, 268435455, 268435456, 2147483647,
        2147483648, 4294967295,
    ];
    for value in values {
        for room in 0..7 {
            for place in 0..3 {
                show_write(&mut [0xEE; 8][..room], place, value);
            }
        }
    }
    let inputs: [&[u8]; 24] = [
        &[0x00],
        &[0x7F],
        &[0x80, 0x01],
        &[0xAC, 0x02],
        &[0x80, 0x00],
        &[0xFF, 0x00],
        &[0xFF, 0x7F],
        &[0x80, 0x80, 0x00],
        &[0x80, 0x80, 0x01],
        &[0xFF, 0xFF, 0x7F],
        &[0x80, 0x80, 0x80, 0x00],
        &[0x80, 0x80, 0x80, 0x01],
        &[0xFF, 0xFF, 0xFF, 0x7F],
        &[0x80, 0x80, 0x80, 0x80, 0x00],
        &[0x81, 0x80, 0x80, 0x80, 0x00],
        &[0x80, 0x80, 0x80, 0x80, 0x01],
        &[0x80, 0x80, 0x80, 0x80, 0x0F],
        &[0x80, 0x80, 0x80, 0x80, 0x10],
        &[0x80, 0x80, 0x80, 0x80, 0x7F],
        &[0xFF, 0xFF, 0xFF, 0xFF, 0x0F],
        &[0xFF, 0xFF, 0xFF, 0xFF, 0x10],
        &[0xFF, 0xFF, 0xFF, 0xFF, 0x80],
        &[0x80, 0x80, 0x80, 0x80, 0x80, 0x00],
        &[0xFF, 0xFF, 0xFF, 0xFF, 0xFF, 0x01],
    ];
    for input in inputs {
        for cut in 0..input.len() {
            show_read(&input[..cut], 0);
        }
        for place in 0..input.len() + 3 {
            show_read(input, place);
        }
    }
    let mut numbers = Generator(1);
    for i in 0..200 {
        let drawn = (numbers.draw() << 30) | (numbers.draw() << 15) | numbers.draw();
        let limit = [1 << 7, 1 << 14, 1 << 21, 1 << 28, 1u64 << 32][i % 5];
        show_write(&mut [0xEE; 8], i % 4, (drawn % limit) as u32);
    }
    let mut bytes = Generator(2);
    for i in 0..300 {
        let drawn: Vec<u8> = (0..7)
            .map(|_| {
                let drawn = bytes.draw();
                (drawn >> 2 & 0x7F) as u8 | if drawn % 4 == 0 { 0 } else { 0x80 }
            })
            .collect();
        show_read(&drawn[..i % 8], i / 8 % 3);
    }
}
