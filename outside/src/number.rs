//! The drill number: groups of seven bits, lowest first, the top bit set on
//! all but the last byte; at most 5 bytes, below 2^32, none longer than needed.

/// A lent buffer is too short.
pub const SHORT_BUFFER: i64 = 16;
/// The input is cut short.
pub const CUT_SHORT: i64 = 17;
/// The number is too long or too large.
pub const TOO_LONG: i64 = 18;

/// The most bytes a number takes.
pub const MAX_BYTES: usize = 5;

/// Reads the number at `place`: its value and the next place, or 17 or 18.
pub fn read(bytes: &[u8], place: usize) -> Result<(u32, usize), i64> {
    let rest = bytes.get(place..).unwrap_or(&[]);
    let mut value = 0u32;
    for (i, &byte) in rest.iter().take(MAX_BYTES).enumerate() {
        // The fifth byte has room for four bits and must be the last.
        if i == MAX_BYTES - 1 && byte > 0x0F {
            return Err(TOO_LONG);
        }
        value |= u32::from(byte & 0x7F) << (7 * i);
        if byte < 0x80 {
            // A last group of zero adds nothing: longer than needed.
            if byte == 0 && i > 0 {
                return Err(TOO_LONG);
            }
            return Ok((value, place + i + 1));
        }
    }
    Err(CUT_SHORT)
}

/// How many bytes the number takes.
pub fn length(value: u32) -> usize {
    match value {
        0..=0x7F => 1,
        0x80..=0x3FFF => 2,
        0x4000..=0x1F_FFFF => 3,
        0x20_0000..=0x0FFF_FFFF => 4,
        _ => 5,
    }
}

/// Writes the number at `place` and gives the next place; 16 if the buffer is
/// too short, which then stays as it was.
pub fn write(value: u32, buffer: &mut [u8], place: usize) -> Result<usize, i64> {
    let len = length(value);
    let room = buffer
        .get_mut(place..)
        .and_then(|rest| rest.get_mut(..len))
        .ok_or(SHORT_BUFFER)?;
    let mut left = value;
    for byte in room.iter_mut() {
        *byte = (left & 0x7F) as u8 | 0x80;
        left >>= 7;
    }
    room[len - 1] &= 0x7F;
    Ok(place + len)
}

#[cfg(test)]
mod tests {
    use super::*;

    fn written(value: u32) -> Vec<u8> {
        let mut buffer = [0u8; MAX_BYTES];
        let end = write(value, &mut buffer, 0).unwrap();
        buffer[..end].to_vec()
    }

    #[test]
    fn marked() {
        assert_eq!(written(127), [0x7F]);
        assert_eq!(written(128), [0x80, 0x01]);
        assert_eq!(written(300), [0xAC, 0x02]);
        assert_eq!(read(&[0x80, 0x00], 0), Err(18));
    }

    #[test]
    fn round_trip() {
        let mut samples = vec![0, u32::MAX, u32::MAX - 1];
        for bit in 0..32 {
            let power = 1u32 << bit;
            samples.extend([power, power - 1, power + 1, power | 0x55]);
        }
        for value in samples {
            let bytes = written(value);
            assert_eq!(bytes.len(), length(value));
            assert_eq!(read(&bytes, 0), Ok((value, bytes.len())));
            for cut in 0..bytes.len() {
                assert_eq!(read(&bytes[..cut], 0), Err(17));
            }
        }
    }

    #[test]
    fn refused() {
        assert_eq!(read(&[], 0), Err(17));
        assert_eq!(read(&[1], 1), Err(17));
        assert_eq!(read(&[1], 9), Err(17));
        assert_eq!(read(&[1], usize::MAX), Err(17));
        assert_eq!(read(&[0x80], 0), Err(17));
        assert_eq!(read(&[0xFF, 0xFF, 0xFF, 0xFF], 0), Err(17));
        assert_eq!(read(&[0xFF, 0xFF, 0xFF, 0xFF, 0x0F], 0), Ok((u32::MAX, 5)));
        assert_eq!(read(&[0xFF, 0xFF, 0xFF, 0xFF, 0x10], 0), Err(18));
        assert_eq!(read(&[0xFF, 0xFF, 0xFF, 0xFF, 0x80], 0), Err(18));
        assert_eq!(read(&[0x80, 0x80, 0x80, 0x80, 0x8F], 0), Err(18));
        assert_eq!(read(&[0x80, 0x80, 0x80, 0x80, 0x00], 0), Err(18));
        assert_eq!(read(&[0x80, 0x80, 0x80, 0x80, 0x01], 0), Ok((1 << 28, 5)));
        assert_eq!(read(&[0xFF, 0x80, 0x00, 0x05], 0), Err(18));
    }

    #[test]
    fn short_buffer_stays() {
        let mut buffer = [9u8; 2];
        assert_eq!(write(1 << 14, &mut buffer, 0), Err(16));
        assert_eq!(write(128, &mut buffer, 1), Err(16));
        assert_eq!(write(0, &mut buffer, 2), Err(16));
        assert_eq!(write(0, &mut buffer, usize::MAX), Err(16));
        assert_eq!(buffer, [9, 9]);
        assert_eq!(write(5, &mut buffer, 1), Ok(2));
        assert_eq!(buffer, [9, 5]);
    }
}
