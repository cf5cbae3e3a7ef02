//! Numbers and hexadecimal, both ways. Digits of hexadecimal are decoded and encoded by arithmetic on whole arrays,
//! which the compiler makes into instructions for sixteen bytes at a time.

/// In place of a digit that is none: no digit's value has this bit, nor has it four bits higher.
const BAD: u16 = 0x100;

/// The value of a hexadecimal digit, or BAD.
#[inline(always)]
fn value_of(digit: u16) -> u16 {
    let decimal = digit.wrapping_sub(0x30);
    let letter = (digit | 0x20).wrapping_sub(0x61);
    let letter = if letter < 6 { letter + 10 } else { BAD };
    if decimal < 10 {
        decimal
    } else {
        letter
    }
}

/// The value of two digits, or BAD or more.
#[inline(always)]
fn value_of_pair(pair: u16) -> u16 {
    value_of(pair & 0xff) << 4 | value_of(pair >> 8)
}

/// Decodes 16 digits, if they are some. Not inlined, since the compiler sees the arrays in its loops only so.
#[inline(never)]
pub fn decode(digits: &[u8; 16], bytes: &mut [u8; 8]) -> bool {
    let (mut pairs, mut all) = ([0; 8], 0);
    for at in 0..8 {
        pairs[at] = u16::from_le_bytes([digits[2 * at], digits[2 * at + 1]]);
    }
    for pair in &mut pairs {
        *pair = value_of_pair(*pair);
    }
    for pair in pairs {
        all |= pair;
    }
    for at in 0..8 {
        bytes[at] = pairs[at] as u8;
    }
    all < BAD
}

/// The byte of two digits.
#[inline(always)]
pub fn decoded_pair(digits: [u8; 2]) -> Option<u8> {
    let value = value_of_pair(u16::from_le_bytes(digits));
    (value < BAD).then_some(value as u8)
}

/// The digits of these bytes.
#[inline(always)]
fn encode<const N: usize, const M: usize>(bytes: &[u8; N], digits: &mut [u8; M]) {
    for at in 0..N {
        let (high, low) = (bytes[at] >> 4, bytes[at] & 15);
        digits[2 * at] = high + if high < 10 { b'0' } else { b'a' - 10 };
        digits[2 * at + 1] = low + if low < 10 { b'0' } else { b'a' - 10 };
    }
}

#[inline(never)]
fn encode_16(bytes: &[u8; 16], digits: &mut [u8; 32]) {
    encode(bytes, digits);
}

#[inline(never)]
fn encode_8(bytes: &[u8; 8], digits: &mut [u8; 16]) {
    encode(bytes, digits);
}

/// Puts the digits of the bytes into as much room as they take. The number of bytes is a multiple of four.
#[inline(always)]
pub fn put_hex(room: &mut [u8], bytes: &[u8]) {
    let (parts, rest) = bytes.as_chunks();
    let (room, rest_room) = room.split_at_mut(32 * parts.len());
    for (part, digits) in parts.iter().zip(room.as_chunks_mut().0) {
        encode_16(part, digits);
    }
    let (parts, rest) = rest.as_chunks();
    let (room, rest_room) = rest_room.split_at_mut(16 * parts.len());
    for (part, digits) in parts.iter().zip(room.as_chunks_mut().0) {
        encode_8(part, digits);
    }
    for (part, digits) in rest.as_chunks::<4>().0.iter().zip(rest_room.as_chunks_mut().0) {
        encode::<4, 8>(part, digits);
    }
}

/// A decimal number of 1 to 20 digits that is below 2^64.
pub fn number_of(digits: &[u8]) -> Option<u64> {
    if digits.is_empty() || digits.len() > 20 {
        return None;
    }
    let mut number = 0u64;
    for digit in digits {
        let value = u64::from(digit.wrapping_sub(b'0'));
        if value > 9 {
            return None;
        }
        number = number.checked_mul(10)?.checked_add(value)?;
    }
    Some(number)
}

const PAIRS: [[u8; 2]; 100] = {
    let mut pairs = [[0; 2]; 100];
    let mut at = 0;
    while at < 100 {
        pairs[at] = [b'0' + at as u8 / 10, b'0' + at as u8 % 10];
        at += 1;
    }
    pairs
};

const POWERS: [u64; 20] = {
    let mut powers = [1; 20];
    let mut at = 1;
    while at < 20 {
        powers[at] = 10 * powers[at - 1];
        at += 1;
    }
    powers
};

/// How many digits a number has: those of the least number of as many bits, and maybe one more.
#[inline(always)]
fn digits_of(number: u64) -> usize {
    let bits = 64 - (number | 1).leading_zeros();
    let least = (bits * 1233 >> 12) as usize;
    least + usize::from(number >= POWERS[least])
}

/// Puts a number at the front of the room, which has 20 bytes or more, and answers how many digits it has.
#[inline(always)]
pub fn put_number(room: &mut [u8], number: u64) -> usize {
    let count = digits_of(number).max(1);
    let (mut rest, mut end) = (number, count);
    let room = &mut room[..count];
    while rest >= 100 {
        room[end - 2..end].copy_from_slice(&PAIRS[(rest % 100) as usize]);
        (rest, end) = (rest / 100, end - 2);
    }
    if end == 2 {
        room[..2].copy_from_slice(&PAIRS[rest as usize]);
    } else {
        room[0] = b'0' + rest as u8;
    }
    count
}
