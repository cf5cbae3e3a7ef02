//! What a format wants of the arguments, found when it is compiled.
use super::MOST_ARGUMENTS;

/// `{:?}`, of an argument.
pub(super) const DEBUG: u8 = 1;
/// `{:p}`, of an argument.
pub(super) const POINTER: u8 = 2;
/// `{:x?}` or `{:X?}`, of an argument.
pub(super) const HEX_DEBUG: u8 = 4;
/// What no list of arguments has: the whole event is formatted as it is recorded.
const TEXT: u64 = 1 << 63;

/// Where the fill ends that begins here: it is one character, if an alignment comes after it.
const fn after_fill(bytes: &[u8], at: usize) -> usize {
    let mut end = at + 1;
    while end < bytes.len() && bytes[end] & 0xc0 == 0x80 {
        end += 1;
    }
    match end < bytes.len() && matches!(bytes[end], b'<' | b'^' | b'>') {
        true => end,
        false => at,
    }
}

/// Where the spaces end that may be here.
const fn after_spaces(bytes: &[u8], mut at: usize) -> usize {
    while at < bytes.len() && matches!(bytes[at], b' ' | b'\t'..=b'\r') {
        at += 1;
    }
    at
}

/// What is after a replacement's brace: where it ends, the number of its argument if that is written, and what it wants
/// of it. `is_text`: it has a name, or a width or precision that is an argument, or what else an event's values have
/// not.
struct Replacement {
    end: usize,
    number: Option<usize>,
    wants: u8,
    is_text: bool,
}

const fn replacement(bytes: &[u8], mut at: usize) -> Replacement {
    let mut read = Replacement { end: 0, number: None, wants: 0, is_text: false };
    while at < bytes.len() && bytes[at].is_ascii_digit() {
        let number = match read.number {
            Some(number) if number < bytes.len() => 10 * number,
            Some(number) => number,
            None => 0,
        };
        read.number = Some(number + (bytes[at] - b'0') as usize);
        at += 1;
    }
    at = after_spaces(bytes, at);
    read.is_text = at == bytes.len() || (bytes[at] != b'}' && bytes[at] != b':');
    if at < bytes.len() && bytes[at] == b':' {
        at = after_fill(bytes, at + 1);
    }
    while at < bytes.len() && bytes[at] != b'}' {
        match bytes[at] {
            b'$' | b'*' | 0x80.. => read.is_text = true,
            b'?' if matches!(bytes[at - 1], b'x' | b'X') => read.wants |= DEBUG | HEX_DEBUG,
            b'?' => read.wants |= DEBUG,
            b'p' => read.wants |= POINTER,
            _ => {}
        }
        at += 1;
    }
    read.end = at;
    read
}

/// What a format wants of its arguments, a byte each, the first one lowest; or TEXT.
pub const fn wanted(format: &str) -> u64 {
    let bytes = format.as_bytes();
    let (mut at, mut next, mut wanted) = (0, 0, 0);
    while at < bytes.len() {
        if bytes[at] != b'{' || (at + 1 < bytes.len() && bytes[at + 1] == b'{') {
            at += if bytes[at] == b'{' { 2 } else { 1 };
            continue;
        }
        let read = replacement(bytes, at + 1);
        let number = match read.number {
            Some(number) => number,
            None => next,
        };
        next += if read.number.is_none() { 1 } else { 0 };
        if read.is_text || number >= MOST_ARGUMENTS {
            return TEXT;
        }
        wanted |= (read.wants as u64) << (8 * number);
        at = read.end;
    }
    wanted
}
