//! The bytes of an event.
use super::{LONGEST_TEXT, MOST_ARGUMENTS};
use std::fmt::{self, Write};
use std::mem::MaybeUninit;

/// The first bytes of an event, which the recorder puts.
const HEAD: usize = 4;
/// The most bytes of an event: the recorder's own, and eight texts.
const ROOM: usize = HEAD + MOST_ARGUMENTS * (2 + LONGEST_TEXT);
/// What a text's length has beside it if the text was longer.
const CUT: u16 = 0x8000;

/// The bytes of an event, as far as they are put after the head.
pub struct Event {
    pub(super) bytes: [MaybeUninit<u8>; ROOM],
    pub(super) len: usize,
    /// A text was longer.
    pub(super) is_cut: bool,
}

impl Event {
    #[inline]
    pub(super) fn new() -> Event {
        Event { bytes: [MaybeUninit::uninit(); ROOM], len: HEAD, is_cut: false }
    }

    pub(super) fn clear(&mut self) {
        self.len = HEAD;
    }

    #[inline]
    pub(super) fn put(&mut self, bytes: &[u8]) {
        for (room, byte) in self.bytes[self.len..][..bytes.len()].iter_mut().zip(bytes) {
            room.write(*byte);
        }
        self.len += bytes.len();
    }

    /// Puts a text, or as many of its whole characters as an event keeps.
    pub(super) fn put_text(&mut self, text: &str) {
        let front = front_of(text, LONGEST_TEXT);
        self.put_piece(front, front.len() < text.len());
    }

    fn put_piece(&mut self, text: &str, is_cut: bool) {
        self.is_cut |= is_cut;
        self.put(&(text.len() as u16 | if is_cut { CUT } else { 0 }).to_le_bytes());
        self.put(text.as_bytes());
    }
}

/// As many whole characters of a text as have room in so many bytes.
fn front_of(text: &str, room: usize) -> &str {
    let mut len = text.len().min(room);
    while !text.is_char_boundary(len) {
        len -= 1;
    }
    &text[..len]
}

/// How many bytes of an event that is one text are recorded at most. (Its eight pieces have room for that, wherever its
/// characters begin.)
pub const LONGEST_EVENT: usize = MOST_ARGUMENTS * (LONGEST_TEXT - 3);

/// A text that is formatted for an event: its first `LONGEST_EVENT` bytes.
pub struct Text {
    bytes: [MaybeUninit<u8>; LONGEST_EVENT],
    len: usize,
    is_cut: bool,
}

impl Text {
    /// The text that this writes. (If it fails, it is what was written before.)
    pub(super) fn of(write: impl FnOnce(&mut Text) -> fmt::Result) -> Text {
        let mut text = Text { bytes: [MaybeUninit::uninit(); LONGEST_EVENT], len: 0, is_cut: false };
        let _ = write(&mut text);
        text
    }

    pub(super) fn as_str(&self) -> &str {
        // (The first `len` bytes were written, from whole characters.)
        unsafe {
            let bytes = std::slice::from_raw_parts(self.bytes.as_ptr().cast(), self.len);
            std::str::from_utf8_unchecked(bytes)
        }
    }

    /// Puts it in one piece, or else in eight, of which the last ones may be empty. How many these are.
    pub(super) fn put_pieces(&self, event: &mut Event) -> usize {
        let mut rest = self.as_str();
        let count = if rest.len() > LONGEST_TEXT { MOST_ARGUMENTS } else { 1 };
        for _ in 0..count {
            let piece = front_of(rest, LONGEST_TEXT);
            rest = &rest[piece.len()..];
            event.put_piece(piece, self.is_cut && rest.is_empty() && !piece.is_empty());
        }
        count
    }
}

impl Write for Text {
    fn write_str(&mut self, text: &str) -> fmt::Result {
        let front = front_of(text, if self.is_cut { 0 } else { LONGEST_EVENT - self.len });
        for (room, byte) in self.bytes[self.len..].iter_mut().zip(front.bytes()) {
            room.write(byte);
        }
        self.len += front.len();
        self.is_cut |= front.len() < text.len();
        // (The rest isn't formatted.)
        if self.is_cut { Err(fmt::Error) } else { Ok(()) }
    }
}
