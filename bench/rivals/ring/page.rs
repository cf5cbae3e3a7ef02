//! Pages of records in the words of docs/formats/pages.md, "Record words".

use std::iter;

/// What a page is made of: as many bytes as the ring's pages have.
pub type Body = Vec<u8>;

/// From this delta on, a time extend comes before a record.
const EXTEND_FROM: u64 = 1 << 27;

/// The longest slot of the short form, and the longest such record.
const SHORT_SLOT: usize = 112;
const SHORT_RECORD: usize = 4 + SHORT_SLOT;

/// How many bytes a payload takes: at least four, and whole words.
pub fn slot_len(len: usize) -> usize {
    len.max(1).next_multiple_of(4)
}

/// The longest slot that has room in an empty page of this size.
pub fn longest_slot(size: usize) -> usize {
    match size.saturating_sub(8) {
        slot if slot > SHORT_SLOT => slot,
        _ => SHORT_SLOT.min(size - 4),
    }
}

/// Where a payload is in its page.
#[derive(Clone, Copy)]
pub struct Place {
    start: usize,
    len: usize,
}

/// The records of one fill.
#[derive(Default)]
pub struct Page {
    body: Body,
    end: usize,
    pub time: u64,
    pub first: u64,
    pub count: u64,
    pub fill: u64,
}

impl Page {
    pub fn fresh(body: Body, first: u64, fill: u64) -> Page {
        Page { body, first, fill, ..Page::default() }
    }

    pub fn is_empty(&self) -> bool {
        self.end == 0
    }

    pub fn data(&self) -> &[u8] {
        &self.body[..self.end]
    }

    pub fn into_body(self) -> Body {
        self.body
    }

    /// Adds a record of this moment, `delta` after the last one, with a zeroed slot of `slot` bytes, if it fits.
    #[inline(always)]
    pub fn put(&mut self, moment: u64, delta: u64, slot: usize) -> Option<Place> {
        let is_first = self.is_empty();
        let delta = if is_first { 0 } else { delta };
        let start = match self.body.get_mut(self.end..self.end + SHORT_RECORD) {
            Some(room) if slot <= SHORT_SLOT && delta < EXTEND_FROM => {
                // The same few stores for each length: the bytes after the record don't matter.
                room[..4].copy_from_slice(&word(slot / 4, delta));
                room[4..].fill(0);
                self.end + 4
            }
            _ => self.put_with_care(delta, slot)?,
        };
        if is_first {
            self.time = moment;
        }
        self.end = start + slot;
        self.count += 1;
        Some(Place { start, len: slot })
    }

    /// Adds a record of this moment, `delta` after the last one, with its payload in a slot of `slot` bytes and zeros
    /// after it, if it fits.
    #[inline(always)]
    pub fn put_payload(&mut self, moment: u64, delta: u64, slot: usize, payload: &[u8]) -> bool {
        let delta = if self.is_empty() { 0 } else { delta };
        match self.body.get_mut(self.end..self.end + 4 + slot) {
            Some(record) if slot <= SHORT_SLOT && delta < EXTEND_FROM => {
                record[..4].copy_from_slice(&word(slot / 4, delta));
                // Only the slot's last word may have bytes after the payload.
                record[slot..].fill(0);
                record[4..4 + payload.len()].copy_from_slice(payload);
                if self.is_empty() {
                    self.time = moment;
                }
                self.end += 4 + slot;
                self.count += 1;
                true
            }
            _ => self.put_payload_with_care(moment, delta, slot, payload),
        }
    }

    #[cold]
    #[inline(never)]
    fn put_payload_with_care(&mut self, moment: u64, delta: u64, slot: usize, payload: &[u8]) -> bool {
        let Some(place) = self.put(moment, delta, slot) else {
            return false;
        };
        self.payload_mut(place)[..payload.len()].copy_from_slice(payload);
        true
    }

    /// Puts a record's words and its zeroed slot after the others, if they fit, and answers where the slot begins.
    #[cold]
    #[inline(never)]
    fn put_with_care(&mut self, delta: u64, slot: usize) -> Option<usize> {
        let extend = if delta < EXTEND_FROM { 0 } else { 8 };
        let header = if slot <= SHORT_SLOT { 4 } else { 8 };
        let record = self.body.get_mut(self.end..self.end + extend + header + slot)?;
        record.fill(0);
        if extend > 0 {
            record[..4].copy_from_slice(&word(30, delta));
            record[4..8].copy_from_slice(&((delta / EXTEND_FROM) as u32).to_le_bytes());
        }
        let data = &mut record[extend..];
        let delta = if extend > 0 { 0 } else { delta };
        if header == 4 {
            data[..4].copy_from_slice(&word(slot / 4, delta));
        } else {
            data[..4].copy_from_slice(&word(0, delta));
            data[4..8].copy_from_slice(&(slot as u32 + 4).to_le_bytes());
        }
        Some(self.end + extend + header)
    }

    pub fn payload_mut(&mut self, place: Place) -> &mut [u8] {
        &mut self.body[place.start..place.start + place.len]
    }

    /// The moments and payloads of the records.
    pub fn records(&self) -> impl Iterator<Item = (u64, &[u8])> {
        let (mut data, mut time) = (self.data(), self.time);
        iter::from_fn(move || loop {
            let word = number_at(data, 0)?;
            time += u64::from(word >> 5);
            let (start, stop) = match word & 31 {
                30 => {
                    time += u64::from(number_at(data, 4)?) * EXTEND_FROM;
                    data = &data[8..];
                    continue;
                }
                0 => (8, 4 + number_at(data, 4)? as usize),
                kind => (4, 4 + 4 * kind as usize),
            };
            let (record, rest) = data.split_at(stop);
            data = rest;
            return Some((time, &record[start..]));
        })
    }
}

/// The first four bytes of a record or of an extend, with the low 27 bits of the delta.
fn word(kind: usize, delta: u64) -> [u8; 4] {
    (kind as u32 | (delta as u32) << 5).to_le_bytes()
}

fn number_at(data: &[u8], at: usize) -> Option<u32> {
    data.get(at..)?.first_chunk().map(|bytes| u32::from_le_bytes(*bytes))
}
