//! Parcels and files of them, as bytes (docs/formats/pages.md, "Parcel bytes").
//!
//! A file of parcels is this benchmark's own: how many there are, each after its number of bytes; how many
//! deliveries there are, each the place of its parcel among them, from 0. All these numbers are 8 bytes, the lowest
//! first.

use std::iter;

const EXTEND_FROM: u64 = 1 << 27;
const MAX_CPUS: u64 = 256;

#[derive(Clone, Copy, PartialEq)]
pub struct Record<'a> {
    pub moment: u64,
    pub bytes: &'a [u8],
}

/// A page's records under their numbers, from `first` on, and how many numbers are missing before them.
#[derive(Clone, Copy)]
pub struct Parcel<'a> {
    pub cpu: u32,
    pub fill: u64,
    pub first: u64,
    pub count: u64,
    pub missed: u64,
    time: u64,
    data: &'a [u8],
}

impl<'a> Parcel<'a> {
    /// The parcel that these bytes are, if they are one; their length isn't limited here.
    pub fn from_bytes(bytes: &'a [u8]) -> Option<Parcel<'a>> {
        let [cpu, fill, first, missed, time, commit] = [0, 8, 16, 24, 32, 40].map(|at| number_at(bytes, at));
        let (cpu, commit, missed) = (cpu?, commit?, missed?);
        let size = (commit % (1 << 30)) as usize;
        let data = bytes[48..].get(..size)?;
        let told = match commit >> 30 & 3 {
            0 | 1 => missed == 0,
            2 => missed > 0,
            _ => missed > 0 && number_at(bytes, 48 + size)? == missed,
        };
        let mut parcel = Parcel { cpu: cpu as u32, fill: fill?, first: first?, count: 0, missed, time: time?, data };
        parcel.count = parcel.whole_count()?;
        let fits = parcel.first.checked_add(parcel.count).is_some() && missed <= parcel.first;
        (cpu < MAX_CPUS && told && fits).then_some(parcel)
    }

    /// How many records there are, if the data has a reading.
    fn whole_count(&self) -> Option<u64> {
        let (mut data, mut time, mut count) = (self.data, self.time, 0);
        while !data.is_empty() {
            let word = next_word(&mut data, &mut time)?;
            count += u64::from(matches!(word, Word::Data(_)));
        }
        Some(count)
    }

    pub fn records(&self) -> impl Iterator<Item = Record<'a>> {
        let (mut data, mut time) = (self.data, self.time);
        iter::from_fn(move || loop {
            if let Word::Data(bytes) = next_word(&mut data, &mut time)? {
                return Some(Record { moment: time, bytes });
            }
        })
    }

    /// Its records under their numbers.
    pub fn numbered(&self) -> impl Iterator<Item = (u64, Record<'a>)> {
        (self.first..).zip(self.records())
    }
}

enum Word<'a> {
    Data(&'a [u8]),
    Other,
}

/// The first word; goes on after it, and on in time.
fn next_word<'a>(data: &mut &'a [u8], time: &mut u64) -> Option<Word<'a>> {
    let word = half_at(data, 0)?;
    let (kind, delta) = (word as usize & 31, u64::from(word >> 5));
    let (start, stop) = match kind {
        0 => (8, long_len(data)?),
        1..=28 => (4, 4 + 4 * kind),
        29 if delta == 0 => (4, data.len()),
        29 => (8, long_len(data)?),
        _ => (8, 8),
    };
    match kind {
        29 => {}
        30 => *time = time.checked_add(u64::from(half_at(data, 4)?) * EXTEND_FROM + delta)?,
        31 => *time = u64::from(half_at(data, 4)?) * EXTEND_FROM + delta,
        _ => *time = time.checked_add(delta)?,
    }
    let (payload, rest) = (data.get(start..stop)?, &data[stop..]);
    *data = rest;
    Some(if kind <= 28 { Word::Data(payload) } else { Word::Other })
}

/// How many bytes a word takes that states its length, which counts itself and whole words.
fn long_len(data: &[u8]) -> Option<usize> {
    let len = half_at(data, 4)? as usize;
    (len >= 4 && len % 4 == 0).then_some(4 + len)
}

fn half_at(bytes: &[u8], at: usize) -> Option<u32> {
    bytes.get(at..)?.first_chunk().map(|bytes| u32::from_le_bytes(*bytes))
}

fn number_at(bytes: &[u8], at: usize) -> Option<u64> {
    bytes.get(at..)?.first_chunk().map(|bytes| u64::from_le_bytes(*bytes))
}

// ---- files

/// The parcels of a file, and the places of those that are delivered.
pub fn read_file(mut bytes: &[u8]) -> Option<(Vec<Parcel<'_>>, Vec<usize>)> {
    let parcels = (0..next_number(&mut bytes)?)
        .map(|_| {
            let len = next_number(&mut bytes)? as usize;
            let (parcel, rest) = bytes.split_at_checked(len)?;
            bytes = rest;
            Parcel::from_bytes(parcel)
        })
        .collect::<Option<Vec<_>>>()?;
    let deliveries = (0..next_number(&mut bytes)?)
        .map(|_| next_number(&mut bytes).map(|place| place as usize))
        .collect::<Option<Vec<_>>>()?;
    deliveries.iter().all(|place| *place < parcels.len()).then_some((parcels, deliveries))
}

fn next_number(bytes: &mut &[u8]) -> Option<u64> {
    let number = number_at(bytes, 0)?;
    *bytes = &bytes[8..];
    Some(number)
}

/// A parcel to be written: its CPU and fill, its first number and how many are missing before it, its records in
/// the order of time, and its page's size.
pub struct Draft {
    pub cpu: u64,
    pub fill: u64,
    pub first: u64,
    pub missed: u64,
    pub records: Vec<(u64, Vec<u8>)>,
    pub size: usize,
}

/// Writes a parcel whose payloads are 4 to 112 bytes, whole words, and follow each other within 2^27.
pub fn put_parcel(out: &mut Vec<u8>, draft: &Draft) {
    let mut data = Vec::new();
    let time = draft.records.first().map_or(0, |record| record.0);
    let mut last = time;
    for (moment, bytes) in &draft.records {
        data.extend_from_slice(&((moment - last) as u32 * 32 + bytes.len() as u32 / 4).to_le_bytes());
        data.extend_from_slice(bytes);
        last = *moment;
    }
    let mut commit = data.len() as u64;
    if draft.missed > 0 {
        commit += 1 << 31;
        if data.len() + 8 <= draft.size {
            commit += 1 << 30;
            data.extend_from_slice(&draft.missed.to_le_bytes());
        }
    }
    data.resize(draft.size, 0);
    for number in [48 + draft.size as u64, draft.cpu, draft.fill, draft.first, draft.missed, time, commit] {
        out.extend_from_slice(&number.to_le_bytes());
    }
    out.extend_from_slice(&data);
}

/// Writes a file of these parcels and deliveries.
pub fn put_file(out: &mut Vec<u8>, parcels: &[Draft], deliveries: &[usize]) {
    out.extend_from_slice(&(parcels.len() as u64).to_le_bytes());
    parcels.iter().for_each(|parcel| put_parcel(out, parcel));
    out.extend_from_slice(&(deliveries.len() as u64).to_le_bytes());
    deliveries.iter().for_each(|place| out.extend_from_slice(&(*place as u64).to_le_bytes()));
}
