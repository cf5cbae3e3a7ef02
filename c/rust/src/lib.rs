#![doc = include_str!("../README.md")]
//!
//! ## The calls
//!
//! [`flight`] is the recorder, and [`trace!`] an event of it. [`ring`] makes a trace ring, [`region::ring_in`] one that
//! outlives its process; a [`Collector`] collects what is taken of rings, and a [`Fleet`] the packed parcels of many
//! streams. `tests/` shows the calls in use.
//!
//! The headers in `include/` say what each call does. What is a condition there is kept here by types: an end is in one
//! call at a time, since calls borrow it, and it is freed when it is dropped. That two ends are of one ring is looked
//! at when they are settled: both carry its number. What a writer refuses, it answers to its caller, so nothing counts
//! it.
mod fleet;
pub mod flight;
pub mod region;

pub use fleet::{pack, pack_end, Added, Cpus, CpuState, Fleet, FleetLine, Lines, Refusal, StreamFault, Streams, MARK};

use region::Region;
use std::error::Error;
use std::fmt;
use std::os::raw::c_void;
use std::ptr::null_mut;
use std::sync::atomic::{AtomicU64, Ordering};
use std::sync::Arc;

#[cfg(not(all(target_pointer_width = "64", target_endian = "little")))]
compile_error!("tracering: the library is made for little-endian machines with 64-bit pointers, and this one isn't");

// TEXTS: the text of each answer above 0, in their order, as `c/include/tracering.h` has it.
include!(concat!(env!("OUT_DIR"), "/texts.rs"));

#[repr(C)]
struct Handle {
    at: *mut c_void,
    live: bool,
}

/// A payload, as the export takes it.
#[repr(C)]
struct Payload {
    bytes: *const u8,
    len: usize,
}

/// What is reported of a page that is given. `c/include/tracering.h` has the units.
#[repr(C)]
#[derive(Clone, Copy, Debug, Default, PartialEq, Eq)]
pub struct Taken {
    pub fill: u64,
    pub first: u64,
    pub missed: u64,
    pub count: u64,
    pub len: usize,
}

/// What the library answers to a close of a page that has no record.
const NOTHING_CLOSED: i32 = -4;

/// The bytes of a parcel before its page's data.
pub const HEADER: usize = 48;

/// Why a call is refused.
#[derive(Clone, Copy, Debug, PartialEq, Eq)]
pub enum Fault {
    TooDeep,
    TooLong,
    LateMoment,
    Crowded,
    Worn,
    NoFrame,
    NotReserved,
    Absent,
    InUse,
    Busy,
    Null,
    NoMemory,
    BadSize,
    BadCpu,
    Empty,
    Moving,
    NoRoom,
    NotAtRest,
    Unread,
    TooShort,
    BadImageSize,
    BadCount,
    Cut,
    BadLength,
    TimeOverflow,
    NumberOverflow,
    MissedTooMany,
    MissedDiffers,
    Clash,
    TakenAndMissing,
    /// All lines of the listing were given, or what was asked for isn't there.
    End,
    /// These are ends of two rings.
    OtherRing,
    NotPacked,
    PieceCut,
    BadVersion,
    BadPieceLength,
    BadSum,
    BadKind,
    Loose,
    BadMark,
    BeyondEnd,
    OtherEnd,
    NotFinal,
    /// The memory is no region, or is too short, not aligned or in use.
    BadRegion,
}

const FAULTS: [Fault; 44] = {
    use Fault::*;
    [
        TooDeep, TooLong, LateMoment, Crowded, Worn, NoFrame, NotReserved, Absent, InUse, Busy, Null, NoMemory, BadSize,
        BadCpu, Empty, Moving, NoRoom, NotAtRest, Unread, TooShort, BadImageSize, BadCount, Cut, BadLength,
        TimeOverflow, NumberOverflow, MissedTooMany, MissedDiffers, Clash, TakenAndMissing, End, OtherRing, NotPacked,
        PieceCut, BadVersion, BadPieceLength, BadSum, BadKind, Loose, BadMark, BeyondEnd, OtherEnd, NotFinal, BadRegion,
    ]
};

const _: () = assert!(TEXTS.len() == FAULTS.len());

impl fmt::Display for Fault {
    fn fmt(&self, f: &mut fmt::Formatter<'_>) -> fmt::Result {
        f.write_str(TEXTS[*self as usize])
    }
}

impl Error for Fault {}

fn done(code: i32) -> Result<(), Fault> {
    match code {
        i32::MIN..=0 => Ok(()),
        _ => Err(FAULTS[code as usize - 1]),
    }
}

extern "C" {
    fn tracering_raw_new(w: *mut Handle, r: *mut Handle, cpu: u32, pages: usize, size: usize) -> i32;
    fn tracering_raw_write(w: *mut Handle, moment: u64, payload: Payload) -> i32;
    fn tracering_raw_begin(w: *mut Handle, moment: u64, len: usize) -> i32;
    fn tracering_raw_begin_close(w: *mut Handle) -> i32;
    fn tracering_raw_finish(w: *mut Handle) -> i32;
    fn tracering_raw_put(w: *mut Handle, bytes: *const u8, len: usize) -> i32;
    fn tracering_raw_end(w: *mut Handle) -> i32;
    fn tracering_raw_depth(w: *mut Handle) -> usize;
    fn tracering_raw_peek(w: *mut Handle, out: *mut u8, room: usize, taken: *mut Taken) -> i32;
    fn tracering_raw_take(r: *mut Handle, out: *mut u8, room: usize, taken: *mut Taken) -> i32;
    fn tracering_raw_wish(r: *mut Handle) -> i32;
    fn tracering_raw_settle(w: *mut Handle, r: *mut Handle, out: *mut u8, room: usize, taken: *mut Taken) -> i32;
    fn tracering_raw_writer_free(w: *mut Handle, lost: *mut u64) -> i32;
    fn tracering_raw_reader_free(r: *mut Handle) -> i32;
    fn tracering_raw_collector_new(c: *mut Handle) -> i32;
    fn tracering_raw_collector_add(c: *mut Handle, bytes: *const u8, len: usize, at: *mut FaultAt) -> i32;
    fn tracering_raw_collector_take(c: *mut Handle, r: *mut Handle, taken: *mut Taken, at: *mut FaultAt) -> i32;
    fn tracering_raw_collector_missing(c: *mut Handle, cpu: u32, out: *mut Run, room: usize, count: *mut usize) -> i32;
    fn tracering_raw_collector_list(c: *mut Handle, count: *mut usize) -> i32;
    fn tracering_raw_collector_next(c: *mut Handle, out: *mut u8, room: usize, line: *mut Line) -> i32;
    fn tracering_raw_collector_same(c: *mut Handle, other: *mut Handle) -> i32;
    fn tracering_raw_collector_free(c: *mut Handle) -> i32;
}

/// The end at which records are written, its ring's number, how many of its records are open, and the region in which
/// its pages lie, if they do. A drop frees it as `free` does, so that the reader can take all records.
pub struct Writer(Handle, u64, usize, Option<Arc<Region>>);
/// The end at which pages are taken, its ring's number, how many bytes a parcel of it has room for, and its region.
pub struct Reader(Handle, u64, usize, Option<Arc<Region>>);
/// A record that is reserved and not ended: its slot is lent. Others may be written meanwhile, by `nested`; it ends
/// when this is dropped. If this is forgotten instead (`std::mem::forget`), it ends when the writer, or the record that
/// it is nested in, is used or dropped next. (The number is how many records are open up to this one.)
#[derive(Debug)]
pub struct Open<'a>(&'a mut Writer, usize);
/// A writer as an open record lends it: what it writes is nested in that record. (The number is how many records are
/// open up to that one; a writer of which none is open is such a writer too.)
#[derive(Debug)]
pub struct Nested<'a>(&'a mut Writer, usize);

// The library's proof that both of its handles may go to another thread is in crates/tracering_c.
unsafe impl Send for Writer {}
unsafe impl Send for Reader {}

impl fmt::Debug for Writer {
    fn fmt(&self, f: &mut fmt::Formatter<'_>) -> fmt::Result {
        f.debug_struct("Writer").field("ring", &self.1).field("open", &self.2).finish()
    }
}

impl fmt::Debug for Reader {
    fn fmt(&self, f: &mut fmt::Formatter<'_>) -> fmt::Result {
        f.debug_struct("Reader").field("ring", &self.1).finish()
    }
}

/// Ends that are to be those of one ring.
fn no_ends(size: usize) -> (Writer, Reader) {
    static RINGS: AtomicU64 = AtomicU64::new(0);
    let none = || Handle { at: null_mut(), live: false };
    let number = RINGS.fetch_add(1, Ordering::Relaxed);
    (Writer(none(), number, 0, None), Reader(none(), number, HEADER.saturating_add(size), None))
}

/// The two ends of a new ring of this CPU, of `pages` pages of `size` bytes of data each.
pub fn ring(cpu: u32, pages: usize, size: usize) -> Result<(Writer, Reader), Fault> {
    let (mut w, mut r) = no_ends(size);
    done(unsafe { tracering_raw_new(&mut w.0, &mut r.0, cpu, pages, size) }).map(|()| (w, r))
}

/// Joins the two ends of a ring: what no take has answered goes to the front of `out`, as a parcel. Its length is 0 if
/// there is nothing.
pub fn settle(mut w: Writer, mut r: Reader, out: &mut [u8]) -> Result<Taken, (Writer, Reader, Fault)> {
    if w.1 != r.1 {
        return Err((w, r, Fault::OtherRing));
    }
    w.complete_above(0);
    let mut taken = Taken::default();
    let code = unsafe { tracering_raw_settle(&mut w.0, &mut r.0, out.as_mut_ptr(), out.len(), &mut taken) };
    if code == 0 {
        if taken.len > 0 {
            r.tell_taken(&taken);
        }
        w.tell_ended();
    }
    done(code).map(|()| taken).map_err(|fault| (w, r, fault))
}

impl Writer {
    /// Writes a record whole.
    pub fn write(&mut self, moment: u64, payload: &[u8]) -> Result<(), Fault> {
        Nested::from(self).write(moment, payload)
    }

    /// Reserves a record, to be written in parts; if it is refused, nothing of it is left.
    pub fn begin(&mut self, moment: u64, len: usize) -> Result<Open<'_>, Fault> {
        Nested::from(self).begin(moment, len)
    }

    /// Closes the page that is written, so that it can be taken; if that is refused, nothing of it is left. Whether the
    /// page was closed: one that has no record isn't.
    pub fn close(&mut self) -> Result<bool, Fault> {
        Nested::from(self).close()
    }

    /// Frees this end, as a drop does too: the page that is written is closed first, so that the reader can take it.
    /// How many records are lost: 0, unless that close is refused (`Fault::Worn`).
    pub fn free(mut self) -> u64 {
        self.free_end()
    }

    fn free_end(&mut self) -> u64 {
        self.complete_above(0);
        if self.0.live && self.3.is_some() {
            let _refusal = self.close();
            self.tell_ended();
        }
        let mut lost = 0;
        let _code = unsafe { tracering_raw_writer_free(&mut self.0, &mut lost) };
        lost
    }

    /// The region says that nothing follows, if there is one.
    fn tell_ended(&self) {
        if let Some(region) = &self.3 {
            region.tell(region::ENDED, 1);
        }
    }

    /// Copies the page that is written to the front of `out`, as a parcel, and closes nothing; or nothing, if the page
    /// has no record. Take until `Fault::Empty` first, with no write in between: `c/include/tracering.h` says why, and
    /// why no collector gets a peeked page and pages that are taken after it.
    pub fn peek(&mut self, out: &mut [u8]) -> Result<Option<Taken>, Fault> {
        self.complete_above(0);
        let mut taken = Taken::default();
        match done(unsafe { tracering_raw_peek(&mut self.0, out.as_mut_ptr(), out.len(), &mut taken) }) {
            Err(Fault::Empty) => Ok(None),
            answer => answer.map(|()| Some(taken)),
        }
    }

    /// Finishes the frame on top of those of the open records, which leaves if it is refused: what was answered.
    fn finish(&mut self) -> Result<i32, Fault> {
        let code = unsafe { tracering_raw_finish(&mut self.0) };
        let finished = done(code).map(|()| code);
        if finished.is_err() && unsafe { tracering_raw_depth(&mut self.0) } > self.2 {
            let _refusal = unsafe { tracering_raw_finish(&mut self.0) };
        }
        finished
    }

    /// Ends and completes the records above the first `open` ones: one that is dropped, and those that were forgotten.
    fn complete_above(&mut self, open: usize) {
        while self.2 > open {
            let _refusal = unsafe { tracering_raw_end(&mut self.0) };
            self.2 -= 1;
            // The outermost record's frame stays until it is completed; one that is nested is gone with its end.
            if self.2 == 0 {
                let _refusal = unsafe { tracering_raw_finish(&mut self.0) };
            }
        }
    }
}

impl<'a> From<&'a mut Writer> for Nested<'a> {
    fn from(writer: &'a mut Writer) -> Nested<'a> {
        Nested(writer, 0)
    }
}

impl<'a> Nested<'a> {
    /// Writes a record whole.
    pub fn write(&mut self, moment: u64, payload: &[u8]) -> Result<(), Fault> {
        let given = Payload { bytes: payload.as_ptr(), len: payload.len() };
        self.0.complete_above(self.1);
        done(unsafe { tracering_raw_write(&mut self.0 .0, moment, given) })
    }

    /// Reserves a record, to be written in parts; if it is refused, nothing of it is left.
    pub fn begin(self, moment: u64, len: usize) -> Result<Open<'a>, Fault> {
        let Nested(writer, open) = self;
        writer.complete_above(open);
        done(unsafe { tracering_raw_begin(&mut writer.0, moment, len) })?;
        writer.finish()?;
        writer.2 += 1;
        Ok(Open(writer, open + 1))
    }

    /// Closes the page that is written, so that it can be taken; if that is refused, nothing of it is left. Whether the
    /// page was closed: one that has no record isn't.
    pub fn close(&mut self) -> Result<bool, Fault> {
        self.0.complete_above(self.1);
        done(unsafe { tracering_raw_begin_close(&mut self.0 .0) })?;
        self.0.finish().map(|code| code != NOTHING_CLOSED)
    }

    /// This writer of nested records, lent for a while.
    pub fn nested(&mut self) -> Nested<'_> {
        Nested(self.0, self.1)
    }
}

impl Open<'_> {
    /// Copies the bytes to the front of the record's slot.
    pub fn put(&mut self, bytes: &[u8]) -> Result<(), Fault> {
        self.0.complete_above(self.1);
        done(unsafe { tracering_raw_put(&mut self.0 .0, bytes.as_ptr(), bytes.len()) })
    }

    /// The writer, for records that are nested in this one.
    pub fn nested(&mut self) -> Nested<'_> {
        Nested(self.0, self.1)
    }
}

impl Drop for Open<'_> {
    fn drop(&mut self) {
        self.0.complete_above(self.1 - 1);
    }
}

impl Reader {
    /// How many bytes `take`, `peek` and `settle` want room for, of this ring: `HEADER`, and as many as a page has.
    pub fn room(&self) -> usize {
        self.2
    }

    /// Takes the oldest page that is closed and unread, or gives the one that `Collector::take` didn't add: its parcel
    /// goes to the front of `out`.
    pub fn take(&mut self, out: &mut [u8]) -> Result<Taken, Fault> {
        let mut taken = Taken::default();
        done(unsafe { tracering_raw_take(&mut self.0, out.as_mut_ptr(), out.len(), &mut taken) })?;
        self.tell_taken(&taken);
        Ok(taken)
    }

    /// The region says what was taken, if there is one.
    fn tell_taken(&self, taken: &Taken) {
        if let Some(region) = &self.3 {
            region.tell(region::TAKEN, taken.first + taken.count);
        }
    }

    /// Wishes for the page that is written to be closed.
    pub fn wish(&mut self) -> Result<(), Fault> {
        done(unsafe { tracering_raw_wish(&mut self.0) })
    }
}

impl Drop for Writer {
    fn drop(&mut self) {
        self.free_end();
    }
}

impl Drop for Reader {
    fn drop(&mut self) {
        let _code = unsafe { tracering_raw_reader_free(&mut self.0) };
    }
}

/// Where a parcel is refused, as `c/include/tracering.h` says.
#[repr(C)]
#[derive(Clone, Copy, Debug, Default, PartialEq, Eq)]
pub struct FaultAt {
    pub number: u64,
    pub cpu: u32,
}

/// A run of missing numbers, by its first and its last.
#[repr(C)]
#[derive(Clone, Copy, Debug, Default, PartialEq, Eq)]
pub struct Run {
    pub first: u64,
    pub last: u64,
}

/// A line of a listing, without its bytes.
#[repr(C)]
#[derive(Clone, Copy, Debug, Default, PartialEq, Eq)]
pub struct Line {
    pub moment: u64,
    pub number: u64,
    pub cpu: u32,
    pub len: usize,
}

/// What parcels have and miss together.
pub struct Collector(Handle);

// The library's proof that this handle may go to another thread is in crates/tracering_c.
unsafe impl Send for Collector {}

impl fmt::Debug for Collector {
    fn fmt(&self, f: &mut fmt::Formatter<'_>) -> fmt::Result {
        f.debug_struct("Collector").finish_non_exhaustive()
    }
}

impl Collector {
    /// A collector without a parcel.
    pub fn new() -> Result<Collector, Fault> {
        let mut c = Collector(Handle { at: null_mut(), live: false });
        done(unsafe { tracering_raw_collector_new(&mut c.0) }).map(|()| c)
    }

    /// Adds the parcel that these bytes are. Whether it has or misses something that wasn't there.
    pub fn add(&mut self, bytes: &[u8]) -> Result<bool, (Fault, FaultAt)> {
        let mut at = FaultAt::default();
        let code = unsafe { tracering_raw_collector_add(&mut self.0, bytes.as_ptr(), bytes.len(), &mut at) };
        done(code).map(|()| code == 0).map_err(|fault| (fault, at))
    }

    /// Takes the next page of a ring, as `Reader::take` does, and adds it. Whether it has or misses something that
    /// wasn't there. A page that isn't added stays with the reader, which gives it next.
    pub fn take(&mut self, reader: &mut Reader) -> Result<(Taken, bool), (Fault, FaultAt)> {
        let (mut taken, mut at) = (Taken::default(), FaultAt::default());
        let code = unsafe { tracering_raw_collector_take(&mut self.0, &mut reader.0, &mut taken, &mut at) };
        done(code).map_err(|fault| (fault, at))?;
        reader.tell_taken(&taken);
        Ok((taken, code == 0))
    }

    /// The runs of a CPU's missing numbers.
    pub fn missing(&mut self, cpu: u32) -> Vec<Run> {
        let (mut runs, mut count) = (Vec::new(), 0);
        loop {
            let (out, room) = (runs.as_mut_ptr(), runs.len());
            let code = unsafe { tracering_raw_collector_missing(&mut self.0, cpu, out, room, &mut count) };
            let enough = done(code).is_ok();
            runs.resize(count, Run::default());
            if enough {
                return runs;
            }
        }
    }

    /// Lists the records that are there now, from the first on. How many there are.
    pub fn list(&mut self) -> Result<usize, Fault> {
        let mut count = 0;
        done(unsafe { tracering_raw_collector_list(&mut self.0, &mut count) }).map(|()| count)
    }

    /// The next line of the listing, whose bytes go to the front of `out`. If there are more of them than it has room
    /// for, the line says how many, and stays the next one.
    pub fn next(&mut self, out: &mut [u8]) -> Result<Line, (Fault, Line)> {
        let mut line = Line::default();
        let code = unsafe { tracering_raw_collector_next(&mut self.0, out.as_mut_ptr(), out.len(), &mut line) };
        done(code).map(|()| line).map_err(|fault| (fault, line))
    }

    /// Whether both have and miss the same.
    pub fn same(&mut self, other: &mut Collector) -> bool {
        unsafe { tracering_raw_collector_same(&mut self.0, &mut other.0) == 0 }
    }
}

impl Drop for Collector {
    fn drop(&mut self) {
        unsafe { tracering_raw_collector_free(&mut self.0) };
    }
}
