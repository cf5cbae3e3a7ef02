//! Fleets: what the packed pieces of many streams have and miss together. `c/include/tracering.h` says what each call
//! does.
use crate::{done, Fault, Handle, Run};
use std::cell::UnsafeCell;
use std::error::Error;
use std::fmt;
use std::ptr::null_mut;

/// The most bytes of a mark.
pub const MARK: usize = 64;

extern "C" {
    fn tracering_raw_pack(stream: u64, bytes: *const u8, len: usize, out: *mut u8, room: usize, used: *mut usize)
        -> i32;
    fn tracering_raw_pack_end(stream: u64, cpu: u32, count: u64, out: *mut u8, room: usize, len: *mut usize) -> i32;
    fn tracering_raw_fleet_new(f: *mut Handle) -> i32;
    fn tracering_raw_fleet_add(
        f: *mut Handle, bytes: *const u8, len: usize, used: *mut usize, at: *mut StreamFault,
    ) -> i32;
    fn tracering_raw_fleet_merge(f: *mut Handle, other: *mut Handle, at: *mut StreamFault) -> i32;
    fn tracering_raw_fleet_same(f: *mut Handle, other: *mut Handle) -> i32;
    fn tracering_raw_fleet_next_stream(f: *mut Handle, from: u64, stream: *mut u64) -> i32;
    fn tracering_raw_fleet_next_cpu(f: *mut Handle, stream: u64, from: u32, cpu: *mut u32) -> i32;
    fn tracering_raw_fleet_state(f: *mut Handle, stream: u64, cpu: u32, state: *mut RawState) -> i32;
    fn tracering_raw_fleet_missing(f: *mut Handle, stream: u64, cpu: u32, out: *mut Run, room: usize, count: *mut usize)
        -> i32;
    fn tracering_raw_fleet_unknown(f: *mut Handle, stream: u64, cpu: u32, out: *mut Run, room: usize, count: *mut usize)
        -> i32;
    fn tracering_raw_fleet_undelivered(
        f: *mut Handle, stream: u64, cpu: u32, out: *mut Run, room: usize, count: *mut usize,
    ) -> i32;
    fn tracering_raw_fleet_forget(f: *mut Handle, stream: u64, cpu: u32, bound: u64, at: *mut StreamFault) -> i32;
    fn tracering_raw_fleet_give_up(f: *mut Handle, stream: u64, cpu: u32, bound: u64, at: *mut StreamFault) -> i32;
    fn tracering_raw_fleet_list(f: *mut Handle, count: *mut usize) -> i32;
    fn tracering_raw_fleet_next(f: *mut Handle, out: *mut u8, room: usize, line: *mut FleetLine) -> i32;
    fn tracering_raw_fleet_frontier(f: *mut Handle, moment: *mut u64) -> i32;
    fn tracering_raw_fleet_list_before(f: *mut Handle, moment: u64, count: *mut usize) -> i32;
    fn tracering_raw_fleet_forget_before(f: *mut Handle, moment: u64) -> i32;
    fn tracering_raw_fleet_pack(f: *mut Handle, stream: u64, out: *mut u8, room: usize, len: *mut usize) -> i32;
    fn tracering_raw_fleet_free(f: *mut Handle) -> i32;
}

/// Where a piece, or what a call was to do, is at odds with a stream.
#[repr(C)]
#[derive(Clone, Copy, Debug, Default, PartialEq, Eq)]
pub struct StreamFault {
    pub stream: u64,
    pub number: u64,
    pub cpu: u32,
}

/// A line of a fleet's listing, without its bytes.
#[repr(C)]
#[derive(Clone, Copy, Debug, Default, PartialEq, Eq)]
pub struct FleetLine {
    pub moment: u64,
    pub stream: u64,
    pub number: u64,
    pub cpu: u32,
    pub len: usize,
}

#[repr(C)]
#[derive(Default)]
struct RawState {
    bound: u64,
    watermark: u64,
    end: u64,
    has_end: bool,
}

/// How far a CPU of a stream is known.
#[derive(Clone, Copy, Debug, Default, PartialEq, Eq)]
pub struct CpuState {
    /// What is below is kept no longer; 0 if nothing was forgotten.
    pub bound: u64,
    /// The least number from the bound on that neither has a record, nor is missing, nor was given up.
    pub watermark: u64,
    /// How many records the CPU has, if that is known.
    pub end: Option<u64>,
}

/// What became of a piece that was added, or of a bound that was to be raised.
#[derive(Clone, Copy, Debug, PartialEq, Eq)]
pub enum Added {
    /// It says something new.
    New,
    /// All that it says was known already.
    Known,
    /// The parcel ends below the bound of its CPU.
    Forgotten,
}

/// Why a piece isn't added, or a bound not raised. Nothing has changed.
#[derive(Clone, Copy, Debug, PartialEq, Eq)]
pub struct Refusal {
    pub fault: Fault,
    /// Where it is at odds with its stream; all zeros, if it isn't.
    pub at: StreamFault,
    /// How many bytes the piece has; 0, if there is no piece, or none was to be added.
    pub used: usize,
}

impl fmt::Display for Refusal {
    fn fmt(&self, f: &mut fmt::Formatter<'_>) -> fmt::Result {
        let StreamFault { stream, number, cpu } = self.at;
        match self.fault {
            Fault::Clash | Fault::TakenAndMissing | Fault::BeyondEnd | Fault::OtherEnd | Fault::NotFinal => {
                write!(f, "{}: number {number} of CPU {cpu} of stream {stream:016x}", self.fault)
            }
            fault => fault.fmt(f),
        }
    }
}

impl Error for Refusal {}

fn added(code: i32) -> Result<Added, Fault> {
    done(code).map(|()| match code {
        0 => Added::New,
        -5 => Added::Forgotten,
        _ => Added::Known,
    })
}

/// The bytes that `put` gives into a buffer of a length that is enough for it.
fn packed(room: usize, put: impl Fn(*mut u8, usize, &mut usize) -> i32) -> Result<Vec<u8>, Fault> {
    let (mut out, mut len) = (vec![0; room], 0);
    loop {
        match done(put(out.as_mut_ptr(), out.len(), &mut len)) {
            Ok(()) => {
                out.truncate(len);
                return Ok(out);
            }
            Err(Fault::NoRoom) => out.resize(len, 0),
            Err(fault) => return Err(fault),
        }
    }
}

/// A parcel, which these bytes are, as a packed piece of the stream of this id.
pub fn pack(stream: u64, parcel: &[u8]) -> Result<Vec<u8>, Fault> {
    packed(parcel.len().saturating_add(40), |out, room, len| unsafe {
        tracering_raw_pack(stream, parcel.as_ptr(), parcel.len(), out, room, len)
    })
}

/// The packed mark that a CPU of a stream has `count` records, so that a tail that is lost is seen.
pub fn pack_end(stream: u64, cpu: u32, count: u64) -> Result<Vec<u8>, Fault> {
    packed(MARK, |out, room, len| unsafe { tracering_raw_pack_end(stream, cpu, count, out, room, len) })
}

/// What the packed pieces of many streams have and miss together, whatever their order and repeats.
///
/// ```
/// # fn main() -> Result<(), Box<dyn std::error::Error>> {
/// let (mut writer, mut reader) = tracering::ring(0, 4, 256)?;
/// writer.write(5, b"started")?;
/// writer.close()?;
/// let mut out = [0; tracering::HEADER + 256];
/// let taken = reader.take(&mut out)?;
/// let mut bytes = tracering::pack(7, &out[..taken.len])?;
/// bytes.extend(tracering::pack_end(7, 0, 2)?);
///
/// let mut fleet = tracering::Fleet::new()?;
/// let mut at = 0;
/// while at < bytes.len() {
///     let (added, used) = fleet.add(&bytes[at..])?;
///     assert_eq!(added, tracering::Added::New);
///     at += used;
/// }
/// for stream in fleet.streams() {
///     for cpu in fleet.cpus(stream) {
///         assert_eq!(fleet.unknown(stream, cpu), [tracering::Run { first: 1, last: 1 }]);
///     }
/// }
/// for (line, bytes) in fleet.lines()? {
///     assert_eq!((line.moment, line.stream, &bytes[..7]), (5, 7, &b"started"[..]));
/// }
/// # Ok(())
/// # }
/// ```
// A call that changes nothing is made through a shared reference: the handle is in one call at a time, since no other
// thread has such a reference (the cell makes it so).
pub struct Fleet(UnsafeCell<Handle>);

// The library's proof that this handle may go to another thread is in crates/tracering_c.
unsafe impl Send for Fleet {}

impl fmt::Debug for Fleet {
    fn fmt(&self, f: &mut fmt::Formatter<'_>) -> fmt::Result {
        f.debug_struct("Fleet").finish_non_exhaustive()
    }
}

type RunsCall = unsafe extern "C" fn(*mut Handle, u64, u32, *mut Run, usize, *mut usize) -> i32;

impl Fleet {
    /// A fleet of which no stream is there.
    pub fn new() -> Result<Fleet, Fault> {
        let mut handle = Handle { at: null_mut(), live: false };
        done(unsafe { tracering_raw_fleet_new(&mut handle) }).map(|()| Fleet(UnsafeCell::new(handle)))
    }

    /// Adds the piece at the front of these bytes to its stream. How many bytes it has: more pieces may follow it.
    pub fn add(&mut self, bytes: &[u8]) -> Result<(Added, usize), Refusal> {
        let (mut used, mut at) = (0, StreamFault::default());
        let (start, len) = (bytes.as_ptr(), bytes.len());
        let code = unsafe { tracering_raw_fleet_add(self.0.get_mut(), start, len, &mut used, &mut at) };
        added(code).map(|added| (added, used)).map_err(|fault| Refusal { fault, at, used })
    }

    /// Adds all that another fleet knows, which stays as it is.
    pub fn merge(&mut self, other: &Fleet) -> Result<(), Refusal> {
        let mut at = StreamFault::default();
        let code = unsafe { tracering_raw_fleet_merge(self.0.get_mut(), other.0.get(), &mut at) };
        done(code).map_err(|fault| Refusal { fault, at, used: 0 })
    }

    /// Whether both know the same of each stream.
    pub fn same(&self, other: &Fleet) -> bool {
        // (The export takes two handles.)
        self.0.get() == other.0.get() || unsafe { tracering_raw_fleet_same(self.0.get(), other.0.get()) == 0 }
    }

    /// The ids of the streams that are there, by rising id.
    pub fn streams(&self) -> Streams<'_> {
        Streams { fleet: self, from: Some(0) }
    }

    /// The CPUs of a stream of which something is there, by rising number.
    pub fn cpus(&self, stream: u64) -> Cpus<'_> {
        Cpus { fleet: self, stream, from: 0 }
    }

    /// How far a CPU of a stream is known.
    pub fn state(&self, stream: u64, cpu: u32) -> CpuState {
        let mut raw = RawState::default();
        let _done = unsafe { tracering_raw_fleet_state(self.0.get(), stream, cpu, &mut raw) };
        CpuState { bound: raw.bound, watermark: raw.watermark, end: raw.has_end.then_some(raw.end) }
    }

    /// The runs of a CPU's numbers whose records the ring lost.
    pub fn missing(&self, stream: u64, cpu: u32) -> Vec<Run> {
        self.runs(tracering_raw_fleet_missing, stream, cpu)
    }

    /// The runs of a CPU's numbers that are still to come.
    pub fn unknown(&self, stream: u64, cpu: u32) -> Vec<Run> {
        self.runs(tracering_raw_fleet_unknown, stream, cpu)
    }

    /// The runs of a CPU's numbers that were given up.
    pub fn undelivered(&self, stream: u64, cpu: u32) -> Vec<Run> {
        self.runs(tracering_raw_fleet_undelivered, stream, cpu)
    }

    fn runs(&self, call: RunsCall, stream: u64, cpu: u32) -> Vec<Run> {
        let (mut runs, mut count) = (Vec::new(), 0);
        loop {
            let (out, room) = (runs.as_mut_ptr(), runs.len());
            let enough = done(unsafe { call(self.0.get(), stream, cpu, out, room, &mut count) }).is_ok();
            runs.resize(count, Run::default());
            if enough {
                return runs;
            }
        }
    }

    /// Forgets what is below this bound of a CPU, which is at most its watermark.
    pub fn forget(&mut self, stream: u64, cpu: u32, bound: u64) -> Result<Added, Refusal> {
        let mut at = StreamFault::default();
        let code = unsafe { tracering_raw_fleet_forget(self.0.get_mut(), stream, cpu, bound, &mut at) };
        added(code).map_err(|fault| Refusal { fault, at, used: 0 })
    }

    /// Forgets what is below this bound of a CPU of a stream that will bring nothing more: what is unknown is given up.
    pub fn give_up(&mut self, stream: u64, cpu: u32, bound: u64) -> Result<Added, Refusal> {
        let mut at = StreamFault::default();
        let code = unsafe { tracering_raw_fleet_give_up(self.0.get_mut(), stream, cpu, bound, &mut at) };
        added(code).map_err(|fault| Refusal { fault, at, used: 0 })
    }

    /// Lists what is there now, by moment, stream, CPU and number.
    pub fn lines(&mut self) -> Result<Lines<'_>, Fault> {
        let mut left = 0;
        done(unsafe { tracering_raw_fleet_list(self.0.get_mut(), &mut left) })?;
        Ok(Lines { fleet: self, left })
    }

    /// Lists the records of each CPU below its cut at a moment; then `forget_before` drops them.
    pub fn lines_before(&mut self, moment: u64) -> Result<Lines<'_>, Fault> {
        let mut left = 0;
        done(unsafe { tracering_raw_fleet_list_before(self.0.get_mut(), moment, &mut left) })?;
        Ok(Lines { fleet: self, left })
    }

    /// The moment before which no line comes any more; none, if all that is there is complete.
    pub fn frontier(&self) -> Option<u64> {
        let mut moment = 0;
        done(unsafe { tracering_raw_fleet_frontier(self.0.get(), &mut moment) }).ok().map(|()| moment)
    }

    /// Raises the bound of each CPU to its cut at this moment. If memory is refused, some streams may have been done:
    /// it may be called again.
    pub fn forget_before(&mut self, moment: u64) -> Result<(), Fault> {
        done(unsafe { tracering_raw_fleet_forget_before(self.0.get_mut(), moment) })
    }

    /// The next line of the listing that was made last, whose bytes go to the front of `out`. If there are more of them
    /// than it has room for, the line says how many, and stays the next one.
    pub fn next(&mut self, out: &mut [u8]) -> Result<FleetLine, (Fault, FleetLine)> {
        let mut line = FleetLine::default();
        let code = unsafe { tracering_raw_fleet_next(self.0.get_mut(), out.as_mut_ptr(), out.len(), &mut line) };
        done(code).map(|()| line).map_err(|fault| (fault, line))
    }

    /// What is known of a stream, as packed pieces.
    pub fn pack(&self, stream: u64) -> Result<Vec<u8>, Fault> {
        packed(0, |out, room, len| unsafe { tracering_raw_fleet_pack(self.0.get(), stream, out, room, len) })
    }
}

impl Drop for Fleet {
    fn drop(&mut self) {
        unsafe { tracering_raw_fleet_free(self.0.get_mut()) };
    }
}

/// The ids of a fleet's streams.
#[derive(Clone, Debug)]
pub struct Streams<'a> {
    fleet: &'a Fleet,
    from: Option<u64>,
}

impl Iterator for Streams<'_> {
    type Item = u64;

    fn next(&mut self) -> Option<u64> {
        let (from, mut stream) = (self.from?, 0);
        let found = done(unsafe { tracering_raw_fleet_next_stream(self.fleet.0.get(), from, &mut stream) }).is_ok();
        self.from = if found { stream.checked_add(1) } else { None };
        found.then_some(stream)
    }
}

/// The CPUs of a stream.
#[derive(Clone, Debug)]
pub struct Cpus<'a> {
    fleet: &'a Fleet,
    stream: u64,
    from: u32,
}

impl Iterator for Cpus<'_> {
    type Item = u32;

    fn next(&mut self) -> Option<u32> {
        let mut cpu = 0;
        done(unsafe { tracering_raw_fleet_next_cpu(self.fleet.0.get(), self.stream, self.from, &mut cpu) }).ok()?;
        self.from = cpu + 1;
        Some(cpu)
    }
}

/// The lines of a listing that are left, each with its bytes.
#[derive(Debug)]
pub struct Lines<'a> {
    fleet: &'a mut Fleet,
    left: usize,
}

impl Iterator for Lines<'_> {
    type Item = (FleetLine, Vec<u8>);

    fn next(&mut self) -> Option<(FleetLine, Vec<u8>)> {
        let mut out = Vec::new();
        loop {
            match self.fleet.next(&mut out) {
                Ok(line) => {
                    self.left -= 1;
                    return Some((line, out));
                }
                Err((Fault::NoRoom, line)) => out.resize(line.len, 0),
                Err(_) => return None,
            }
        }
    }

    fn size_hint(&self) -> (usize, Option<usize>) {
        (self.left, Some(self.left))
    }
}

impl ExactSizeIterator for Lines<'_> {}
