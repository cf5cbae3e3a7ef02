//! Rings whose pages lie in a file or in shared memory: the records survive the process, and others can look at them
//! while it runs. `c/include/tracering_region.h` says what each call does.
//!
//! ```no_run
//! # fn main() -> Result<(), Box<dyn std::error::Error>> {
//! use std::sync::Arc;
//! use tracering::region::{ring_in, Region};
//! // An id for the rings of this run, each of which has a CPU of its own.
//! let stream = std::time::UNIX_EPOCH.elapsed()?.as_nanos() as u64;
//! let region = Arc::new(Region::file("ring.0".as_ref(), 64, 4080)?);
//! let (mut writer, _reader) = ring_in(&region, 0, 64, 4080, stream)?;
//! writer.write(7, b"begun")?;
//! std::process::abort();
//! # }
//! ```
//!
//! `tracering recover ring.0` prints what was written.
use crate::{done, Fault, Handle, Reader, Writer};
use std::ffi::{c_char, c_int, CString};
use std::io;
use std::os::raw::c_void;
use std::os::unix::ffi::OsStrExt;
use std::path::Path;
use std::ptr::null;
use std::sync::atomic::{AtomicU64, Ordering};
use std::sync::Arc;

/// The number of a region's word that says what was taken, and of the one that says whether the writer ended.
pub(crate) const TAKEN: usize = 6;
pub(crate) const ENDED: usize = 7;

extern "C" {
    fn tracering_raw_new_in(
        w: *mut Handle, r: *mut Handle, cpu: u32, pages: usize, size: usize, stream: u64, region: *mut c_void,
        len: usize,
    ) -> i32;
    fn tracering_region_size(pages: usize, size: usize) -> usize;
    fn tracering_region_file(path: *const c_char, len: usize) -> *mut c_void;
    fn tracering_region_shared(name: *const c_char, len: usize) -> *mut c_void;
    fn tracering_region_huge(len: usize, is_huge: *mut bool) -> *mut c_void;
    fn tracering_region_open(path: *const c_char, len: *mut usize) -> *const c_void;
    fn tracering_region_unmap(region: *const c_void, len: usize) -> c_int;
    fn tracering_region_about(region: *const c_void, len: usize, about: *mut About) -> i32;
    fn tracering_region_copy(region: *const c_void, len: usize, copy: *mut c_void, copy_len: usize) -> i32;
    fn tracering_region_slot(
        region: *const c_void, len: usize, slot: usize, bytes: *mut *const c_void, bytes_len: *mut usize,
    ) -> i32;
}

/// What a region says of itself. `c/include/tracering_region.h` has the units.
#[repr(C)]
#[derive(Clone, Copy, Debug, Default, PartialEq, Eq)]
pub struct About {
    pub pages: usize,
    pub size: usize,
    pub cpu: u32,
    pub has_ended: bool,
    pub stream: u64,
    pub taken: u64,
    pub len: usize,
}

/// Memory in which the pages of a ring lie, mapped as long as this or an end of the ring is there.
#[derive(Debug)]
pub struct Region {
    at: *mut c_void,
    len: usize,
    is_writable: bool,
}

// What is there is read by atomic loads, and written by the ends of one ring; the library refuses another one.
unsafe impl Send for Region {}
unsafe impl Sync for Region {}

/// How many bytes the region of a ring has of `pages` pages of `size` bytes of data each; 0 if no ring has these
/// numbers.
pub fn len_of(pages: usize, size: usize) -> usize {
    unsafe { tracering_region_size(pages, size) }
}

fn text(bytes: &[u8]) -> io::Result<CString> {
    CString::new(bytes).map_err(|_| io::ErrorKind::InvalidInput.into())
}

impl Region {
    fn of(at: *mut c_void, len: usize) -> io::Result<Region> {
        match at.is_null() {
            true => Err(io::Error::last_os_error()),
            false => Ok(Region { at, len, is_writable: true }),
        }
    }

    /// A new file for a ring of `pages` pages. If there is one of this name, it is named PATH~ first.
    pub fn file(path: &Path, pages: usize, size: usize) -> io::Result<Region> {
        let (path, len) = (text(path.as_os_str().as_bytes())?, len_of(pages, size));
        Region::of(unsafe { tracering_region_file(path.as_ptr(), len) }, len)
    }

    /// A new object of POSIX shared memory, whose name begins with a slash.
    pub fn shared(name: &str, pages: usize, size: usize) -> io::Result<Region> {
        let (name, len) = (text(name.as_bytes())?, len_of(pages, size));
        Region::of(unsafe { tracering_region_shared(name.as_ptr(), len) }, len)
    }

    /// Memory without a name, and whether it is in huge pages.
    pub fn huge(pages: usize, size: usize) -> io::Result<(Region, bool)> {
        let (len, mut is_huge) = (len_of(pages, size), false);
        let region = Region::of(unsafe { tracering_region_huge(len, &mut is_huge) }, len)?;
        Ok((region, is_huge))
    }

    /// The region in a file, which another process may write; no ring can be made in it.
    pub fn open(path: &Path) -> io::Result<Region> {
        let (path, mut len) = (text(path.as_os_str().as_bytes())?, 0);
        let at = unsafe { tracering_region_open(path.as_ptr(), &mut len) };
        let mut region = Region::of(at.cast_mut(), len)?;
        region.is_writable = false;
        Ok(region)
    }

    /// A copy of the region as it is now, whoever writes it: `slots` gives its records.
    pub fn copy(&self) -> Result<Vec<u8>, Fault> {
        let mut copy = vec![0; self.len];
        let code = unsafe { tracering_region_copy(self.at, self.len, copy.as_mut_ptr().cast(), copy.len()) };
        done(code).map(|()| copy)
    }

    /// Stores a word of the header.
    pub(crate) fn tell(&self, word: usize, value: u64) {
        let words = self.at as *const AtomicU64;
        unsafe { &*words.add(word) }.store(value, Ordering::Release);
    }
}

impl Drop for Region {
    fn drop(&mut self) {
        let _answer = unsafe { tracering_region_unmap(self.at, self.len) };
    }
}

/// The two ends of a new ring, as `tracering::ring` makes it, whose pages lie in this region. `stream` is an id for its
/// records: another one for each run; rings of one run may share it, if each has a CPU of its own. `Fault::BadRegion`:
/// the region is shorter than the ring needs, or has another ring, or is only read.
pub fn ring_in(
    region: &Arc<Region>, cpu: u32, pages: usize, size: usize, stream: u64,
) -> Result<(Writer, Reader), Fault> {
    if !region.is_writable {
        return Err(Fault::BadRegion);
    }
    let (mut w, mut r) = crate::no_ends(size);
    done(unsafe { tracering_raw_new_in(&mut w.0, &mut r.0, cpu, pages, size, stream, region.at, region.len) })?;
    w.3 = Some(region.clone());
    r.3 = Some(region.clone());
    Ok((w, r))
}

/// What the bytes of a region say of it: those of a copy, or of a file whose writer is gone.
pub fn about(bytes: &[u8]) -> Result<About, Fault> {
    let mut about = About::default();
    done(unsafe { tracering_region_about(bytes.as_ptr().cast(), bytes.len(), &mut about) }).map(|()| about)
}

/// The parcels of such a region, in no order of time, for `Collector::add` and `pack`; and of each slot that is damaged
/// how it is.
pub fn slots(bytes: &[u8]) -> Slots<'_> {
    Slots { bytes, next: 0 }
}

/// An iterator over the slots of a region that have something.
#[derive(Clone, Debug)]
pub struct Slots<'a> {
    bytes: &'a [u8],
    next: usize,
}

impl<'a> Slots<'a> {
    fn slot(&self, slot: usize) -> Result<&'a [u8], Fault> {
        let (mut at, mut len) = (null(), 0);
        done(unsafe {
            tracering_region_slot(self.bytes.as_ptr().cast(), self.bytes.len(), slot, &mut at, &mut len)
        })?;
        let begin = at as usize - self.bytes.as_ptr() as usize;
        Ok(&self.bytes[begin..begin + len])
    }
}

impl<'a> Iterator for Slots<'a> {
    type Item = Result<&'a [u8], Fault>;

    fn next(&mut self) -> Option<Self::Item> {
        loop {
            let found = self.slot(self.next);
            self.next += 1;
            match found {
                Err(Fault::Empty) => {}
                // (What is no region has no slots.)
                Err(Fault::End | Fault::BadRegion) => return None,
                _ => return Some(found),
            }
        }
    }
}
