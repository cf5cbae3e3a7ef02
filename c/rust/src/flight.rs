//! A flight recorder: each thread's newest events, kept in memory, and dumped in one call or as the process crashes.
//! `c/include/tracering_flight.h` says what each call does.
//!
//! ```no_run
//! # fn main() -> std::io::Result<()> {
//! tracering::flight::start(&Default::default())?;
//! tracering::flight::dump_on_crash("program.flight")?;
//! let (id, ns) = (7, 250.5);
//! tracering::trace!("request {} took {:.1} ns", id, ns);
//! # Ok(())
//! # }
//! ```
//!
//! `tracering-flight show program.flight` prints the events by time, formatted, with each loss counted. With a `file`
//! in the configuration that file has the events as they are recorded, so they outlive a kill, and no dump is needed.
mod arguments;
mod event;
mod format;
mod place;

#[doc(hidden)]
pub use arguments::{Given, RecordText, RecordValues};
pub use arguments::{Argument, Arguments, Values};
pub use event::{Text, LONGEST_EVENT};
#[doc(hidden)]
pub use format::wanted;
pub use place::{Formats, Level, Place, MOST_LISTS};

use place::Site;
use std::ffi::{c_char, c_int, CString};
use std::io;
use std::os::unix::ffi::OsStrExt;
use std::panic;
use std::path::Path;
use std::ptr::null;
use std::sync::atomic::AtomicU32;

/// How many arguments an event has at most.
pub const MOST_ARGUMENTS: usize = 8;
/// How many bytes of a text are recorded at most.
pub const LONGEST_TEXT: usize = 255;
const TEXT: u8 = 0x40;
/// For `keep`, which means nothing any more.
pub const KEEP_NONE: u32 = u32::MAX;

/// Which clock the moments of events are read from.
#[derive(Clone, Copy, Debug, Default)]
pub enum Clock {
    /// CLOCK_MONOTONIC, in nanoseconds.
    #[default]
    Monotonic,
    /// The processor's counter.
    Tsc,
    /// The caller's, below 2^59, which a signal's handler may read, too.
    Caller(extern "C" fn() -> u64),
}

/// What a recorder is made with. A number that is 0 stands for its default.
#[derive(Clone, Copy, Debug, Default)]
pub struct Config<'path> {
    /// How many threads record at once (32).
    pub threads: u32,
    /// How many rings each thread has: what interrupts an event's writing goes to the next one (2).
    pub levels: u32,
    /// How many pages a thread's first ring has: 2 to 1,024 (8).
    pub pages: u32,
    /// How many bytes of data a page has: 32 to 65,520, a multiple of 4 (4,080). So a ring has 67 megabytes at most.
    pub size: u32,
    /// Nothing: a dump takes no page, so each has all that the rings have.
    pub keep: u32,
    /// The clock.
    pub clock: Clock,
    /// Nothing: no thread is sent a signal.
    pub signal: c_int,
    /// Nothing: no thread is waited for.
    pub wait_ms: u32,
    /// The file in which all events are from the start on (none). What was there is named `PATH~`.
    pub file: Option<&'path Path>,
    /// Whether rings are those of CPUs, and some spare ones, and not those of threads (false): so their number doesn't
    /// depend on that of threads, of which `threads` are named at once. An event takes some 120 instructions more.
    pub per_cpu: bool,
}

#[repr(C)]
struct RawConfig {
    threads: u32,
    levels: u32,
    pages: u32,
    size: u32,
    keep: u32,
    clock: c_int,
    now: Option<extern "C" fn() -> u64>,
    signal: c_int,
    wait_ms: u32,
    file: *const c_char,
    per_cpu: bool,
}

extern "C" {
    fn flight_start(config: *const RawConfig) -> c_int;
    fn flight_start_in_child() -> c_int;
    fn flight_stop() -> c_int;
    fn flight_dump(path: *const c_char) -> c_int;
    fn flight_dump_on_crash(path: *const c_char) -> c_int;
    fn flight_name(name: *const c_char) -> c_int;
    fn flight_switch(pattern: *const c_char, on: bool) -> c_int;
    static flight_turn: AtomicU32;
    fn flight_register(site: *const Site) -> bool;
    fn flight_record(site: *const Site, event: *mut u8, len: usize);
}

fn done(error: c_int) -> io::Result<()> {
    match error {
        0 => Ok(()),
        _ => Err(io::Error::from_raw_os_error(error)),
    }
}

fn text(bytes: &[u8]) -> io::Result<CString> {
    Ok(CString::new(bytes)?)
}

/// Starts the recorder. All its memory is taken here.
pub fn start(config: &Config) -> io::Result<()> {
    let Config { threads, levels, pages, size, keep, clock, signal, wait_ms, file, per_cpu } = *config;
    let (clock, now) = match clock {
        Clock::Monotonic => (0, None),
        Clock::Tsc => (1, None),
        Clock::Caller(now) => (2, Some(now)),
    };
    let path = file.map(|file| text(file.as_os_str().as_bytes())).transpose()?;
    let file = path.as_ref().map_or(null(), |path| path.as_ptr());
    let raw = RawConfig { threads, levels, pages, size, keep, clock, now, signal, wait_ms, file, per_cpu };
    done(unsafe { flight_start(&raw) })
}

/// In a forked child: starts a recorder with all that its parent's was started with. In the path of `file` there has to
/// be `%p`, which stands for the process's number, since the file would be the parent's. If the parent had called
/// [`dump_on_crash`], the child's crashes are dumped as well; what it had by [`dump_on_panic`] the child has anyway.
///
/// Without it a child has no recorder: its [`trace!`](crate::trace!) does nothing.
pub fn start_in_child() -> io::Result<()> {
    done(unsafe { flight_start_in_child() })
}

/// Stops the recorder, and releases its memory.
///
/// # Safety
/// No thread or handler is in a `trace!`, and none begins one before this returns.
pub unsafe fn stop() -> io::Result<()> {
    done(flight_stop())
}

/// Dumps all events to a new file at this path.
pub fn dump(path: impl AsRef<Path>) -> io::Result<()> {
    let path = text(path.as_ref().as_os_str().as_bytes())?;
    done(unsafe { flight_dump(path.as_ptr()) })
}

/// From now on the signals of a crash, and SIGTERM, dump to this path, and then do what they did before. A dump that
/// fails in a crash fails unseen, as it does if the recorder's own file is at this path, or at it with a `~` appended.
pub fn dump_on_crash(path: impl AsRef<Path>) -> io::Result<()> {
    let path = text(path.as_ref().as_os_str().as_bytes())?;
    done(unsafe { flight_dump_on_crash(path.as_ptr()) })
}

/// From now on a panic of any thread is recorded, and dumps to this path; then what was to be done of panics before is
/// done. A dump that fails then fails unseen. The process may end by the panic or go on: the next one dumps again.
pub fn dump_on_panic(path: impl AsRef<Path>) -> io::Result<()> {
    let path = text(path.as_ref().as_os_str().as_bytes())?;
    let before = panic::take_hook();
    panic::set_hook(Box::new(move |panicked| {
        record_panic(panicked);
        let _ = done(unsafe { flight_dump(path.as_ptr()) });
        before(panicked);
    }));
    Ok(())
}

fn record_panic(panicked: &panic::PanicHookInfo) {
    let payload = panicked.payload();
    let said = payload.downcast_ref::<&str>().copied().or(payload.downcast_ref::<String>().map(String::as_str));
    let (file, line) = panicked.location().map_or(("?", 0), |at| (at.file(), at.line()));
    let said = said.unwrap_or("a value that is no text");
    crate::trace!("panicked at {file}:{line}: {said}");
}

/// This thread's name in dumps. Until it is named, it is the name that the system has of the thread.
pub fn name(name: &str) -> io::Result<()> {
    let name = text(name.as_bytes())?;
    done(unsafe { flight_name(name.as_ptr()) })
}

/// Switches on or off the events whose text "FILE:LINE FORMAT" the whole pattern matches (`*cache.rs:*` for a file). Of
/// an event with a level that is before FORMAT (`*:* DEBUG *` for a level).
pub fn switch(pattern: &str, on: bool) -> io::Result<()> {
    let pattern = text(pattern.as_bytes())?;
    done(unsafe { flight_switch(pattern.as_ptr(), on) })
}

/// Records an event: a format of `format!`, and what it formats, which is evaluated only if the event is switched on.
///
/// ```no_run
/// # let (id, ns) = (7, 250.5);
/// tracering::trace!("request {} took {:.1} ns", id, ns);
/// ```
///
/// Up to eight numbers, texts (of which 255 bytes are kept), characters, truth values and addresses are recorded as
/// they are, and formatted when the dump is shown: that is the fast way.
///
/// Values of other types, of one's own too, need `Display` or `Debug` as in `format!`; and a format may have names,
/// those of variables too, and widths and precisions that are arguments. Such an event is formatted when it is
/// recorded, if it is switched on, to a text of 2,016 bytes at most ([`LONGEST_EVENT`]), and shown with dots after
/// what was kept of a longer one. A page (`size` of [`Config`]) has to have room for it.
///
/// ```no_run
/// # #[derive(Debug)] struct Point { x: u8, y: i8 }
/// # let (count, width) = (3, 8);
/// let point = Point { x: 1, y: -2 };
/// tracering::trace!("{count} points, the first is {point:?}");
/// tracering::trace!("{:?} after {:width$.1} ms", point, 2.25);
/// tracering::trace!("{limit} of {count}", limit = 2 * count);
/// ```
///
/// `format_args!` makes one argument a text, of 255 bytes at most, and leaves the others as they are:
///
/// ```no_run
/// # let point = Some(3);
/// tracering::trace!("at {} after {} ms", format_args!("{point:?}"), 17);
/// ```
///
/// In a generic function, arguments may be of other types in each instance. They are recorded as they are if the
/// function's bounds have [`Argument`], and formatted otherwise. A `trace!` there takes the arguments of up to
/// [`MOST_LISTS`] different lists of kinds (such as `u32, f64`); an event with a further list is recorded without
/// its arguments, and its format's replacements are shown as they are written: `<{}>`.
///
/// Each `trace!` takes 768 bytes of the program's data, generic or not, beside its texts.
///
/// [`Argument`]: crate::flight::Argument
/// [`Config`]: crate::flight::Config
/// [`LONGEST_EVENT`]: crate::flight::LONGEST_EVENT
/// [`MOST_LISTS`]: crate::flight::MOST_LISTS
///
/// The compiler checks the format, and that there are no more than eight arguments beside variables that it names:
///
/// ```compile_fail
/// tracering::trace!("{} and {}", 1);
/// ```
/// ```compile_fail
/// struct Unknown;
/// tracering::trace!("{:?}", Unknown);
/// ```
/// ```compile_fail
/// tracering::trace!("{}{}{}{}{}{}{}{}{}", 1, 2, 3, 4, 5, 6, 7, 8, 9);
/// ```
#[macro_export]
macro_rules! trace {
    ($format:literal $(, $($given:tt)*)?) => {
        $crate::trace!(@next $format [a b c d e f g h] [] $($($given)*)?)
    };
    (@next $format:literal [$name:ident $($names:ident)*] [$($all:tt)*]
        $key:ident = $argument:expr $(, $($given:tt)*)?
    ) => {
        $crate::trace!(@next $format [$($names)*] [$($all)* ($name [$key =] $argument)] $($($given)*)?)
    };
    (@next $format:literal [$name:ident $($names:ident)*] [$($all:tt)*] $argument:expr $(, $($given:tt)*)?) => {
        $crate::trace!(@next $format [$($names)*] [$($all)* ($name [] $argument)] $($($given)*)?)
    };
    (@next $format:literal [$($names:ident)*] [$(($name:ident [$($key:tt)*] $argument:expr))*]) => {{
        // (The items are in a block of their own, so that no argument's name means one of them.)
        let place = {
            static PLACE: $crate::flight::Place = $crate::flight::Place::new(
                $crate::flight::Formats::of(concat!($format, "\0")),
                concat!(file!(), "\0"),
                line!(),
                <[&str]>::len(&[$(stringify!($name)),*]),
            );
            &PLACE
        };
        if place.is_on() {
            match ($(&$argument,)*) {
                ($($name,)*) => {
                    #[allow(unused_imports)]
                    use $crate::flight::{RecordText as _, RecordValues as _};
                    (&$crate::flight::Given(($($name,)*))).record::<{ $crate::flight::wanted($format) }>(
                        place,
                        |text| ::std::fmt::Write::write_fmt(text, format_args!($format $(, $($key)* *$name)*)),
                    );
                }
            }
        }
    }};
    (@next $format:literal [] [$($all:tt)*] $($given:tt)+) => {
        compile_error!("trace! has eight arguments at most")
    };
}
