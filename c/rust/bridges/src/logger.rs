//! A logger for the crate `log`.
use crate::kept::{place, Kept, Origin};
use log::{Level, LevelFilter, Log, Metadata, Record, SetLoggerError};
use std::fmt::Write;
use tracering::flight::{self, Place};

/// A logger that records what is said in the flight recorder. Which levels are said is for `log::set_max_level`, and
/// what of it is recorded for [`tracering::flight::switch`].
#[derive(Clone, Copy, Debug, Default)]
pub struct Logger;

impl Logger {
    /// Has it be the program's logger, for what is of this level or a more severe one. If the program has one already,
    /// nothing is changed.
    pub fn install(most: LevelFilter) -> Result<(), SetLoggerError> {
        log::set_logger(&Logger)?;
        log::set_max_level(most);
        Ok(())
    }
}

/// The recorder's level of what has this one.
fn level_of(level: Level) -> flight::Level {
    match level {
        Level::Error => flight::Level::Error,
        Level::Warn => flight::Level::Warning,
        Level::Info => flight::Level::Info,
        Level::Debug => flight::Level::Debug,
        Level::Trace => flight::Level::Trace,
    }
}

/// A place that says something, as a record names it.
struct Said {
    level: Level,
    target: String,
    file: Option<String>,
    line: Option<u32>,
    place: Place,
}

impl Said {
    fn new(record: &Record) -> Said {
        let (level, target, file, line) = (record.level(), record.target(), record.file(), record.line());
        let place = place(&Origin { level: level_of(level), target, file, line }, "{}", 1);
        Said { level, target: target.to_string(), file: file.map(str::to_string), line, place }
    }

    fn is_of(&self, record: &Record) -> bool {
        (self.level, &*self.target, self.file.as_deref(), self.line)
            == (record.level(), record.target(), record.file(), record.line())
    }
}

/// What was said anywhere.
static SAID: Kept<Said> = Kept::new();

fn place_of(record: &Record) -> &'static Place {
    let lengths = record.target().len() + 31 * record.file().map_or(0, str::len);
    let hash = record.line().map_or(0, |line| 97 * line as usize) + lengths;
    &SAID.get(hash, |said| said.is_of(record), || Said::new(record)).place
}

impl Log for Logger {
    fn enabled(&self, _: &Metadata) -> bool {
        true
    }

    fn log(&self, record: &Record) {
        let place = place_of(record);
        if place.is_on() {
            place.record_text(|text| text.write_fmt(*record.args()));
        }
    }

    fn flush(&self) {}
}
