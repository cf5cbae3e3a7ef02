//! What is said by `log`, as the recorder has it.
#![forbid(unsafe_code)]
mod shown;

use log::{debug, info, log, trace, warn, Level, LevelFilter};
use tracering::flight;
use tracering_bridges::Logger;

#[test]
fn what_is_said_is_recorded() {
    info!("nobody records this");
    Logger::install(LevelFilter::Debug).unwrap();
    assert!(Logger::install(LevelFilter::Trace).is_err());
    info!("no recorder runs");
    flight::start(&Default::default()).unwrap();

    let (name, long) = ("a name", "long ".repeat(200));
    info!("no arguments, {{}}");
    warn!("{} of {name}, {:?}", 3, Some(0.5));
    debug!(target: "another {target}", "{{braces}} of {}", "{a text}");
    info!("{long}end");
    trace!("is too detailed");
    log::set_max_level(LevelFilter::Trace);
    trace!("is detailed");
    for level in [Level::Error, Level::Debug, Level::Error] {
        log!(level, "of one line");
    }
    flight::switch(&format!("*by_log.rs:{} *", line!() + 3), false).unwrap();
    for is_on in [false, true] {
        flight::switch("*by_log.rs:* DEBUG *", is_on).unwrap();
        info!("switched off by its line");
        debug!("is on: {is_on}");
    }

    let wanted = [
        "INFO by_log: no arguments, {}",
        "WARN by_log: 3 of a name, Some(0.5)",
        "DEBUG another {target}: {braces} of {a text}",
        &format!("INFO by_log: {long}end"),
        "TRACE by_log: is detailed",
        "ERROR by_log: of one line",
        "DEBUG by_log: of one line",
        "ERROR by_log: of one line",
        "DEBUG by_log: is on: true",
    ];
    assert_eq!(shown::shown(), wanted);
    // (Each with those before it, which are more severe.)
    let levels = ["ERROR", "WARN", "INFO", "DEBUG", "TRACE"];
    for (at, level) in levels.iter().enumerate() {
        let of_level = |line: &&&str| levels[..=at].contains(&line.split(' ').next().unwrap());
        let wanted: Vec<_> = wanted.iter().filter(of_level).collect();
        assert_eq!(shown::shown_from(&level.to_lowercase()).iter().collect::<Vec<_>>(), wanted);
    }
}
