//! The flight recorder, as a program without unsafe code uses it.
#![forbid(unsafe_code)]

use std::env::{temp_dir, var};
use std::fmt::{self, Debug, Display, Write};
use std::path::PathBuf;
use std::process::{id, Command};
use std::thread;
use tracering::flight::{self, Argument, Clock, Config, Formats, Place, Values, LONGEST_EVENT, MOST_ARGUMENTS};
use tracering::trace;

/// What `tracering-flight show` prints of a dump, without the lines' times.
fn shown(dump: &PathBuf) -> Vec<String> {
    let folder = var("TRACERING_LIB").unwrap_or(concat!(env!("CARGO_MANIFEST_DIR"), "/../../out").to_string());
    let output = Command::new(folder + "/tracering-flight").arg("show").arg(dump).output().unwrap();
    assert!(output.status.success(), "{output:?}");
    let text = String::from_utf8(output.stdout).unwrap();
    text.lines().map(|line| line.split_once(' ').unwrap().1.to_string()).collect()
}

/// A type of a user's.
#[derive(Debug)]
#[allow(dead_code)]
struct Point {
    x: u8,
    y: i8,
}

fn evaluated(count: &mut u32) -> u32 {
    *count += 1;
    *count
}

/// One place, whatever is given.
fn trace_given<Given: Argument + Display>(given: Given) {
    trace!("given {} and {}", given, 1);
}

/// The macro's own names are no argument's.
fn trace_names() {
    const PLACE: u8 = 3;
    let (place, site, a) = ("a place", |count: u8| count + 1, 5);
    trace!("names {} {} {} {}", PLACE, place, site(PLACE), a);
}

/// Gives one place eight kinds, twice each, and then two further ones.
fn trace_kinds() {
    for round in 0..2u8 {
        trace_given(u32::MAX - round as u32);
        trace_given(1.5f32 + round as f32);
        trace_given(u64::MAX - round as u64);
        trace_given(["a", "text"][round as usize]);
        trace_given(-1i8 - round as i8);
        trace_given(-1i16 - round as i16);
        trace_given(-1i32 - round as i32);
        trace_given(i64::MIN + round as i64);
    }
    trace_given(0.25f64);
    trace_given(7u8);
    trace_given(u32::MAX);
}

/// What is never formatted.
struct Unformatted;

impl Display for Unformatted {
    fn fmt(&self, _: &mut fmt::Formatter<'_>) -> fmt::Result {
        panic!("it is formatted")
    }
}

/// The place of a type that isn't known to be an argument.
fn trace_debugged(given: impl Debug) {
    trace!("debugged {given:?}, {:>4?}", given);
}

/// Records what `format!` has and an event's values have not, and answers what is to be shown of it, in order.
fn trace_formatted() -> Vec<String> {
    let (point, count, width, precision) = (Point { x: 1, y: -2 }, 3, 7, 2);
    let (letter, list, place) = ('\'', [1.5, -0.25], &count);
    trace!("names {count} {point:?} {0:?} {count:>width$}", point);
    trace!("counts {:>1$} {:.*} {:.precision$} {:>limit$}", 1, 9, 1.125, 2.5, "end", limit = 5);
    trace!("debug {:?} {:?} {:?} {:x?}", letter, true, list, [255]);
    trace!("an address {:p} of {}", place, count);
    trace!("wide {} {:?}", u128::MAX, Some("text"));
    // (The macro has a name of its own like this one.)
    let a = "an a";
    trace!("{a} beside {}", 5);
    trace_debugged(5u8);
    trace_debugged(Some(5));
    vec![
        format!("names {count} {point:?} {0:?} {count:>width$}", point),
        format!("counts {:>1$} {:.*} {:.precision$} {:>limit$}", 1, 9, 1.125, 2.5, "end", limit = 5),
        format!("debug {:?} {:?} {:?} {:x?}", letter, true, list, [255]),
        format!("an address {:p} of {}", place, count),
        format!("wide {} {:?}", u128::MAX, Some("text")),
        "an a beside 5".to_string(),
        "debugged 5,    5".to_string(),
        format!("debugged {:?}, {:>4?}", Some(5), Some(5)),
    ]
}

/// Records texts about the most that an event keeps, and answers what is to be shown of them.
fn trace_long() -> Vec<String> {
    let texts = [250, 251, 2 * LONGEST_EVENT].map(|len| "\u{e4}bc".repeat(len));
    let fits = "x".repeat(LONGEST_EVENT - "fits ".len());
    let over = format!("{fits}y");
    texts.iter().for_each(|long| trace!("long {long}"));
    trace!("fits {fits}");
    trace!("fits {over}");
    // (A text that has no room for its next character ends before it.)
    let whole = format!("long {}", texts[2]);
    let len = (0..=LONGEST_EVENT).rev().find(|&len| whole.is_char_boundary(len)).unwrap();
    let kept = format!("{}...", &whole[..len]);
    let (short, long) = (format!("long {}", texts[0]), format!("long {}", texts[1]));
    vec![short, long, kept, format!("fits {fits}"), format!("fits {fits}...")]
}

/// A place whose event is formatted.
fn trace_evaluated(count: &mut u32, given: impl Display) {
    let name = "a name";
    trace!("evaluated {:?} {name} {}", Some(evaluated(count)), given);
}

/// What is switched off is neither evaluated nor formatted; a place whose format is switched on is on, whatever else
/// is off.
fn trace_switched() {
    let mut count = 0;
    flight::switch("*", false).unwrap();
    trace_evaluated(&mut count, Unformatted);
    assert_eq!(count, 0);
    flight::switch("*flight.rs:* evaluated {:?} {name} {}", true).unwrap();
    trace_evaluated(&mut count, 0.5);
    assert_eq!(count, 1);
    flight::switch("*", true).unwrap();
}

/// A place of a layer for other crates' events.
static PLACE: Place = Place::new(
    Formats { values: "made {} of {}\0", piece: "made: {}\0", pieces: "made: {}{}{}{}{}{}{}{}\0" },
    "a file\0",
    7,
    2,
);

/// Records at such a place, and answers what is to be shown.
fn record_at_place() -> Vec<String> {
    let (long, mut full) = ("long ".repeat(100), Values::new());
    assert!(PLACE.is_on());
    flight::switch("a file:7 made {} of {}", false).unwrap();
    assert!(!PLACE.is_on());
    flight::switch("a file:7 made {} of {}", true).unwrap();
    let mut values = Values::new();
    assert!(values.put(1) && values.put("two"));
    assert_eq!(values.count(), 2);
    values.record(&PLACE);
    PLACE.record_text(|text| text.write_str("three"));
    PLACE.record_text(|text| write!(text, "{long}end"));
    assert!((0..MOST_ARGUMENTS).all(|each| full.put(each)) && !full.put(MOST_ARGUMENTS));
    assert!(!Values::new().put(long.as_str()));
    vec!["made 1 of two".to_string(), "made: three".to_string(), format!("made: {long}end")]
}

/// What is shown of two threads' `trace_kinds`: each value as it is, and none of the kinds for which there was no room.
fn assert_kinds(lines: &[String]) {
    let mut found: Vec<_> =
        lines.iter().filter_map(|line| line.split_once("given ")?.1.strip_suffix(" and 1")).collect();
    let mut wanted = [
        ["4294967295", "1.5", "18446744073709551615", "a", "-1", "-1", "-1", "-9223372036854775808"],
        ["4294967294", "2.5", "18446744073709551614", "text", "-2", "-2", "-2", "-9223372036854775807"],
    ]
    .concat();
    wanted.push("4294967295");
    let mut wanted = wanted.repeat(2);
    found.sort();
    wanted.sort();
    assert_eq!(found, wanted);
    assert_eq!(lines.iter().filter(|line| line.ends_with("given <{}> and <{}>")).count(), 4);
    assert_eq!(lines.iter().filter(|line| line.contains("given ")).count(), 38);
}

#[test]
fn events_come_out_as_they_are_formatted() {
    let dump = temp_dir().join(format!("tracering-flight-{}", id()));
    let file = dump.with_extension("file");
    trace!("before the start, {}", 1);
    flight::start(&Config { threads: 4, clock: Clock::Tsc, file: Some(&file), ..Default::default() }).unwrap();
    assert!(flight::start(&Config::default()).is_err());
    flight::name("main thread").unwrap();

    let (text, owned, numbers) = ("a text", "\u{fc}ber".to_string(), [1u8, 2, 3]);
    trace!("no argument, {{}}");
    trace!("{} {} {} {}", -1i8, u64::MAX, 1.5f32, usize::MAX);
    trace!("{1} before {0}", text, owned);
    trace!("{:>6}|{:<6}|{:^6}|{:06.2}|{:#x}", 'x', true, "mid", 2.5, 255);
    trace!("{}", "long ".repeat(100));
    trace!("{} of {}", &numbers[1], numbers.len());
    trace!("{:*^7}|{:$<5}|{:.>4}|{:ä^4.1}|{:}>3}|{:{>3}", 'x', true, 7, 2.5, 1, 2);
    trace!("{ }|{0 }|{1 :>4}|{:>4 }|{: }|{\t:}>4\n}", 10, 11, 12, 13);
    let mut count = 0;
    flight::switch("*is switched off*", false).unwrap();
    trace!("this is switched off, {}", evaluated(&mut count));
    assert_eq!(count, 0);
    flight::switch("*is switched off*", true).unwrap();
    trace!("this is switched off, {}", evaluated(&mut count));

    let threads: Vec<_> = (0..3)
        .map(|number| thread::spawn(move || (0..100).for_each(|each| trace!("thread {} event {}", number, each))))
        .collect();
    threads.into_iter().for_each(|thread| thread.join().unwrap());

    let threads = [thread::spawn(trace_kinds), thread::spawn(trace_kinds)];
    threads.into_iter().for_each(|thread| thread.join().unwrap());
    trace_names();

    let formatted = trace_formatted();
    trace_switched();
    let mut long = trace_long();
    long.append(&mut record_at_place());
    trace!("a point {}, a list {}", format_args!("{:?}", Point { x: 1, y: -2 }), format_args!("{:?}", vec![0u8; 100]));

    let of_file = shown(&file);
    flight::dump(&dump).unwrap();
    let lines = shown(&dump);
    assert_eq!(of_file[1..], lines[1..]);
    assert_kinds(&lines);
    assert!(lines.iter().any(|line| line.ends_with("] names 3 a place 4 5")));
    let point = format!("a point {:?}, a list [0, 0, 0, ", Point { x: 1, y: -2 });
    assert!(lines.iter().any(|line| line.contains(&point) && line.ends_with("...")));
    let of_main: Vec<_> = lines.iter().filter_map(|line| line.split_once("main thread[")?.1.split_once("] ")).collect();
    let wanted = [
        "no argument, {}".to_string(),
        format!("{} {} {} {}", -1i8, u64::MAX, 1.5f32, usize::MAX),
        format!("{1} before {0}", text, owned),
        format!("{:>6}|{:<6}|{:^6}|{:06.2}|{:#x}", 'x', true, "mid", 2.5, 255),
    ];
    for (line, wanted) in of_main.iter().zip(&wanted) {
        assert_eq!(line.1, wanted);
    }
    assert!(of_main[4].1.starts_with(&"long ".repeat(51)), "{}", of_main[4].1);
    let filled = format!("{:*^7}|{:$<5}|{:.>4}|{:ä^4.1}|{:}>3}|{:{>3}", 'x', true, 7, 2.5, 1, 2);
    let spaced = format!("{ }|{0 }|{1 :>4}|{:>4 }|{: }|{\t:}>4\n}", 10, 11, 12, 13);
    let rest: Vec<_> = of_main[5..9].iter().map(|line| line.1).collect();
    assert_eq!(rest, ["2 of 3", &*filled, &*spaced, "this is switched off, 1"]);
    let (front, back) = (formatted.len(), long.len());
    let rest: Vec<_> = of_main[9..of_main.len() - 1].iter().map(|line| line.1).collect();
    assert_eq!(rest[..2], ["names 3 a place 4 5", &*formatted[0]]);
    assert_eq!(rest[1..=front], formatted);
    assert_eq!(rest[front + 1], "evaluated Some(1) a name 0.5");
    assert_eq!(rest[front + 2..], long);
    assert_eq!(rest.len(), front + 2 + back);
    for number in 0..3 {
        let events: Vec<_> = lines.iter().filter(|line| line.contains(&format!("thread {number} event"))).collect();
        assert_eq!(events.len(), 100);
        assert!(events.iter().enumerate().all(|(each, line)| line.ends_with(&format!("event {each}"))));
    }
    assert!(flight::dump("/no/such/folder/dump").is_err());

    flight::dump_on_panic(&dump).unwrap();
    let panics = thread::Builder::new().name("panics".to_string()).spawn(|| panic!("by {}", 77)).unwrap();
    assert!(panics.join().is_err());
    let of_panic = shown(&dump);
    let said = of_panic.iter().find(|line| line.contains("panicked at ")).unwrap();
    assert!(said.starts_with("panics[") && said.ends_with(": by 77") && said.contains("tests/flight.rs:"), "{said}");
    std::fs::remove_file(dump).unwrap();
    std::fs::remove_file(file).unwrap();
}
