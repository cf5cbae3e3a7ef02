//! A plain collector to measure the project's against and to compare it with: maps of all records, in plain Rust.
//! Nothing is proved, and where memory is refused it stops.
//!
//!     collector generate in-order|reverse|shuffled RECORDS SEED    a file of genuine parcels, each delivered twice
//!     collector generate forged|overlapping PARCELS SEED           parcels that overlap at random (loads.rs)
//!     collector read|add|list|halves|merge|tell                    how far to go with such a file, on standard input
//!
//! `read` reads the parcels, `add` delivers them too, `list` makes the listing too, and each prints counts; `halves`
//! delivers every other parcel to one collector and the rest to another one, and `merge` puts the second into the
//! first; `tell` does all and prints every answer. What was read or made stays until the end, so that what one of them
//! takes more than the one before, of time or of memory, is what that step takes.

mod loads;
mod map;
mod parcel;

use map::{AddFault, Added, Collector};
use parcel::{read_file, Parcel};
use std::env;
use std::fmt::Write as _;
use std::io::{self, BufWriter, Read, Write};
use std::mem;
use std::process::ExitCode;

/// How many deliveries were answered how.
#[derive(Default)]
struct Counts {
    new: u64,
    known: u64,
    clashes: u64,
    taken_and_missing: u64,
}

impl Counts {
    fn count(&mut self, answer: &Result<Added, AddFault>) {
        *match answer {
            Ok(Added::New) => &mut self.new,
            Ok(Added::Known) => &mut self.known,
            Err(AddFault::Clash(..)) => &mut self.clashes,
            Err(AddFault::TakenAndMissing(..)) => &mut self.taken_and_missing,
        } += 1;
    }
}

/// Goes as far as `last`, and answers what came out.
fn go(last: &str, parcels: &[Parcel], deliveries: &[usize]) -> String {
    let mut text = format!("parcels {} deliveries {}\n", parcels.len(), deliveries.len());
    if last == "read" {
        return text;
    }
    let (mut collector, mut counts) = (Collector::default(), Counts::default());
    for place in deliveries {
        counts.count(&collector.add(&parcels[*place]));
    }
    let Counts { new, known, clashes, taken_and_missing } = counts;
    let _ = writeln!(text, "new {new} known {known} clashes {clashes} taken-and-missing {taken_and_missing}");
    if last == "list" {
        let lines = collector.listing();
        let moment = lines.last().map_or(0, |line| line.moment);
        let _ = writeln!(text, "lines {} last {moment}", lines.len());
    }
    // To free it is no part of adding.
    mem::forget(collector);
    text
}

/// Delivers every other parcel to one collector and the rest to another one, and merges them where that is asked.
fn halve(last: &str, parcels: &[Parcel], deliveries: &[usize]) -> String {
    let (mut halves, mut counts) = ([Collector::default(), Collector::default()], Counts::default());
    for (at, place) in deliveries.iter().enumerate() {
        counts.count(&halves[at % 2].add(&parcels[*place]));
    }
    let Counts { new, known, clashes, taken_and_missing } = counts;
    let mut text = format!("new {new} known {known} clashes {clashes} taken-and-missing {taken_and_missing}\n");
    let [mut one, other] = halves;
    if last == "merge" {
        let _ = writeln!(text, "merge {}", answer_of(one.merge(&other), "done"));
    }
    mem::forget((one, other));
    text
}

fn answer_of(answer: Result<(), AddFault>, good: &str) -> String {
    match answer {
        Ok(()) => good.into(),
        Err(AddFault::Clash(cpu, number)) => format!("clash {cpu} {number}"),
        Err(AddFault::TakenAndMissing(cpu, number)) => format!("taken-and-missing {cpu} {number}"),
    }
}

/// What is known of a number.
fn look(collector: &Collector, cpu: u32, number: u64) -> String {
    match (collector.get(cpu, number), collector.is_missing(cpu, number)) {
        (Some(record), _) => format!("at {cpu} {number} {}", record.moment),
        (None, true) => format!("at {cpu} {number} missing"),
        (None, false) => format!("at {cpu} {number} nothing"),
    }
}

/// All answers: each delivery's, then what is known round the edges of each parcel, the listing and the missing
/// numbers; and, if two collectors get every other delivery, how they merge, whether both ways give the same, and
/// whether that is the whole.
fn tell(out: &mut impl Write, parcels: &[Parcel], deliveries: &[usize]) -> io::Result<()> {
    let mut collector = Collector::default();
    let mut halves = [Collector::default(), Collector::default()];
    for (at, place) in deliveries.iter().enumerate() {
        let parcel = &parcels[*place];
        let answer = match collector.add(parcel) {
            Ok(Added::New) => "new".into(),
            Ok(Added::Known) => "known".into(),
            Err(fault) => answer_of(Err(fault), ""),
        };
        writeln!(out, "{} {} {answer}", parcel.cpu, parcel.fill)?;
        // A parcel that the whole refuses isn't for the halves, so that they mostly agree.
        if !answer.contains(' ') || at % 64 == 0 {
            let _ = halves[at % 2].add(parcel);
        }
    }
    for Parcel { cpu, first, count, missed, .. } in parcels {
        for number in [first - missed, first.saturating_sub(1), *first, first + count] {
            writeln!(out, "{}", look(&collector, *cpu, number))?;
        }
    }
    for line in collector.listing() {
        write!(out, "{} {} {} ", line.cpu, line.number, line.moment)?;
        line.bytes.iter().try_for_each(|byte| write!(out, "{byte:02x}"))?;
        writeln!(out)?;
    }
    for (cpu, first, last) in collector.missing() {
        writeln!(out, "missing {cpu} {first}-{last}")?;
    }
    let [mut one, mut other] = halves.clone();
    writeln!(out, "merge {}", answer_of(one.merge(&halves[1]), "done"))?;
    writeln!(out, "merge {}", answer_of(other.merge(&halves[0]), "done"))?;
    writeln!(out, "same {} {}", one == other, one == collector)
}

fn run(words: &[&str]) -> Option<Result<(), io::Error>> {
    let mut out = BufWriter::new(io::stdout().lock());
    if let ["generate", load, count, seed] = words {
        let bytes = loads::generated(load, count.parse().ok()?, seed.parse().ok()?)?;
        return Some(out.write_all(&bytes).and_then(|()| out.flush()));
    }
    let [last @ ("read" | "add" | "list" | "halves" | "merge" | "tell")] = words else {
        return None;
    };
    let mut bytes = Vec::new();
    if let Err(fault) = io::stdin().lock().read_to_end(&mut bytes) {
        return Some(Err(fault));
    }
    let Some((parcels, deliveries)) = read_file(&bytes) else {
        return Some(Err(io::ErrorKind::InvalidData.into()));
    };
    let told = match *last {
        "tell" => tell(&mut out, &parcels, &deliveries),
        "halves" | "merge" => out.write_all(halve(last, &parcels, &deliveries).as_bytes()),
        last => out.write_all(go(last, &parcels, &deliveries).as_bytes()),
    };
    Some(told.and_then(|()| out.flush()))
}

fn main() -> ExitCode {
    let words: Vec<String> = env::args().skip(1).collect();
    let words: Vec<&str> = words.iter().map(String::as_str).collect();
    match run(&words) {
        Some(Ok(())) => ExitCode::SUCCESS,
        Some(Err(fault)) => {
            eprintln!("collector: {fault}");
            ExitCode::FAILURE
        }
        None => {
            eprintln!("usage: collector generate LOAD COUNT SEED | collector read|add|list|halves|merge|tell");
            ExitCode::from(2)
        }
    }
}
