//! A rival of the threaded run to measure against: plain Rust without `unsafe`, written for speed, with the same
//! threads, channels and audit. Nothing is proved, and where memory or a thread is refused it stops.
//!
//!     run CPUS COLLECTORS WRITES LENGTH
//!
//! makes a script in which each CPU writes WRITES payloads of LENGTH bytes, by turns; runs it, audits each collector,
//! and prints how many nanoseconds both took, what became of the records, and what Linux says of the memory before
//! and after.
//!
//! A command takes 16 bytes, or 32 with `--cfg wide`.
//!
//! A page is filled by its writer alone and goes to the reader under a lock, one for each ring, which is taken once a
//! page. It does less than the product: a script here has `w` lines alone, so that no writer is interrupted by another.

mod collector;
#[path = "../ring/page.rs"]
mod page;
mod ring;
mod run;

use collector::{audit, Audit};
use run::{run, Command, OpenGate, Ran, Script};
use std::env;
use std::fs;
use std::process::ExitCode;
use std::time::Instant;

const PAGES: usize = 16;
const SIZE: usize = 4_080;

/// What the command line asks for.
struct Asked {
    cpus: usize,
    collectors: usize,
    writes: u64,
    length: usize,
}

fn read_command() -> Option<Asked> {
    let words: Vec<String> = env::args().skip(1).collect();
    let [cpus, collectors, writes, length] = &words[..] else {
        return None;
    };
    Some(Asked {
        cpus: cpus.parse().ok().filter(|cpus| (1..=256).contains(cpus))?,
        collectors: collectors.parse().ok().filter(|count| (1..=16).contains(count))?,
        writes: writes.parse().ok()?,
        length: length.parse().ok()?,
    })
}

/// The script: the CPUs write by turns.
fn script_of(asked: &Asked) -> Script {
    let count = asked.writes as usize * asked.cpus;
    let mut commands = Vec::with_capacity(count);
    let mut payloads = Vec::with_capacity(count * asked.length);
    for number in 0..asked.writes {
        for cpu in 0..asked.cpus {
            payloads.resize(payloads.len() + asked.length, 0xa5);
            commands.push(Command { moment: 1_000_000 + 100 * number, end: payloads.len() as u32, cpu: cpu as u8 });
        }
    }
    let Asked { cpus, collectors, .. } = *asked;
    Script { pages: PAGES, size: SIZE, cpus, collectors, commands, payloads }
}

/// What Linux says of this process.
fn status() -> String {
    fs::read_to_string("/proc/self/status").unwrap_or_default()
}

fn print(ran: &Ran, audits: &[Audit]) {
    let (mut records, mut missed, mut unread) = (0, 0, 0);
    for ledger in &ran.ledgers {
        for parcel in &ledger.taken {
            records += parcel.page.count;
            missed += parcel.missed;
        }
        unread += ledger.unread.as_ref().map_or(0, |page| page.count);
    }
    println!("records {records} missed {missed} unread {unread}");
    for audit in audits {
        match audit {
            Audit::Yes => println!("audit yes"),
            Audit::Stray(cpu, fill) => println!("audit stray {cpu} {fill}"),
            Audit::Lacks(cpu, fill) => println!("audit lacks {cpu} {fill}"),
        }
    }
}

fn main() -> ExitCode {
    let Some(asked) = read_command() else {
        eprintln!("usage: run CPUS COLLECTORS WRITES LENGTH");
        return ExitCode::from(2);
    };
    let script = script_of(&asked);
    // From here on Linux looks for the most memory again.
    let anew = fs::write("/proc/self/clear_refs", "5");
    let before = status();
    let start = Instant::now();
    let ran = run(&script, &OpenGate);
    let audits: Vec<Audit> = ran.collectors.iter().map(|collector| audit(collector, &ran.ledgers)).collect();
    let took = start.elapsed();
    let after = status();
    println!("took {}", took.as_nanos());
    print(&ran, &audits);
    println!("anew {}\nbefore\n{before}after\n{after}", anew.is_ok());
    ExitCode::SUCCESS
}
