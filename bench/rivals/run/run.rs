//! A script and its run: a writer's and a reader's thread for each CPU, and a thread for each collector, all at once.

use crate::collector::{Collector, Ledger, Parcel};
use crate::page::Page;
use crate::ring::{Reader, Ring, Writer};
use std::hint;
use std::sync::atomic::{AtomicBool, Ordering};
use std::sync::mpsc::{channel, Receiver, Sender};
use std::sync::Arc;
use std::thread;

/// A write: its payload ends at this place, and begins where that of the command before it ends.
#[cfg_attr(wide, repr(align(32)))]
pub struct Command {
    pub moment: u64,
    pub end: u32,
    pub cpu: u8,
}

pub struct Script {
    pub pages: usize,
    pub size: usize,
    pub cpus: usize,
    pub collectors: usize,
    pub commands: Vec<Command>,
    pub payloads: Vec<u8>,
}

impl Script {
    /// The places of each CPU's commands.
    fn places(&self) -> Vec<Vec<u32>> {
        let mut counts = vec![0; self.cpus];
        self.commands.iter().for_each(|command| counts[usize::from(command.cpu)] += 1);
        let mut places: Vec<Vec<u32>> = counts.into_iter().map(Vec::with_capacity).collect();
        for (place, command) in self.commands.iter().enumerate() {
            places[usize::from(command.cpu)].push(place as u32);
        }
        places
    }

    #[inline(always)]
    fn write_at(&self, place: usize) -> (u64, &[u8]) {
        let command = &self.commands[place];
        let start = if place == 0 { 0 } else { self.commands[place - 1].end as usize };
        (command.moment, &self.payloads[start..command.end as usize])
    }
}

pub enum Who {
    Writer,
    Reader,
}

/// What is asked after each fill that a writer closes, and after each page that a reader takes: does it go on?
pub trait Gate: Sync {
    fn pass(&self, who: Who, cpu: usize, fill: u64) -> bool;
}

pub struct OpenGate;

impl Gate for OpenGate {
    #[inline(always)]
    fn pass(&self, _who: Who, _cpu: usize, _fill: u64) -> bool {
        true
    }
}

/// Gives way, the more the longer it waits: as crossbeam's `Backoff` does.
struct Backoff {
    step: u32,
}

impl Backoff {
    fn snooze(&mut self) {
        if self.step <= 6 {
            (0..1 << self.step).for_each(|_| hint::spin_loop());
        } else {
            thread::yield_now();
        }
        self.step = (self.step + 1).min(11);
    }
}

/// What became of a run.
pub struct Ran {
    pub collectors: Vec<Collector>,
    pub ledgers: Vec<Ledger>,
}

/// A writer's thread: obeys its commands, and answers the page that is left, unless the gate is shut.
fn write_all<G: Gate>(script: &Script, places: &[u32], cpu: usize, mut end: Writer, gate: &G) -> Option<Option<Page>> {
    for place in places {
        let (moment, payload) = script.write_at(*place as usize);
        if let Some(fill) = end.write(moment, payload) {
            if !gate.pass(Who::Writer, cpu, fill) {
                return None;
            }
        }
    }
    Some(end.into_unread())
}

/// A reader's thread: takes pages, and shares each one to every collector, until its writer's thread was over before a
/// take that found nothing.
fn take_all<G: Gate>(
    cpu: usize,
    mut end: Reader,
    gate: &G,
    over: &AtomicBool,
    senders: &[Sender<Arc<Parcel>>],
) -> Option<Vec<Arc<Parcel>>> {
    let mut taken = Vec::new();
    let mut backoff = Backoff { step: 0 };
    loop {
        let was_over = over.load(Ordering::SeqCst);
        match end.take() {
            Some((page, missed)) => {
                let fill = page.fill;
                let parcel = Arc::new(Parcel { cpu, missed, page });
                for sender in senders {
                    let _ = sender.send(parcel.clone());
                }
                taken.push(parcel);
                if !gate.pass(Who::Reader, cpu, fill) {
                    return None;
                }
                backoff.step = 0;
            }
            None if was_over => return Some(taken),
            None => backoff.snooze(),
        }
    }
}

fn collect(cpus: usize, parcels: Receiver<Arc<Parcel>>) -> Collector {
    let mut collector = Collector::new(cpus);
    for parcel in parcels {
        let _ = collector.add(parcel);
    }
    collector
}

/// Runs the rings, and answers the ledger of each.
fn run_rings<G: Gate>(script: &Script, gate: &G, senders: &[Sender<Arc<Parcel>>]) -> Vec<Ledger> {
    let places = script.places();
    let (rings, tails): (Vec<Ring>, Vec<Page>) =
        (0..script.cpus).map(|_| Ring::new(script.pages, script.size)).unzip();
    let over: Vec<AtomicBool> = rings.iter().map(|_| AtomicBool::new(false)).collect();
    thread::scope(|scope| {
        let mut threads = Vec::with_capacity(script.cpus);
        for (cpu, tail) in tails.into_iter().enumerate() {
            let (ring, places, over) = (&rings[cpu], &places[cpu], &over[cpu]);
            let end = Reader::new(ring, script.size);
            let reading = scope.spawn(move || take_all(cpu, end, gate, over, senders));
            let end = Writer::new(ring, tail, script.size);
            let writing = scope.spawn(move || {
                let unread = write_all(script, places, cpu, end, gate);
                over.store(true, Ordering::SeqCst);
                unread
            });
            threads.push((writing, reading));
        }
        threads
            .into_iter()
            .map(|(writing, reading)| {
                let unread = writing.join().expect("a writer's thread ends").expect("the gate is open");
                let taken = reading.join().expect("a reader's thread ends").expect("the gate is open");
                Ledger { taken, unread }
            })
            .collect()
    })
}

pub fn run<G: Gate>(script: &Script, gate: &G) -> Ran {
    thread::scope(|scope| {
        let mut senders = Vec::with_capacity(script.collectors);
        let mut collecting = Vec::with_capacity(script.collectors);
        for _ in 0..script.collectors {
            let (sender, parcels) = channel();
            senders.push(sender);
            collecting.push(scope.spawn(|| collect(script.cpus, parcels)));
        }
        let ledgers = run_rings(script, gate, &senders);
        drop(senders);
        let collectors = collecting.into_iter().map(|it| it.join().expect("a collector's thread ends")).collect();
        Ran { collectors, ledgers }
    })
}
