//! Collectors of taken pages, and the audit of a run.

use crate::page::Page;
use std::sync::Arc;

/// A taken page, under its CPU, and how many records are missing before its first one.
pub struct Parcel {
    pub cpu: usize,
    pub missed: u64,
    pub page: Page,
}

impl Parcel {
    /// The first number that is missing before its records, or its first record's.
    fn start(&self) -> u64 {
        self.page.first - self.missed
    }

    /// The number after its last record.
    fn end(&self) -> u64 {
        self.page.first + self.page.count
    }

    fn has_same_records(&self, other: &Parcel) -> bool {
        self.page.first == other.page.first
            && self.page.time == other.page.time
            && self.page.data() == other.page.data()
    }

    fn is_same(&self, other: &Parcel) -> bool {
        self.cpu == other.cpu
            && self.page.fill == other.page.fill
            && self.missed == other.missed
            && self.has_same_records(other)
    }
}

pub enum Added {
    New,
    Known,
}

/// The parcel overlaps with another one whose records aren't the same, or that misses what it has.
pub struct Clash;

/// For each CPU parcels that don't overlap, by their first numbers.
pub struct Collector {
    cpus: Vec<Vec<Arc<Parcel>>>,
}

impl Collector {
    pub fn new(cpus: usize) -> Collector {
        Collector { cpus: (0..cpus).map(|_| Vec::new()).collect() }
    }

    pub fn add(&mut self, parcel: Arc<Parcel>) -> Result<Added, Clash> {
        let list = &mut self.cpus[parcel.cpu];
        if list.last().is_none_or(|last| last.end() <= parcel.start()) {
            list.push(parcel);
            return Ok(Added::New);
        }
        let at = list.partition_point(|other| other.end() <= parcel.start());
        match list.get(at) {
            Some(other) if other.start() == parcel.start() && other.has_same_records(&parcel) => Ok(Added::Known),
            Some(other) if other.start() < parcel.end() => Err(Clash),
            _ => {
                list.insert(at, parcel);
                Ok(Added::New)
            }
        }
    }

    /// Whether it has all records of the parcel, and misses what the parcel does.
    fn holds(&self, parcel: &Parcel) -> bool {
        let list = &self.cpus[parcel.cpu];
        let at = list.partition_point(|other| other.end() <= parcel.start());
        list.get(at).is_some_and(|other| other.start() == parcel.start() && other.has_same_records(parcel))
    }
}

/// What a run leaves of a CPU's ring: the parcels that were taken, in order, and the page that wasn't.
pub struct Ledger {
    pub taken: Vec<Arc<Parcel>>,
    pub unread: Option<Page>,
}

pub enum Audit {
    Yes,
    Stray(usize, u64),
    Lacks(usize, u64),
}

fn was_taken(parcel: &Parcel, ledgers: &[Ledger]) -> bool {
    let Some(ledger) = ledgers.get(parcel.cpu) else {
        return false;
    };
    match ledger.taken.binary_search_by_key(&parcel.page.fill, |taken| taken.page.fill) {
        Ok(at) => parcel.is_same(&ledger.taken[at]),
        Err(_) => false,
    }
}

/// Whether the collector keeps exactly what was taken; else the least parcel at fault, by CPU and fill.
pub fn audit(collector: &Collector, ledgers: &[Ledger]) -> Audit {
    let mut kept = collector.cpus.iter().flatten();
    if let Some(stray) = kept.find(|parcel| !was_taken(parcel, ledgers)) {
        return Audit::Stray(stray.cpu, stray.page.fill);
    }
    let mut taken = ledgers.iter().flat_map(|ledger| &ledger.taken);
    match taken.find(|parcel| !collector.holds(parcel)) {
        Some(lacked) => Audit::Lacks(lacked.cpu, lacked.page.fill),
        None => Audit::Yes,
    }
}
