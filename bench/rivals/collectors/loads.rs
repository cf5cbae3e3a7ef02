//! Loads for collectors, made from a seed.

use crate::parcel::{put_file, Draft};

const CPUS: u64 = 8;

/// Genuine pages: 62 records of 64 bytes each, on pages of 4,080 bytes.
const PER_PAGE: u64 = 62;
const PAYLOAD: usize = 60;
const SIZE: usize = 4_080;

/// Numbers that look random, the same for the same seed (Marsaglia's xorshift with a multiplier).
struct Random(u64);

impl Random {
    fn next(&mut self) -> u64 {
        self.0 ^= self.0 >> 12;
        self.0 ^= self.0 << 25;
        self.0 ^= self.0 >> 27;
        self.0.wrapping_mul(0x2545_f491_4f6c_dd1d)
    }

    fn below(&mut self, bound: u64) -> u64 {
        (u128::from(self.next()) * u128::from(bound) >> 64) as u64
    }

    fn bytes(&mut self, len: usize) -> Vec<u8> {
        (0..len / 4).flat_map(|_| ((self.next() >> 32) as u32).to_le_bytes()).collect()
    }
}

/// A file of parcels and deliveries; or nothing where there is no such load.
pub fn generated(load: &str, count: u64, seed: u64) -> Option<Vec<u8>> {
    let mut random = Random(seed.wrapping_mul(2).wrapping_add(1));
    let parcels: Vec<Draft> = match load {
        "in-order" | "reverse" | "shuffled" => genuine(&mut random, count),
        "forged" => (0..count).map(|_| forged(&mut random, count)).collect(),
        "overlapping" => (0..count).map(|_| overlapping(&mut random, 4 * count)).collect(),
        _ => return None,
    };
    let mut deliveries: Vec<usize> = (0..parcels.len()).collect();
    if load == "reverse" {
        deliveries.reverse();
    }
    if load != "forged" && load != "overlapping" {
        deliveries.extend_from_within(..);
    }
    if load == "shuffled" {
        for at in (1..deliveries.len()).rev() {
            deliveries.swap(at, random.below(at as u64 + 1) as usize);
        }
    }
    let mut out = Vec::new();
    put_file(&mut out, &parcels, &deliveries);
    Some(out)
}

/// The pages of this number of records as they come from rings of 8 CPUs, which fill at about the same pace. Before one
/// page of sixteen, one to three pages were overwritten.
fn genuine(random: &mut Random, records: u64) -> Vec<Draft> {
    let mut rings = [(0, 0, 0); CPUS as usize];
    let page = |at: u64| {
        let (next, fill, moment) = &mut rings[(at % CPUS) as usize];
        let lost = if random.below(16) == 0 { 1 + random.below(3) } else { 0 };
        let first = *next + lost * PER_PAGE;
        let count = PER_PAGE.min(records - at * PER_PAGE);
        let draft = Draft {
            cpu: at % CPUS,
            fill: *fill + lost,
            first,
            missed: first - *next,
            size: SIZE,
            records: (0..count)
                .map(|_| {
                    *moment += 1 + random.below(2_000);
                    (*moment, random.bytes(PAYLOAD))
                })
                .collect(),
        };
        (*next, *fill) = (first + count, draft.fill + 1);
        draft
    };
    (0..records.div_ceil(PER_PAGE)).map(page).collect()
}

/// A parcel of one record that overlaps others at random, in one of four ways, each on a CPU of its own:
/// 0 has few numbers, so that each record comes several times, and one in fifty is another record;
/// 1 has short runs of missing numbers among the records;
/// 2 has numbers of 64 bits, and runs that are as long;
/// 3 has few clashes: a record for even numbers, missing odd ones, all far apart.
fn forged(random: &mut Random, count: u64) -> Draft {
    let cpu = random.below(4);
    let first = match cpu {
        0 => random.below(count / 8 + 1),
        1 => 8 + random.below(4 * count),
        2 => random.next().max(1),
        _ => 2 * (1 + random.below(8 * count)),
    };
    let missed = match cpu {
        0 => 0,
        1 => random.below(8),
        2 => random.below(first) >> random.below(64),
        _ => 1,
    };
    let payload = if random.below(50) == 0 { random.bytes(4) } else { vec![first as u8; 4] };
    let records = vec![(first.wrapping_mul(0x9e37_79b9_7f4a_7c15) >> 24, payload)];
    Draft { cpu, fill: random.below(count), first: first.min(u64::MAX - 1), missed, records, size: 32 }
}

/// A parcel of up to 62 records, any piece of its CPU's list, so that it overlaps others in part and agrees with all of
/// them. Of each thousand numbers the first hundred are missing, and parcels right after them miss the last of those.
fn overlapping(random: &mut Random, numbers: u64) -> Draft {
    let cpu = random.below(CPUS);
    let thousand = 1_000 * random.below(numbers / CPUS / 1_000 + 1);
    let after_missing = random.below(4) == 0;
    let first = thousand + 100 + if after_missing { 0 } else { random.below(900) };
    let count = (1 + random.below(PER_PAGE)).min(thousand + 1_000 - first);
    let mix = |number: u64| (number * CPUS + cpu).wrapping_mul(0x9e37_79b9_7f4a_7c15) >> 32;
    let record = |number: u64| (1_000 * number + mix(number) % 1_000, (mix(number) as u32).to_le_bytes().to_vec());
    Draft {
        cpu,
        fill: first,
        first,
        missed: if after_missing { random.below(101) } else { 0 },
        records: (first..first + count).map(record).collect(),
        size: 512,
    }
}
