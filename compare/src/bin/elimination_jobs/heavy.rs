//! Long runs: products of linear factors, which split at almost every step. And the largest tables, work areas and outputs.

use crate::layout;
use crate::measure::{self, Measure};
use crate::random::fill;
use crate::systems::gathered;
use crate::Job;
use reference::jobs::{power, straight};
use reference::poly::{product, Poly};
use reference::rng::Rng;
use reference::table::Input;

const ROOM: usize = 65535;
const LIMIT: u32 = 50_000;
const PRIMES: [u32; 8] = [2, 3, 5, 7, 11, 257, 32003, 2147483647];

/// vk plus a random number.
fn factor(rng: &mut Rng, p: u32, k: u32) -> Poly {
    gathered(p, vec![(1, power(k, 1)), (rng.below(p), 0)])
}

/// For every two variables a product of two factors.
fn pairs(rng: &mut Rng, p: u32, n: u32) -> Input {
    let pairs = (1..n).flat_map(|i| (i + 1..=n).map(move |j| (i, j)));
    let zeros = pairs.map(|(i, j)| product(p, &factor(rng, p, i), &factor(rng, p, j)).unwrap()).collect();
    Input { p, n, zeros, nonzeros: vec![] }
}

/// Products of three factors in any variables.
fn triples(rng: &mut Rng, p: u32, n: u32, count: u32) -> Input {
    let any = |rng: &mut Rng| {
        let k = 1 + rng.below(n);
        factor(rng, p, k)
    };
    let mut triple = || {
        let two = product(p, &any(rng), &any(rng)).unwrap();
        product(p, &two, &any(rng)).unwrap()
    };
    Input { p, n, zeros: (0..count).map(|_| triple()).collect(), nonzeros: vec![] }
}

/// The run as it is, with limits inside it, and with rooms about the least.
fn around(rng: &mut Rng, table: Vec<u32>, measure: &Measure, jobs: &mut Vec<Job>) {
    let (p, n, steps) = (table[0], table[1], measure.steps);
    // Many halvings of a long run take time: it gets a room that is enough.
    let room = if steps < 4000 { measure::least_room(&table, 8191, LIMIT) } else { 8191 };
    let mut job = measure::roomy(table, LIMIT, room, measure.list);
    job.fill = fill(rng);
    job.points = (0..4).map(|_| rng.point(p, n)).collect();
    jobs.push(job.clone());
    for limit in [steps, steps - 1, steps / 2, rng.below(steps)] {
        jobs.push(Job { limit, output: 4 * measure.list.min(10), ..job.clone() });
    }
    if steps < 4000 {
        for work in [4 * room, 4 * room + 3, 2 * room, 4 * rng.below(room as u32) as usize] {
            jobs.push(Job { work, output: 8, ..job.clone() });
        }
    }
}

pub fn jobs() -> Vec<Job> {
    let mut rng = Rng(5);
    let mut inputs = Vec::new();
    for p in PRIMES {
        inputs.extend((5..=8).map(|n| pairs(&mut rng, p, n)));
        for n in 4..=8 {
            inputs.extend([6, 8, 10].map(|count| triples(&mut rng, p, n, count)));
        }
    }
    let mut jobs = Vec::new();
    for input in inputs {
        let table = straight(&input);
        let measure = measure::measured(&table, 8191, LIMIT);
        if measure.steps >= 100 && measure.outcome.0 != 11 {
            around(&mut rng, table, &measure, &mut jobs);
        }
    }
    jobs
}

/// As many polynomials of 256 terms as fill the records, with one shorter one; they share all terms but the first.
fn filling(records: usize) -> Vec<Poly> {
    let tail: Vec<(u32, u64)> = (0..255).map(|e| (1 + e % 6, power(1, e))).collect();
    let long = |i: usize, terms: usize| {
        let mut all = tail[..terms - 1].to_vec();
        all.push((1, power(2, 1 + i as u32 / 200) | power(1, i as u32 % 200)));
        gathered(7, all)
    };
    let (count, left) = (records / 257, records % 257);
    let mut polynomials: Vec<Poly> = (0..count).map(|i| long(i, 256)).collect();
    if left > 1 {
        polynomials.push(long(count, left - 1));
    }
    polynomials
}

/// A job with Q alone: a step lists it, and its records are one less than the list's.
fn listing(records: usize) -> Job {
    let input = Input { p: 7, n: 2, zeros: vec![], nonzeros: filling(records - 1) };
    let table = layout::tight(&input);
    Job { limit: 5, work: 4 * (records + 1), output: 0, fill: 0, list: 0, table, points: vec![] }
}

/// All the room there is, and a record more than there is, in an area that is longer; without an output.
pub fn rooms() -> [Job; 2] {
    [ROOM, ROOM + 1].map(|records| Job { work: 262_399, fill: u32::MAX, ..listing(records) })
}

pub fn large() -> Vec<Job> {
    // All the room there is, a record less, a record more than there is, however long the area; lists in outputs that just hold them.
    let full = listing(ROOM);
    let point = vec![vec![3, 4]];
    let mut jobs = vec![
        Job { output: 262_144, list: 262_144, points: point.clone(), ..full.clone() },
        Job { work: 262_400, output: 262_400, list: 262_144, fill: u32::MAX, points: point.clone(), ..full.clone() },
        Job { work: 262_143, ..full.clone() },
        Job { output: 262_143, fill: 5, ..full.clone() },
        Job { work: 262_400, fill: u32::MAX, ..listing(ROOM + 1) },
        Job { work: 262_400, limit: 0, ..full },
    ];
    // A split with about half of the room in Q, which is copied.
    let split = |records: usize| {
        let pivot = gathered(7, vec![(1, power(2, 2) | power(1, 1)), (6, 0)]);
        layout::tight(&Input { p: 7, n: 2, zeros: vec![pivot], nonzeros: filling(records) })
    };
    let room = measure::least_room(&split(32_000), ROOM, 1);
    for (records, work, limit) in [(32_000, 4 * room + 4, 1), (32_000, 4 * room, 5), (32_000, 262_400, 4), (33_000, 262_400, 4)] {
        jobs.push(Job { limit, work, output: 8, fill: 3, list: 0, table: split(records), points: vec![] });
    }
    // The longest table, one record more, and a chain of zeros through all of it, to P and to Q.
    let chain = |first: [u32; 4], records: u32| {
        let link = |i: u32| [0, 0, 0, if i + 1 < records { i + 1 } else { 0 }];
        [vec![first], (1..records).map(link).collect()].concat().concat()
    };
    for table in [chain([7, 2, 1, 0], 65537), chain([7, 2, 1, 0], 65536), chain([7, 2, 0, 1], 65536), chain([7, 2, 65535, 65535], 65536)] {
        jobs.push(Job { limit: 9, work: 16, output: 8, fill: 1, list: 8, table, points: point.clone() });
    }
    jobs
}

#[cfg(test)]
mod tests {
    use super::*;

    #[test]
    fn the_largest_areas() {
        assert_eq!(rooms().map(|job| job.answer().outcome.0), [13, 11]);
        let outcomes: Vec<u32> = large().iter().map(|job| job.answer().outcome.0).collect();
        assert_eq!(outcomes, [0, 0, 11, 13, 11, 12, 12, 11, 13, 11, 1, 0, 0, 0]);
    }
}
