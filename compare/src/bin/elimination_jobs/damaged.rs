//! Tables that break the rules of reading: a word changed, words cut or added, a polynomial too long.

use crate::layout;
use crate::measure;
use crate::random::fill;
use crate::systems;
use crate::Job;
use reference::jobs::{batches, damaged};
use reference::poly::Poly;
use reference::rng::Rng;

const ROOM: usize = 2047;
const LIMIT: u32 = 200;

fn job(rng: &mut Rng, table: Vec<u32>, point: &[u32]) -> Job {
    let mut job = measure::roomy(table, LIMIT, ROOM, 0);
    // Some damaged tables still read well: a short list has its place in the output.
    job.output = rng.pick(&[0, 4, 16, 120, 240]);
    job.list = job.output;
    job.fill = fill(rng);
    job.points = match rng.below(8) {
        0 | 1 => Vec::new(),
        2 => vec![rng.no_point(7, 3)],
        _ => vec![point.to_vec()],
    };
    job
}

/// Each word of a table changed in each of these ways, and the table cut after each word.
fn everywhere(rng: &mut Rng, table: &[u32], point: &[u32], jobs: &mut Vec<Job>) {
    let (p, count) = (table[0], table.len() as u32 / 4);
    for i in 0..table.len() {
        let own = i as u32 / 4;
        for word in [0, 1, p, own, own + 1, count, table[i].wrapping_sub(1), table[i] ^ 1 << 31] {
            if word != table[i] {
                let mut table = table.to_vec();
                table[i] = word;
                jobs.push(job(rng, table, point));
            }
        }
        jobs.push(job(rng, table[..i].to_vec(), point));
    }
}

/// As many terms as a polynomial may have, or some more or less.
fn long(rng: &mut Rng) -> Poly {
    (0..252 + rng.below(9) as u64).rev().map(|m| (1, m)).collect()
}

fn batch(rng: &mut Rng) -> Vec<Job> {
    let mut input = systems::any(rng);
    if rng.one_in(12) && input.n > 1 {
        let list = if rng.one_in(2) { &mut input.zeros } else { &mut input.nonzeros };
        list.push(long(rng));
    }
    let table = layout::shared_one_in(2, &input, rng);
    let point = rng.point(input.p, input.n);
    let mut jobs = vec![job(rng, table.clone(), &point)];
    if table.len() < 80 && rng.one_in(60) {
        everywhere(rng, &table, &point, &mut jobs);
    }
    for _ in 0..8 {
        let table = damaged(rng, &table);
        jobs.push(job(rng, table, &point));
    }
    jobs
}

pub fn jobs(seed: u32, count: u32) -> Vec<Job> {
    batches(seed, count, batch)
}
