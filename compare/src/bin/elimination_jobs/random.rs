//! Random jobs: inputs of every kind, mostly with as much room, output and limit as they need, and now and then with less.

use crate::layout;
use crate::measure::{self, Measure};
use crate::systems;
use crate::Job;
use reference::jobs::{all_points, batches};
use reference::rng::Rng;
use reference::table::Input;

/// What random jobs run with at most.
const ROOM: usize = 8191;
const LIMIT: u32 = 2000;

/// What the areas hold before. Of small primes a refused call leaves an output that reads as the beginning of a list.
pub fn fill(rng: &mut Rng) -> u32 {
    match rng.below(4) {
        0 => 0,
        1 => u32::MAX,
        2 => rng.pick(&[1, 2, 3, 5, 7, 11]),
        _ => rng.draw() as u32,
    }
}

/// A few points, in a small field all of them; or none.
fn points(rng: &mut Rng, input: &Input) -> Vec<Vec<u32>> {
    let (p, n) = (input.p, input.n);
    if rng.one_in(3) {
        return Vec::new();
    }
    let mut points = all_points(p, n, 9);
    (0..rng.below(3)).for_each(|_| points.push(rng.point(p, n)));
    if rng.one_in(4) {
        points.push(rng.no_point(p, n));
    }
    points
}

/// The job with one of its numbers changed so that the run is refused or just not refused.
fn varied(rng: &mut Rng, mut job: Job, measure: &Measure, room: usize) -> Job {
    match rng.below(8) {
        0 => job.work = 4 * room + rng.below(4) as usize,
        1 => job.work = rng.below(4 * room as u32 + 4) as usize,
        2 => job.limit = measure.steps.saturating_sub(1),
        3 => job.limit = rng.below(measure.steps + 1),
        4 => job.output = (4 * measure.list).saturating_sub(1 + rng.below(4) as usize),
        5 => job.output = rng.below(4 * measure.list as u32 + 1) as usize,
        6 => job.list = job.output + rng.below(9) as usize,
        _ => job.list = rng.below(job.output as u32 + 1) as usize,
    }
    job
}

/// The jobs of one input.
fn batch(rng: &mut Rng) -> Vec<Job> {
    let input = systems::any(rng);
    let table = layout::shared_one_in(2, &input, rng);
    let measure = measure::measured(&table, ROOM, LIMIT);
    let room = if measure.steps < 300 { measure::least_room(&table, ROOM, LIMIT) } else { ROOM };
    let mut job = measure::roomy(table, measure.steps, room, measure.list);
    job.fill = fill(rng);
    job.limit = rng.pick(&[measure.steps, measure.steps + 1, LIMIT, 100_000, u32::MAX]);
    // Runs that are longer than was measured stay out.
    if matches!(measure.outcome.0, 11 | 12) {
        job.limit = job.limit.min(LIMIT);
    }
    if measure.list == 0 {
        job.output = rng.below(60) as usize;
        job.list = rng.below(60) as usize;
    }
    job.work += rng.pick(&[0, 0, 1, 2, 3, 4, 40]);
    job.output += rng.pick(&[0, 0, 0, 1, 2, 3, 4, 9]);
    job.points = points(rng, &input);
    let mut jobs = vec![job.clone()];
    for _ in 0..rng.below(3) {
        jobs.push(varied(rng, job.clone(), &measure, room));
    }
    jobs
}

pub fn jobs(seed: u32, count: u32) -> Vec<Job> {
    batches(seed, count, batch)
}
