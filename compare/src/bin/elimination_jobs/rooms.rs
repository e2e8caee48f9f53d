//! Work areas, limits and outputs at, just below and above what a run needs.

use crate::layout;
use crate::measure::{self, Measure};
use crate::random::fill;
use crate::systems;
use crate::Job;
use reference::jobs::batches;
use reference::rng::Rng;

const ROOM: usize = 4095;
const LIMIT: u32 = 1000;

/// The job with each work area about the least, and with almost none.
fn work_areas(rng: &mut Rng, job: &Job, room: usize, jobs: &mut Vec<Job>) {
    let exact = 4 * (room + 1);
    let about = (exact - 4)..(exact + 8);
    let between = [rng.below(exact as u32) as usize, rng.below(exact as u32) as usize, exact / 2];
    for work in about.chain(0..9).chain(between) {
        jobs.push(Job { work, fill: fill(rng), ..job.clone() });
    }
}

fn limits(rng: &mut Rng, job: &Job, steps: u32, jobs: &mut Vec<Job>) {
    let last = steps.saturating_sub(1);
    for limit in [steps, last, 0, steps + 1, u32::MAX, 1, steps / 2, rng.below(steps + 1)] {
        jobs.push(Job { limit, fill: fill(rng), ..job.clone() });
    }
}

/// Outputs of a word or a record less than the list, and longer ones; the list is read with too few words and with too many.
fn outputs(rng: &mut Rng, job: &Job, list: usize, jobs: &mut Vec<Job>) {
    let exact = 4 * list;
    for output in [exact, exact - 1, exact - 4, exact - 3, exact + 1, exact + 3, exact + 4, exact + 40, 0, 3, 4] {
        jobs.push(Job { output, fill: fill(rng), ..job.clone() });
    }
    for list in [exact - 4, exact - 1, exact + 4, exact + 40, 0, rng.below(list as u32) as usize * 4] {
        let fill = fill(rng);
        jobs.push(Job { output: exact + 8, list, fill, ..job.clone() });
    }
}

/// Two causes at once: the one met first answers.
fn together(rng: &mut Rng, job: &Job, measure: &Measure, room: usize, jobs: &mut Vec<Job>) {
    for _ in 0..6 {
        let work = 4 * (room + 1) - rng.below(4 * room as u32 + 4).min(4 * rng.below(5)) as usize;
        let limit = measure.steps - rng.below(measure.steps + 1).min(rng.below(4));
        let output = (4 * measure.list).saturating_sub(rng.below(8) as usize);
        jobs.push(Job { work, limit, output, fill: fill(rng), ..job.clone() });
    }
}

/// Every room up to what is needed, every limit up to the steps, every output up to the list.
fn sweep(job: &Job, measure: &Measure, room: usize, jobs: &mut Vec<Job>) {
    jobs.extend((0..=room + 1).map(|records| Job { work: 4 * records, ..job.clone() }));
    jobs.extend((0..=measure.steps + 1).map(|limit| Job { limit, ..job.clone() }));
    jobs.extend((0..=4 * measure.list + 5).map(|output| Job { output, ..job.clone() }));
}

/// The jobs of one table.
pub fn around(rng: &mut Rng, table: Vec<u32>, point: Vec<u32>) -> Vec<Job> {
    let measure = measure::measured(&table, ROOM, LIMIT);
    // Runs of a step or two are left to other jobs; so are those that would not end here.
    if measure.steps < 3 || matches!(measure.outcome.0, 11 | 12) {
        return Vec::new();
    }
    let room = measure::least_room(&table, ROOM, LIMIT);
    let mut job = measure::roomy(table, LIMIT, room, measure.list);
    job.points = vec![point];
    let mut jobs = Vec::new();
    work_areas(rng, &job, room, &mut jobs);
    limits(rng, &job, measure.steps, &mut jobs);
    together(rng, &job, &measure, room, &mut jobs);
    if measure.list > 0 {
        outputs(rng, &job, measure.list, &mut jobs);
        if room < 40 && rng.one_in(8) {
            sweep(&Job { fill: fill(rng), ..job }, &measure, room, &mut jobs);
        }
    }
    jobs
}

pub fn jobs(seed: u32, count: u32) -> Vec<Job> {
    batches(seed, count, |rng| {
        let input = systems::any(rng);
        let table = layout::shared_one_in(4, &input, rng);
        let point = rng.point(input.p, input.n);
        around(rng, table, point)
    })
}

#[cfg(test)]
mod tests {
    use super::*;
    use reference::jobs::straight;

    #[test]
    fn the_least_room_is_enough_and_one_record_less_is_not() {
        let mut rng = Rng(7);
        for _ in 0..300 {
            let table = straight(&systems::any(&mut rng));
            let measure = measure::measured(&table, ROOM, LIMIT);
            if measure.outcome.0 == 11 {
                continue;
            }
            let room = measure::least_room(&table, ROOM, LIMIT);
            let job = measure::roomy(table, LIMIT, room, measure.list);
            assert_eq!(job.answer().outcome, measure.outcome);
            assert_eq!(Job { work: 4 * room + 3, ..job }.answer().outcome, (11, 0));
        }
    }
}
