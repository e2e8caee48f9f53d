//! Small fields: every point against the table and against the list.

use crate::layout;
use crate::measure;
use crate::random::fill;
use crate::systems;
use crate::Job;
use reference::jobs::{all_points, batches};
use reference::rng::Rng;

const ROOM: usize = 8191;
const LIMIT: u32 = 5000;

/// A job whose run is accepted, or none: the list tried is the list's own records.
fn batch(rng: &mut Rng) -> Vec<Job> {
    let (p, n) = (rng.pick(&[2, 2, 3, 3, 5]), rng.pick(&[1, 2, 2, 3, 3, 4]));
    // 625 points only now and then.
    if (p, n) == (5, 4) && !rng.one_in(6) {
        return Vec::new();
    }
    let input = systems::small(rng, p, n);
    let table = layout::shared_one_in(2, &input, rng);
    let measure = measure::measured(&table, ROOM, LIMIT);
    if measure.outcome.0 != 0 {
        return Vec::new();
    }
    let room = measure::least_room(&table, ROOM, LIMIT);
    let mut job = measure::roomy(table, LIMIT, room, measure.list);
    job.fill = fill(rng);
    job.output += rng.pick(&[0, 0, 1, 4]);
    job.points = all_points(p, n, 625);
    vec![job]
}

pub fn jobs(seed: u32, count: u32) -> Vec<Job> {
    batches(seed, count, batch)
}

#[cfg(test)]
mod tests {
    use super::*;
    use reference::table;

    #[test]
    fn yes_goes_with_a_place_whose_initials_do_not_vanish() {
        let mut solved = 0;
        for job in jobs(1, 600) {
            let answer = job.answer();
            assert_eq!(answer.outcome.0, 0);
            let list = table::read_list(&answer.output[..job.list]).unwrap();
            for (point, ((a, yes), (b, place))) in job.points.iter().zip(answer.points) {
                assert_eq!((a, b, yes), (0, 0, (place > 0) as u32));
                solved += yes;
                if place > 0 {
                    let mut initials = list.systems[place as usize - 1].t.iter().map(|f| f.initial(f.leader() - 1));
                    assert!(initials.all(|f| f.value(list.p, point) != 0));
                }
            }
        }
        assert!(solved > 1000);
    }
}
