//! What a run needs: found by running it.

use crate::Job;
use reference::jobs::{outcome, Outcome};
use reference::run;
use reference::table;

/// How a run ends.
pub struct Measure {
    pub outcome: Outcome,
    pub steps: u32,
    /// How many records the list has; 0 if there is none.
    pub list: usize,
}

/// The run with so many records of room, and with an output for any list.
pub fn measured(words: &[u32], room: usize, limit: u32) -> Measure {
    let mut output = vec![0; 4 * 65536];
    let answer = run::eliminate(words, &mut vec![0; 4 * (room + 1)], &mut output, limit);
    let mut list = 0;
    if answer.outcome.is_ok() {
        let systems = table::read_list(&output).unwrap().systems;
        let polynomials = systems.iter().flat_map(|s| s.t.iter().chain(&s.u));
        list = 1 + systems.len() + polynomials.map(|f| 1 + f.len()).sum::<usize>();
    }
    Measure { outcome: outcome(answer.outcome), steps: answer.steps, list }
}

/// The least room with which the run is not refused for room, if `most` is enough.
pub fn least_room(words: &[u32], most: usize, limit: u32) -> usize {
    let (mut below, mut enough) = (0, most + 1);
    let refused = |room: usize| run::eliminate(words, &mut vec![0; 4 * room], &mut [], limit).outcome.is_err_and(|r| r.number == 11);
    // Work areas of `below` records are refused, those of `enough` are not; no records lend no room.
    while below + 1 < enough {
        let middle = (below + enough) / 2;
        if refused(middle) {
            below = middle;
        } else {
            enough = middle;
        }
    }
    enough - 1
}

/// A job with room and output for its run, as far as the measure goes, and nothing tried.
pub fn roomy(table: Vec<u32>, limit: u32, room: usize, list: usize) -> Job {
    Job { limit, work: 4 * (room + 1), output: 4 * list, fill: 0, list: 4 * list, table, points: Vec::new() }
}
