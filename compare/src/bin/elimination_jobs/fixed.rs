//! Document 01's jobs, every refusal, and the order of the causes, each with the answer that document 01 gives.

use crate::{bounds, rules, Job};
use reference::jobs::{all_points, edited, table, with_terms, Outcome, Term, INPUT};

/// Modulo 7: v1 v2 + 6.
pub const PAIR: &[Term] = &[(1, &[1, 1]), (6, &[])];

/// The job that document 01 prints: P = v1 v2 + 6 modulo 7, and its list.
const PRINTED: [u32; 16] = [7, 2, 1, 0, 2, 0, 0, 0, 1, 0, 257, 3, 6, 0, 0, 0];
const PRINTED_LIST: &str = "7 2 1 1, 2 5 0 0, 3 0 0 0, 1 0 257 4, 6 0 0 0, 6 0 0 0, 1 0 1 0";

/// The list of no systems modulo 7 in two variables.
pub const NOTHING: &str = "7 2 0 0";

#[derive(Default)]
pub struct Jobs(pub Vec<Job>);

/// A job with room for 63 records, an output of 20, and a limit of 100 steps.
pub fn job(table: Vec<u32>) -> Job {
    Job { limit: 100, work: 256, output: 80, fill: 9, list: 0, table, points: Vec::new() }
}

/// The words of records written as text.
fn records(text: &str) -> Vec<u32> {
    text.replace(',', " ").split_whitespace().map(|word| word.parse().unwrap()).collect()
}

impl Jobs {
    /// A job with its outcome and steps as stated.
    pub fn stated(&mut self, job: Job, outcome: Outcome, steps: u32) {
        let answer = job.answer();
        assert_eq!((answer.outcome, answer.steps, answer.nonzero), (outcome, steps, 0), "table {:?}", job.table);
        if outcome.0 != 0 {
            assert!(answer.output.iter().all(|&word| word == job.fill));
        }
        self.0.push(job);
    }

    pub fn refused(&mut self, table: Vec<u32>, number: u32, record: u32) {
        self.stated(Job { points: vec![vec![2, 4]], ..job(table) }, (number, record), 0);
    }

    /// A job with the list as stated, in an output of a record more, and every point of a small field tried against both: so many solve it.
    pub fn listed(&mut self, table: Vec<u32>, list: &str, steps: u32, solutions: usize) {
        let list = records(list);
        let points = all_points(list[0], list[1], 400);
        let job = Job { output: list.len() + 4, list: list.len(), points, ..job(table) };
        let answer = job.answer();
        assert_eq!(answer.output[..list.len()], list);
        assert_eq!(answer.output[list.len()..], [9; 4]);
        let solved = answer.points.iter().filter(|(_, (_, place))| *place > 0).count();
        assert_eq!(solved, solutions, "table {:?}", job.table);
        self.stated(job, (0, list[3]), steps);
    }
}

/// The starred jobs of document 01's table, in its order.
fn starred(jobs: &mut Jobs) {
    let empty = || table(7, 2, &[], &[]);
    let pair = || job(table(7, 2, &[PAIR], &[]));
    jobs.listed(empty(), "7 2 1 1, 0 0 0 0", 1, 49);
    jobs.stated(Job { limit: 0, ..job(empty()) }, (12, 0), 0);
    jobs.listed(table(7, 2, &[&[(3, &[])]], &[]), NOTHING, 1, 0);
    jobs.listed(table(7, 2, &[], &[&[]]), NOTHING, 1, 0);
    jobs.listed(table(7, 2, &[&[(1, &[1])]], &[&[(1, &[1])]]), NOTHING, 2, 0);
    jobs.listed(pair().table, PRINTED_LIST, 4, 6);
    jobs.stated(Job { work: 4 * 11, ..pair() }, (11, 0), 0);
    jobs.stated(Job { work: 4 * 12, output: 28, ..pair() }, (0, 1), 4);
    let two = table(7, 1, &[&[(1, &[2]), (6, &[])], &[(1, &[2]), (1, &[1]), (5, &[])]], &[]);
    jobs.listed(two, "7 1 1 1, 2 0 0 0, 3 0 0 0, 1 0 1 4, 6 0 0 0", 4, 1);
    let no_point = table(2, 1, &[&[(1, &[2]), (1, &[1]), (1, &[])]], &[]);
    jobs.listed(no_point, "2 1 1 1, 2 0 0 0, 3 0 0 0, 1 0 2 4, 1 0 1 5, 1 0 0 0", 2, 0);
}

/// The others, and the printed job with the areas and the limit of the program.
fn unstarred(jobs: &mut Jobs) {
    let three: [&[Term]; 3] = [&[(1, &[2]), (6, &[1])], PAIR, &[(1, &[1, 0, 1]), (6, &[0, 0, 1]), (1, &[0, 1])]];
    let list = "7 3 1 1, 2 12 0 0, 3 0 0 5, 1 0 2 4, 6 0 1 0, 6 0 0 8, 1 0 257 7, 6 0 0 0, 9 0 0 0, 1 0 65537 10, 6 0 65536 11, 1 0 256 0,
        13 0 0 15, 1 0 1 14, 6 0 0 0, 16 0 0 0, 1 0 1 0";
    jobs.listed(table(7, 3, &three, &[]), list, 9, 0);
    let high = |e: u32| table(7, 2, &[&[(1, &[200, 1]), (1, &[])], &[(1, &[e, 1]), (1, &[])]], &[]);
    let list = "7 2 1 1, 2 8 0 0, 3 0 0 5, 1 0 200 4, 6 0 55 0, 6 0 0 0, 1 0 456 7, 1 0 0 0, 9 0 0 0, 1 0 55 0";
    jobs.listed(high(55), list, 6, 1);
    jobs.stated(job(high(56)), (10, 0), 1);
    for p in [1, 9, 2147483648] {
        jobs.refused(table(p, 2, &[], &[]), 2, 0);
    }
    jobs.listed(table(2, 2, &[], &[]), "2 2 1 1, 0 0 0 0", 1, 4);
    jobs.listed(table(2147483647, 2, &[], &[]), "2147483647 2 1 1, 0 0 0 0", 1, 0);
    let of_program = Job { limit: 100_000, work: 16384, output: 16384, fill: 0, list: 28, ..job(PRINTED.to_vec()) };
    assert_eq!(of_program.answer().output[..28], records(PRINTED_LIST));
    jobs.stated(of_program, (0, 1), 4);
}

/// 1 to 9 while the table is read, with their records.
fn reading(jobs: &mut Jobs) {
    jobs.stated(job(INPUT.concat()), (0, 1), 5);
    for words in [0, 1, 3, 5, 7, 39] {
        jobs.refused(INPUT.concat()[..words].to_vec(), 1, 0);
    }
    for p in [0, 4, 49, 2147483646, 2147483649, u32::MAX] {
        jobs.refused(edited(&INPUT, &[(0, 0, p)]), 2, 0);
    }
    for n in [0, 9, u32::MAX] {
        jobs.refused(edited(&INPUT, &[(0, 1, n)]), 3, 0);
    }
    for (record, word) in [(0, 2), (0, 3), (1, 0), (1, 3), (3, 3), (9, 3)] {
        jobs.refused(edited(&INPUT, &[(record, word, 10)]), 4, record as u32);
        jobs.refused(edited(&INPUT, &[(record, word, u32::MAX)]), 4, record as u32);
    }
    for record in [1, 4, 7] {
        jobs.refused(edited(&INPUT, &[(record, 0, record as u32)]), 4, record as u32);
        jobs.refused(edited(&INPUT, &[(record, 1, 1)]), 5, record as u32);
        jobs.refused(edited(&INPUT, &[(record, 2, 1)]), 5, record as u32);
    }
    for record in [2, 3, 5, 6, 8, 9] {
        jobs.refused(edited(&INPUT, &[(record, 0, 0)]), 6, record as u32);
        jobs.refused(edited(&INPUT, &[(record, 0, 7)]), 6, record as u32);
        jobs.refused(edited(&INPUT, &[(record, 1, 1)]), 7, record as u32);
        jobs.refused(edited(&INPUT, &[(record, 2, 1 << 16)]), 7, record as u32);
    }
    for (record, before) in [(3, 257), (6, 2), (9, 1)] {
        jobs.refused(edited(&INPUT, &[(record, 2, before)]), 8, record as u32);
    }
    for header in [[7, 2, 1, 0], [7, 2, 0, 1]] {
        let long = with_terms(&[header, [2, 0, 0, 0]], 257);
        jobs.refused(long.concat(), 9, 258);
        jobs.refused(edited(&long, &[(258, 0, 0), (258, 1, 1), (258, 2, 256), (258, 3, 258)]), 9, 258);
    }
}

/// 14 and 15, and what else a list can be refused for: the output of a refused call, or too little of a list.
fn points(jobs: &mut Jobs) {
    let wrong: [&[u32]; 6] = [&[], &[1], &[1, 1, 1], &[7, 1], &[1, u32::MAX], &[1; 16]];
    let printed = Job { points: wrong.map(<[u32]>::to_vec).to_vec(), list: 28, ..job(PRINTED.to_vec()) };
    assert!(printed.answer().points.iter().all(|&point| point == ((14, 0), (14, 0))));
    jobs.stated(printed.clone(), (0, 1), 4);
    let mut tried = |fill: u32, list: usize, limit: u32, outcome: Outcome| {
        let job = Job { fill, list, limit, points: vec![vec![1, 1]], ..printed.clone() };
        assert_eq!(job.answer().points, [((0, 1), outcome)]);
        jobs.0.push(job);
    };
    // A list whose end is missing, and one with more after it.
    for (list, outcome) in [
        (0, (1, 0)),
        (27, (1, 0)),
        (4, (4, 0)),
        (8, (4, 1)),
        (24, (4, 5)),
        (28, (0, 1)),
        (32, (0, 1)),
        (80, (0, 1)),
        (u32::MAX as usize, (0, 1)),
    ] {
        tried(0, list, 100, outcome);
    }
    for (fill, list, outcome) in [(0, 80, (2, 0)), (11, 80, (3, 0)), (7, 8, (4, 0)), (7, 40, (15, 7)), (2, 12, (15, 2)), (5, 80, (15, 5))] {
        tried(fill, list, 3, outcome);
    }
}

/// Of two causes the one met first: reading, the first branch's room, the limit, a step, the output.
fn order(jobs: &mut Jobs) {
    let nothing = |table: Vec<u32>| Job { limit: 0, work: 0, output: 0, ..job(table) };
    jobs.stated(nothing(PRINTED[..15].to_vec()), (1, 0), 0);
    jobs.stated(nothing(PRINTED.to_vec()), (11, 0), 0);
    for (work, number) in [(3, 11), (4, 11), (7, 11), (19, 11), (20, 12), (23, 12), (24, 12)] {
        jobs.stated(Job { work, ..nothing(PRINTED.to_vec()) }, (number, 0), 0);
    }
    for (limit, outcome, steps) in [(0, 12, 0), (1, 12, 1), (2, 12, 2), (3, 12, 3), (4, 13, 4), (5, 13, 4)] {
        jobs.stated(Job { limit, output: 27, ..job(PRINTED.to_vec()) }, (outcome, 0), steps);
        jobs.stated(Job { limit, output: 27, work: 4 * 11, ..job(PRINTED.to_vec()) }, (if limit == 0 { 12 } else { 11 }, 0), 0);
    }
}

pub fn jobs() -> Vec<Job> {
    let mut jobs = Jobs::default();
    for part in [starred, unstarred, rules::jobs, reading, points, order, bounds::jobs] {
        part(&mut jobs);
    }
    jobs.0
}
