//! Jobs for the program `table_jobs`, and their answers by this package's own reader and point tests.
//!
//! A job is little-endian words: its kind, how many words the table has, the words, how many the point has, the words. Its answer is a
//! line: 0 or the refusal's number, then the record, 1 or 0 for yes or no, or the place.

mod fixed;
mod random;

use reference::jobs::{outcome, Outcome};
use reference::table;
use reference::words::{self, counted, with_count};

pub const READ: u32 = 0;
pub const TABLE: u32 = 1;
pub const LIST: u32 = 2;

#[derive(Clone, Debug)]
pub struct Job {
    pub kind: u32,
    pub table: Vec<u32>,
    pub point: Vec<u32>,
}

impl Job {
    fn answer(&self) -> Outcome {
        outcome(match self.kind {
            READ => table::read(&self.table).map(|_| 0),
            TABLE => table::try_table(&self.table, &self.point).map(u32::from),
            _ => table::try_list(&self.table, &self.point),
        })
    }

    fn words(&self) -> impl Iterator<Item = u32> + '_ {
        [self.kind].into_iter().chain(with_count(&self.table)).chain(with_count(&self.point))
    }
}

fn write(jobs: &[Job]) {
    words::write(jobs.iter().flat_map(Job::words));
}

/// The jobs without their answers, once the reader has given each answer that is stated.
fn tried(jobs: Vec<(Job, Outcome)>) -> Vec<Job> {
    for (job, answer) in &jobs {
        assert_eq!(job.answer(), *answer, "{job:?}");
    }
    jobs.into_iter().map(|(job, _)| job).collect()
}

fn next(words: &mut impl Iterator<Item = u32>) -> Option<Job> {
    let kind = words.next()?;
    Some(Job { kind, table: counted(words, usize::MAX)?, point: counted(words, usize::MAX)? })
}

fn print_answers() {
    let mut words = words::read();
    let mut lines = String::new();
    while let Some(job) = next(&mut words) {
        let (number, value) = job.answer();
        lines += &format!("{number} {value}\n");
    }
    print!("{lines}");
}

/// The jobs that the program is held to by stored files, the last of them a table that is too long.
fn stored() -> Vec<Job> {
    [tried(fixed::jobs()), random::jobs(1, 300), tried(fixed::large()[..1].to_vec())].concat()
}

fn main() {
    let args: Vec<String> = std::env::args().skip(1).collect();
    match args.iter().map(String::as_str).collect::<Vec<_>>()[..] {
        ["stored"] => write(&stored()),
        ["large"] => write(&tried(fixed::large())),
        ["random", seed, count] => write(&random::jobs(seed.parse().unwrap(), count.parse().unwrap())),
        ["answers"] => print_answers(),
        _ => panic!("stored, large, random SEED COUNT, or answers"),
    }
}
