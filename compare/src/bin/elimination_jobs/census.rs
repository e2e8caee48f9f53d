//! How often each refusal and each kind of job occurs, and how long the runs are.

use crate::{Answer, Job};
use reference::poly::TERMS;
use reference::table;

fn accepted_modulo(p: u32, job: &Job, answer: &Answer) -> bool {
    answer.outcome.0 == 0 && job.table[0] == p
}

/// Whether the input's longest polynomial and highest exponent are so.
fn accepted_with(job: &Job, answer: &Answer, is_so: fn(usize, u8) -> bool) -> bool {
    let Ok(input) = table::read(&job.table) else { return false };
    let polynomials = || input.zeros.iter().chain(&input.nonzeros);
    let longest = polynomials().map(|f| f.len()).max().unwrap_or(0);
    let highest = polynomials().flat_map(|f| f.m.iter().flat_map(|m| m.to_le_bytes())).max().unwrap_or(0);
    answer.outcome.0 == 0 && is_so(longest, highest)
}

/// A kind of job that has to occur, and whether a job is of it.
type Kind = (&'static str, fn(&Job, &Answer) -> bool);

const KINDS: [Kind; 12] = [
    ("accepted modulo 2", |job, answer| accepted_modulo(2, job, answer)),
    ("accepted modulo 2147483647", |job, answer| accepted_modulo(2147483647, job, answer)),
    ("accepted with an exponent of 255", |job, answer| accepted_with(job, answer, |_, e| e == 255)),
    ("accepted with a polynomial of 256 terms", |job, answer| accepted_with(job, answer, |terms, _| terms == TERMS)),
    ("refused by 9 while the table is read", |_, answer| answer.outcome.0 == 9 && answer.outcome.1 > 0),
    ("refused by 9 inside a step", |_, answer| answer.outcome == (9, 0)),
    ("refused by 11 before a step is whole", |_, answer| answer.outcome.0 == 11 && answer.steps == 0),
    ("refused by 11 after steps", |_, answer| answer.outcome.0 == 11 && answer.steps > 0),
    ("refused by 12 with the limit 0", |job, answer| answer.outcome.0 == 12 && job.limit == 0),
    ("with a work area, not zero before, that ends inside a record", |job, _| job.work % 4 > 0 && job.fill > 0),
    ("with a work area, not zero before, of over 65,536 records", |job, _| job.work > 4 * 65536 && job.fill > 0),
    // No list has this word.
    ("with words behind the list, not zero before", |job, answer| {
        answer.outcome.0 == 0 && job.fill == u32::MAX && answer.output.last() == Some(&u32::MAX)
    }),
];

#[derive(Default)]
pub struct Census {
    jobs: usize,
    systems: u32,
    points: usize,
    yes: usize,
    longest: u32,
    /// Accepted runs by the count of variables.
    accepted: [usize; 9],
    /// By number: of eliminations, of points against tables, of points against lists.
    refusals: [[usize; 3]; 16],
    kinds: [usize; KINDS.len()],
}

impl Census {
    pub fn count(&mut self, job: &Job, answer: &Answer) {
        self.jobs += 1;
        self.points += job.points.len();
        self.longest = self.longest.max(answer.steps);
        let (number, value) = answer.outcome;
        if number == 0 {
            self.accepted[job.table[1] as usize] += 1;
            self.systems += value;
        }
        self.refusals[number as usize][0] += 1;
        for &((of_table, yes), (of_list, _)) in &answer.points {
            self.yes += (of_table == 0 && yes == 1) as usize;
            self.refusals[of_table as usize][1] += 1;
            self.refusals[of_list as usize][2] += 1;
        }
        for (count, (_, is_of)) in self.kinds.iter_mut().zip(KINDS) {
            *count += is_of(job, answer) as usize;
        }
    }

    /// What did not occur. Lists with heads or terms that break a rule are the jobs of `table_jobs`.
    pub fn missing(&self) -> Vec<String> {
        let never = |column: usize, number: usize| self.refusals[number][column] == 0;
        let runs = (1..14).filter(|&i| never(0, i)).map(|i| format!("an elimination refused by {i}"));
        let tables = (1..10).chain([14]).filter(|&i| never(1, i)).map(|i| format!("a point against a table refused by {i}"));
        let lists = (1..5).chain([14, 15]).filter(|&i| never(2, i)).map(|i| format!("a point against a list refused by {i}"));
        let variables = (1..9).filter(|&n| self.accepted[n] == 0).map(|n| format!("accepted with {n} variables"));
        let kinds = KINDS.iter().zip(self.kinds).filter(|&(_, count)| count == 0).map(|((name, _), _)| name.to_string());
        runs.chain(tables).chain(lists).chain(variables).chain(kinds).collect()
    }

    pub fn print(&self) {
        let accepted: usize = self.accepted.iter().sum();
        println!("{} jobs, {accepted} accepted with {} systems; the longest run has {} steps", self.jobs, self.systems, self.longest);
        println!("{} points, {} of them yes", self.points, self.yes);
        println!("accepted by variables, 1 to 8: {:?}", &self.accepted[1..]);
        println!("refusal: eliminations, points against tables, against lists");
        for (number, [runs, tables, lists]) in self.refusals.iter().enumerate().skip(1) {
            println!("{number}: {runs} {tables} {lists}");
        }
        for (count, (name, _)) in self.kinds.iter().zip(KINDS) {
            println!("{count} {name}");
        }
    }
}

/// Prints the census of some jobs, and fails if anything is missing.
pub fn print(jobs: impl Iterator<Item = Job>) {
    let mut census = Census::default();
    jobs.for_each(|job| census.count(&job, &job.answer()));
    census.print();
    if !census.missing().is_empty() {
        eprintln!("these do not occur: {:?}", census.missing());
        std::process::exit(1);
    }
}

#[cfg(test)]
mod tests {
    use super::*;
    use crate::stored;

    #[test]
    fn the_stored_jobs_have_every_refusal_and_kind() {
        let mut census = Census::default();
        for job in stored() {
            let answer = job.answer();
            assert_eq!(answer.nonzero, 0);
            census.count(&job, &answer);
        }
        assert!(census.missing().is_empty(), "{:?}", census.missing());
    }
}
