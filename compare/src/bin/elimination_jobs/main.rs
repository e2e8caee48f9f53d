//! Jobs for the program `elimination_jobs`, and their answers by this package's own elimination and point tests.
//!
//! A job is little-endian words: the limit of steps, how many words the work area has, how many the output has, what each of these words
//! holds before, how many first words of the output are read as a list (0 without points), how many words the table has, the words, how
//! many points there are, and for each point how many numbers it has, the numbers. Its answer is a line with 0 or the refusal's number,
//! the steps, the count of systems or the record, and how many words of the work area are not zero; a line with all words of the output;
//! and a line for each point with 0 and 1 or 0 for yes or no, or the refusal's number and its record, of the table, then 0 and the place,
//! or the number and the record, of the list.

mod bounds;
mod census;
mod damaged;
mod fixed;
mod heavy;
mod layout;
mod literature;
mod measure;
#[cfg(test)]
mod naive;
mod points;
mod random;
mod rooms;
mod rules;
mod systems;
mod text;
mod timing;

use reference::jobs::{outcome, Outcome};
use reference::words::{self, counted, with_count};
use reference::{run, table};
use std::io::{self, Write};

/// The most words that the program has for the work area and for the output, for a table, and for a point.
pub const AREA: usize = 262_400;
pub const TABLE: usize = 262_148;
pub const POINT: usize = 16;

#[derive(Clone, Debug)]
pub struct Job {
    pub limit: u32,
    pub work: usize,
    pub output: usize,
    pub fill: u32,
    pub list: usize,
    pub table: Vec<u32>,
    pub points: Vec<Vec<u32>>,
}

pub struct Answer {
    pub outcome: Outcome,
    pub steps: u32,
    pub nonzero: usize,
    pub output: Vec<u32>,
    /// For each point the table's outcome and the list's.
    pub points: Vec<(Outcome, Outcome)>,
}

impl Job {
    pub fn answer(&self) -> Answer {
        let mut work = vec![self.fill; self.work];
        let mut output = vec![self.fill; self.output];
        let answer = run::eliminate(&self.table, &mut work, &mut output, self.limit);
        let list = &output[..self.list.min(self.output)];
        let tried = |point: &Vec<u32>| {
            let of_table = table::try_table(&self.table, point).map(u32::from);
            (outcome(of_table), outcome(table::try_list(list, point)))
        };
        let points = self.points.iter().map(tried).collect();
        let nonzero = work.iter().filter(|&&word| word != 0).count();
        Answer { outcome: outcome(answer.outcome), steps: answer.steps, nonzero, output, points }
    }

    fn push_words(&self, words: &mut Vec<u32>) {
        assert!(self.work <= AREA && self.output <= AREA && self.table.len() <= TABLE, "a job is too long for the program");
        let list = if self.points.is_empty() { 0 } else { self.list as u32 };
        words.extend([self.limit, self.work as u32, self.output as u32, self.fill, list]);
        words.extend(with_count(&self.table));
        words.push(self.points.len() as u32);
        for point in &self.points {
            assert!(point.len() <= POINT, "a point is too long for the program");
            words.extend(with_count(point));
        }
    }
}

impl Answer {
    fn print(&self, to: &mut impl Write) -> io::Result<()> {
        let (number, value) = self.outcome;
        writeln!(to, "{number} {} {value} {}", self.steps, self.nonzero)?;
        for (i, word) in self.output.iter().enumerate() {
            write!(to, "{}{word}", if i == 0 { "" } else { " " })?;
        }
        writeln!(to)?;
        for ((a, b), (c, d)) in &self.points {
            writeln!(to, "{a} {b} {c} {d}")?;
        }
        Ok(())
    }
}

fn write(jobs: &[Job]) {
    let mut all = Vec::new();
    jobs.iter().for_each(|job| job.push_words(&mut all));
    words::write(all);
}

/// The next job, if one is left that is whole and not too long.
fn next(words: &mut impl Iterator<Item = u32>) -> Option<Job> {
    let (limit, work, output) = (words.next()?, words.next()? as usize, words.next()? as usize);
    let (fill, list) = (words.next()?, words.next()? as usize);
    if work > AREA || output > AREA {
        return None;
    }
    let table = counted(words, TABLE)?;
    let count = words.next()?;
    let points = (0..count).map(|_| counted(words, POINT)).collect::<Option<Vec<_>>>()?;
    Some(Job { limit, work, output, fill, list, table, points })
}

fn read_jobs() -> impl Iterator<Item = Job> {
    let mut words = words::read();
    std::iter::from_fn(move || next(&mut words))
}

/// The jobs that the program is held to by stored files: each kind but the long ones.
pub fn stored() -> Vec<Job> {
    let random = [random::jobs(1, 250), rooms::jobs(8, 100), points::jobs(1, 20), damaged::jobs(8, 60)].concat();
    [fixed::jobs(), random, heavy::rooms().to_vec()].concat()
}

fn main() {
    let args: Vec<String> = std::env::args().skip(1).collect();
    let number = |text: &str| text.parse::<u32>().unwrap();
    match args.iter().map(String::as_str).collect::<Vec<_>>()[..] {
        ["stored"] => write(&stored()),
        ["fixed"] => write(&fixed::jobs()),
        ["random", seed, count] => write(&random::jobs(number(seed), number(count))),
        ["rooms", seed, count] => write(&rooms::jobs(number(seed), number(count))),
        ["points", seed, count] => write(&points::jobs(number(seed), number(count))),
        ["damaged", seed, count] => write(&damaged::jobs(number(seed), number(count))),
        ["literature"] => write(&literature::jobs()),
        ["heavy"] => write(&heavy::jobs()),
        ["large"] => write(&heavy::large()),
        ["answers"] => {
            let mut out = io::BufWriter::new(io::stdout().lock());
            read_jobs().for_each(|job| job.answer().print(&mut out).unwrap());
        }
        ["census"] => census::print(read_jobs()),
        ["times", program] => timing::print(program),
        _ => panic!(
            "stored, fixed, random, rooms, points or damaged with SEED COUNT, literature, heavy, large, answers, census, or times PROGRAM"
        ),
    }
}
