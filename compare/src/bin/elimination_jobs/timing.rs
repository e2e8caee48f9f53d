//! Times the elimination of this package and the proved one, by the program `elimination_bench`, on the same jobs.
//!
//! Both sides are timed alike: by the processor's clock, which is C's `clock`, with as many calls for a job in as many batches; the time of a
//! job is the best mean of a batch, in two passes by turns. How many calls there are is found here: they take some 10 ms.

use crate::{fixed, heavy, literature, random, Job};
use reference::run::eliminate;
use reference::words::{bytes, with_count};
use std::collections::HashSet;
use std::ffi::c_long;
use std::io::{Read, Write};
use std::ops::Range;
use std::process::{Command, Stdio};

/// As in `crates/elimination_bench/src/timing.rt`.
const BATCHES: u32 = 16;

extern "C" {
    fn clock() -> c_long;
}

/// The processor time used so far, in microseconds.
fn now() -> u64 {
    // `clock` takes nothing and may be called at any time.
    unsafe { clock() }.try_into().unwrap()
}

/// A job and its best times so far, in nanoseconds: of this package and of the proved program.
struct Timed {
    /// Its place among the jobs of its set, from 1.
    place: usize,
    job: Job,
    calls: u32,
    here: u64,
    proved: u64,
}

/// Calls in the same areas: the microseconds of so many.
fn batches(job: &Job) -> impl FnMut(u32) -> u64 + '_ {
    let (mut work, mut output) = (vec![0; job.work], vec![0; job.output]);
    move |calls| {
        let before = now();
        for _ in 0..calls {
            eliminate(&job.table, &mut work, &mut output, job.limit);
        }
        now() - before
    }
}

/// How many calls take some 10 ms; at least five.
fn calls(job: &Job) -> u32 {
    let mut batch = batches(job);
    let (mut calls, mut time) = (1, batch(1));
    while time < 1000 && calls < 1 << 16 {
        calls *= 2;
        time = batch(calls);
    }
    let wanted = 10_000 * calls as u64 / time.max(1);
    (wanted as u32).clamp(5, 1 << 17)
}

impl Timed {
    fn new((i, job): (usize, Job)) -> Timed {
        let calls = calls(&job);
        Timed { place: i + 1, job, calls, here: u64::MAX, proved: u64::MAX }
    }

    fn time_here(&mut self) {
        let count = self.calls.min(BATCHES);
        let each = self.calls / count;
        let mut batch = batches(&self.job);
        for _ in 0..count {
            self.here = self.here.min(1000 * batch(each) / each as u64);
        }
    }

    /// A line of the program: the best and the mean time, the steps, and 0 or the refusal's number.
    fn time_proved(&mut self, line: &str) {
        let numbers: Vec<u64> = line.split(' ').map(|word| word.parse().unwrap()).collect();
        let answer = self.job.answer();
        assert_eq!(numbers[2..], [answer.steps as u64, answer.outcome.0 as u64], "job {}", self.place);
        self.proved = self.proved.min(numbers[0]);
    }

    fn ratio(&self) -> f64 {
        self.proved.max(1) as f64 / self.here.max(1) as f64
    }
}

/// Runs the program on all jobs.
fn time_proved(program: &str, jobs: &mut [Timed]) {
    let mut child = Command::new(program).stdin(Stdio::piped()).stdout(Stdio::piped()).spawn().unwrap();
    let mut input = Vec::new();
    for Timed { job, calls, .. } in jobs.iter() {
        let head = [job.limit, job.work as u32, job.output as u32, *calls];
        input.extend(bytes(head.into_iter().chain(with_count(&job.table))));
    }
    let mut stdin = child.stdin.take().unwrap();
    let writer = std::thread::spawn(move || stdin.write_all(&input).unwrap());
    let mut text = String::new();
    child.stdout.take().unwrap().read_to_string(&mut text).unwrap();
    writer.join().unwrap();
    assert!(child.wait().unwrap().success());
    assert_eq!(text.lines().count(), jobs.len(), "a line for each job");
    jobs.iter_mut().zip(text.lines()).for_each(|(timed, line)| timed.time_proved(line));
}

/// The jobs of a set, timed: of those with the same table the first.
fn timed(program: &str, jobs: Vec<Job>) -> Vec<Timed> {
    let mut seen = HashSet::new();
    let first = jobs.into_iter().enumerate().filter(|(_, job)| seen.insert(job.table.clone()));
    let mut jobs: Vec<Timed> = first.map(Timed::new).collect();
    for _ in 0..2 {
        jobs.iter_mut().for_each(Timed::time_here);
        time_proved(program, &mut jobs);
    }
    jobs
}

/// A row for a set: the sums of the times, the geometric mean of the ratios, the least and the greatest. The jobs are by rising ratio.
fn print_set(name: &str, jobs: &[&Timed]) {
    let mean = (jobs.iter().map(|timed| timed.ratio().ln()).sum::<f64>() / jobs.len() as f64).exp();
    let sum = |time: fn(&Timed) -> u64| jobs.iter().map(|timed| time(timed)).sum::<u64>() as f64 / 1e6;
    let (proved, here) = (sum(|timed| timed.proved), sum(|timed| timed.here));
    let (least, greatest) = (jobs[0].ratio(), jobs[jobs.len() - 1].ratio());
    println!("| {name} | {} | {proved:.2} | {here:.2} | {mean:.2} | {least:.2} to {greatest:.2} |", jobs.len());
}

fn row(name: &str, timed: &Timed) -> String {
    let Timed { place, job, .. } = timed;
    let answer = job.answer();
    let (proved, here) = (timed.proved as f64 / 1000.0, timed.here as f64 / 1000.0);
    let times = format!("{:.2} | {proved:.2} | {here:.2}", timed.ratio());
    let word = |i: usize| job.table.get(i).map_or("none".to_string(), u32::to_string);
    let (p, n, records, work) = (word(0), word(1), job.table.len() / 4, job.work / 4);
    format!("| {name} | {place} | {times} | {p} | {n} | {records} | {work} | {} | {} |", answer.steps, answer.outcome.0)
}

/// The parts of a set between bounds in microseconds: their names, and the nanoseconds of their jobs.
fn parts(set: &str, bounds: &[u64]) -> Vec<(String, Range<u64>)> {
    let all = [&[0], bounds, &[u64::MAX / 1000]].concat();
    let name = |from: u64, to: u64| match (from == 0, to == u64::MAX / 1000) {
        (true, true) => set.to_string(),
        (true, false) => format!("{set}, under {to} µs"),
        (false, true) => format!("{set}, over {from} µs"),
        (false, false) => format!("{set}, {from} to {to} µs"),
    };
    all.windows(2).map(|ends| (name(ends[0], ends[1]), 1000 * ends[0]..1000 * ends[1])).collect()
}

/// Each set in parts by the time of a job here: a table of the parts, and one of the five jobs with the greatest ratios in each.
pub fn print(program: &str) {
    let sets: [(&str, Vec<Job>, &[u64]); 4] = [
        ("document 01 and other fixed jobs", fixed::jobs(), &[2]),
        ("random", random::jobs(1, 3000), &[10, 100]),
        ("literature and linkages", literature::jobs(), &[100]),
        ("long runs", heavy::jobs(), &[]),
    ];
    let mut greatest = Vec::new();
    println!("| set | jobs | proved, ms | Rust, ms | ratio | from, to |\n|---|---|---|---|---|---|");
    for (set, jobs, bounds) in sets {
        let jobs = timed(program, jobs);
        for (name, range) in parts(set, bounds) {
            let mut part: Vec<&Timed> = jobs.iter().filter(|timed| range.contains(&timed.here)).collect();
            part.sort_by(|a, b| a.ratio().total_cmp(&b.ratio()));
            if !part.is_empty() {
                print_set(&name, &part);
                greatest.extend(part.iter().rev().take(5).map(|timed| row(&name, timed)));
            }
        }
    }
    println!("\n| set | job | ratio | proved, µs | Rust, µs | p | n | records | work area | steps | outcome |");
    println!("|---|---|---|---|---|---|---|---|---|---|---|\n{}", greatest.join("\n"));
}
