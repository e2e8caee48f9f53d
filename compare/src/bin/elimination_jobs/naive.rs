//! The run once more, for tests: each rule by the shortest way, the records in use counted anew at each put.

use reference::field;
use reference::poly::{Poly, TERMS};
use reference::table::{Input, System};
use std::collections::BTreeMap;

/// Exponents from v8's to v1's: their order is that of terms.
type Monomial = [u32; 8];
type Terms = BTreeMap<Monomial, u32>;

fn terms(f: &Poly) -> Terms {
    f.terms().map(|(c, m)| (m.to_be_bytes().map(u32::from), c)).collect()
}

fn columns(f: &Terms) -> Poly {
    f.iter().rev().map(|(m, &c)| (c, u64::from_be_bytes(m.map(|e| e as u8)))).collect()
}

fn add(p: u32, f: &mut Terms, c: u32, m: Monomial) {
    let sum = field::add(p, f.get(&m).copied().unwrap_or(0), c);
    f.insert(m, sum);
    f.retain(|_, c| *c != 0);
}

fn degree(f: &Terms, at: usize) -> u32 {
    f.keys().map(|m| m[at]).max().unwrap_or(0)
}

fn product(p: u32, f: &Terms, g: &Terms) -> Result<Terms, u32> {
    if f.is_empty() || g.is_empty() {
        return Ok(Terms::new());
    }
    if (0..8).any(|at| degree(f, at) + degree(g, at) > 255) {
        return Err(10);
    }
    let mut product = Terms::new();
    for (a, &c) in f {
        for (b, &d) in g {
            add(p, &mut product, field::mul(p, c, d), std::array::from_fn(|at| a[at] + b[at]));
        }
    }
    if product.len() > TERMS {
        Err(9)
    } else {
        Ok(product)
    }
}

/// The terms with vk^e without it, `at` being vk's place.
fn coefficient(f: &Terms, at: usize, e: u32) -> Terms {
    let without = |mut m: Monomial| {
        m[at] = 0;
        m
    };
    f.iter().filter(|(m, _)| m[at] == e).map(|(m, &c)| (without(*m), c)).collect()
}

fn remainder(p: u32, at: usize, t: &Terms, g: &Terms) -> Result<Terms, u32> {
    let d = degree(t, at);
    let initial = coefficient(t, at, d);
    let mut r = g.clone();
    while degree(&r, at) >= d {
        let e = degree(&r, at);
        let mut l = Terms::new();
        for (mut m, c) in coefficient(&r, at, e) {
            m[at] = e - d;
            l.insert(m, c);
        }
        let mut difference = product(p, &initial, &r)?;
        for (m, c) in product(p, &l, t)? {
            add(p, &mut difference, p - c, m);
        }
        if difference.len() > TERMS {
            return Err(9);
        }
        r = difference;
    }
    Ok(r)
}

#[derive(Clone, Default)]
struct Branch {
    p: Vec<Terms>,
    q: Vec<Terms>,
    t: Vec<Terms>,
}

fn records(branch: &Branch) -> usize {
    1 + [&branch.p, &branch.q, &branch.t].iter().flat_map(|list| list.iter()).map(|f| 1 + f.len()).sum::<usize>()
}

fn one() -> Terms {
    Terms::from([([0; 8], 1)])
}

/// What is put, or nothing.
fn put(p: u32, list: &mut Vec<Terms>, f: &Terms, dropped: &Terms) {
    let first = f.last_key_value().map_or(1, |(_, &c)| c);
    let monic: Terms = f.iter().map(|(&m, &c)| (m, field::mul(p, c, field::inverse(p, first)))).collect();
    if monic != *dropped && !list.contains(&monic) {
        list.push(monic);
    }
}

/// The place in a monomial of the leading variable, which is the lowest place used; 8 if there is none.
fn leader(f: &Terms) -> usize {
    (0..8).find(|&at| degree(f, at) > 0).unwrap_or(8)
}

struct Run {
    p: u32,
    room: usize,
    waiting: Vec<Branch>,
    systems: Vec<Branch>,
}

impl Run {
    /// 11 if what is live, with these records besides, is over the room.
    fn within(&self, besides: usize) -> Result<(), u32> {
        let live = self.waiting.iter().chain(&self.systems).map(records).sum::<usize>() + besides;
        if live > self.room {
            Err(11)
        } else {
            Ok(())
        }
    }

    fn split(&mut self, mut b: Branch, pivot: usize, initial: &Terms, rest: &Terms) -> Result<(), u32> {
        let mut aside = b.clone();
        put(self.p, &mut b.q, initial, &one());
        aside.p.remove(pivot);
        put(self.p, &mut aside.p, initial, &Terms::new());
        put(self.p, &mut aside.p, rest, &Terms::new());
        self.within(records(&b) + records(&aside))?;
        self.waiting.extend([aside, b]);
        Ok(())
    }

    fn step(&mut self) -> Result<(), u32> {
        let mut b = self.waiting.pop().unwrap();
        if b.p.contains(&one()) || b.q.contains(&Terms::new()) {
            return Ok(());
        }
        if b.p.is_empty() {
            self.systems.push(b);
            return Ok(());
        }
        let at = b.p.iter().map(leader).min().unwrap();
        let mut led: Vec<usize> = (0..b.p.len()).filter(|&i| leader(&b.p[i]) == at).collect();
        led.sort_by_key(|&i| (degree(&b.p[i], at), b.p[i].len()));
        let pivot = b.p[led[0]].clone();
        let d = degree(&pivot, at);
        let initial = coefficient(&pivot, at, d);
        if initial != one() && !b.q.contains(&initial) {
            let rest = pivot.into_iter().filter(|(m, _)| m[at] != d).collect();
            return self.split(b, led[0], &initial, &rest);
        }
        if let Some(&other) = led[1..].iter().min() {
            let g = b.p.remove(other);
            let r = remainder(self.p, at, &pivot, &g)?;
            put(self.p, &mut b.p, &r, &Terms::new());
            self.within(records(&b))?;
            self.waiting.push(b);
            return Ok(());
        }
        b.p.remove(led[0]);
        b.t.insert(0, pivot.clone());
        let mut old = std::mem::take(&mut b.q);
        while !old.is_empty() {
            let r = remainder(self.p, at, &pivot, &old.remove(0))?;
            put(self.p, &mut b.q, &r, &one());
            self.within(records(&b) + old.iter().map(|f| 1 + f.len()).sum::<usize>())?;
        }
        self.waiting.push(b);
        Ok(())
    }
}

/// The steps, and the systems or the refusal's number.
pub fn run(input: &Input, room: usize, limit: u32) -> (u32, Result<Vec<System>, u32>) {
    let mut first = Branch::default();
    input.zeros.iter().for_each(|f| put(input.p, &mut first.p, &terms(f), &Terms::new()));
    input.nonzeros.iter().for_each(|f| put(input.p, &mut first.q, &terms(f), &one()));
    let mut run = Run { p: input.p, room, waiting: vec![first], systems: Vec::new() };
    if let Err(number) = run.within(0) {
        return (0, Err(number));
    }
    let mut steps = 0;
    while !run.waiting.is_empty() {
        if steps == limit {
            return (steps, Err(12));
        }
        if let Err(number) = run.step() {
            return (steps, Err(number));
        }
        steps += 1;
    }
    let list = |list: &Vec<Terms>| list.iter().map(columns).collect();
    (steps, Ok(run.systems.iter().map(|s| System { t: list(&s.t), u: list(&s.q) }).collect()))
}

#[test]
fn both_runs_agree() {
    use crate::{bounds, damaged, fixed, literature, random, rooms};
    use reference::table;
    let mut stated = fixed::Jobs::default();
    bounds::jobs(&mut stated);
    let families = [stated.0, random::jobs(99, 4000), rooms::jobs(99, 4000), damaged::jobs(99, 500), literature::jobs()];
    let mut compared = 0;
    for job in families.into_iter().flatten() {
        let Ok(input) = table::read(&job.table) else { continue };
        let answer = job.answer();
        // This run is slow: long ones are left out.
        if answer.steps > 150 {
            continue;
        }
        let (steps, ended) = run(&input, (job.work / 4).min(65536).saturating_sub(1), job.limit);
        compared += 1;
        assert_eq!(steps, answer.steps);
        match ended {
            Err(number) => assert_eq!((number, 0), answer.outcome),
            Ok(systems) if answer.outcome.0 == 0 => {
                assert_eq!(table::read_list(&answer.output[..job.output / 4 * 4]).unwrap().systems, systems)
            }
            Ok(_) => assert_eq!(answer.outcome, (13, 0)),
        }
    }
    assert!(compared > 8000, "{compared}");
}
