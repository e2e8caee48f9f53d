//! Random tables and lists, valid and damaged, with points. Chains share their ends, and records that nothing leads to lie between them.

use crate::{Job, LIST, READ, TABLE};
use reference::jobs::{all_points, batches, damaged, planted, term, Backwards, Record};
use reference::poly::{Poly, TERMS};
use reference::rng::Rng;

/// The most terms that a long polynomial is made with.
const LONG: u32 = 256;

/// A chain that was made: the link to its first record, what orders chains that may be put before it (the first term's monomial, the first head's
/// leading variable), and its length.
#[derive(Clone, Copy)]
struct Chain {
    first: u32,
    key: u64,
    len: usize,
}

struct Maker<'a> {
    rng: &'a mut Rng,
    p: u32,
    n: u32,
    /// A point that many of the polynomials vanish at.
    point: Vec<u32>,
    /// The most terms that a polynomial is made with.
    most: u32,
    records: Backwards,
    terms: Vec<Chain>,
    triangles: Vec<Chain>,
    heads: Vec<u32>,
}

impl Maker<'_> {
    /// A record with links in the given words, and now and then one that nothing leads to.
    fn record(&mut self, words: Record, links: &[usize]) -> u32 {
        if self.rng.one_in(12) {
            self.records.junk(self.rng);
        }
        self.records.record(words, links)
    }

    /// A monomial in v1 to vk.
    fn monomial(&mut self, k: u32) -> u64 {
        let bound = self.rng.pick(&[2, 2, 4, 4, 16, 256]);
        self.rng.monomial(k, bound)
    }

    /// A polynomial led by vk, if k is not 0.
    fn polynomial(&mut self, k: u32) -> Poly {
        let variables = if k == 0 { self.n } else { k };
        let mut monomials: Vec<u64> = (0..self.rng.below(self.most + 1)).map(|_| self.monomial(variables)).collect();
        if self.most == LONG && variables > 1 && self.rng.one_in(2) {
            // About as many terms as a polynomial may have, or a few too many.
            monomials = (0..252 + self.rng.below(8) as u64).collect();
        }
        if k > 0 {
            let d = self.rng.pick(&[1, 1, 2, 3, 255]);
            monomials.push(self.monomial(k - 1) | d << (8 * (k - 1)));
        }
        monomials.sort_unstable_by(|a, b| b.cmp(a));
        monomials.dedup();
        monomials.into_iter().map(|m| (1 + self.rng.below(self.p - 1), m)).collect()
    }

    /// Lays out terms before a chain.
    fn lay(&mut self, f: &Poly, end: Option<Chain>) -> u32 {
        let (mut next, mut len) = end.map_or((0, 0), |c| (c.first, c.len));
        for (c, m) in f.terms().rev() {
            next = self.record(term(c, m, next), &[3]);
            len += 1;
            self.terms.push(Chain { first: next, key: m, len });
        }
        next
    }

    /// A polynomial led by vk, if k is not 0: perhaps with an earlier one's last terms; else, mostly if `zero` says so, with the constant
    /// that makes it vanish at the point.
    fn terms(&mut self, k: u32, zero: bool) -> u32 {
        let mut f = self.polynomial(k);
        if !self.terms.is_empty() && self.rng.one_in(3) {
            let end = self.rng.pick(&self.terms);
            let above = f.m.iter().take_while(|&&m| m > end.key).count();
            if above + end.len <= TERMS && (k == 0 || above > 0) {
                f.truncate(above);
                return self.lay(&f, Some(end));
            }
        }
        if f.len() < TERMS && zero != self.rng.one_in(8) {
            f = planted(self.p, f, &self.point);
        }
        self.lay(&f, None)
    }

    fn head(&mut self, k: u32, zero: bool, next: u32) -> u32 {
        let first = self.terms(k, zero);
        let head = self.record([first, 0, 0, next], &[0, 3]);
        self.heads.push(head);
        head
    }

    /// A chain of heads, perhaps with an earlier chain's end.
    fn chain(&mut self, zero: bool) -> u32 {
        let mut next = if !self.heads.is_empty() && self.rng.one_in(5) { self.rng.pick(&self.heads) } else { 0 };
        for _ in 0..self.rng.pick(&[0, 1, 1, 2, 3]) {
            next = self.head(0, zero, next);
        }
        next
    }

    /// A chain of heads with rising leading variables, perhaps with an earlier one's end.
    fn triangle(&mut self, zero: bool) -> u32 {
        let (mut next, mut above) = (0, self.n as u64 + 1);
        if !self.triangles.is_empty() && self.rng.one_in(3) {
            Chain { first: next, key: above, .. } = self.rng.pick(&self.triangles);
        }
        for k in (1..above as u32).rev() {
            if self.rng.one_in(2) {
                next = self.head(k, zero, next);
                self.triangles.push(Chain { first: next, key: k as u64, len: 0 });
            }
        }
        next
    }

    fn table(&mut self) {
        let nonzeros = self.chain(false);
        let zeros = self.chain(true);
        self.records.record([self.p, self.n, zeros, nonzeros], &[2, 3]);
    }

    fn list(&mut self) {
        let (mut next, count) = (0, self.rng.below(5));
        for _ in 0..count {
            let nonzeros = self.chain(false);
            let zero = self.rng.one_in(2);
            let triangle = self.triangle(zero);
            next = self.record([triangle, nonzeros, 0, next], &[0, 1, 3]);
        }
        self.records.record([self.p, self.n, next, count], &[2]);
    }

    /// The words, with junk after them.
    fn words(self) -> Vec<u32> {
        let mut words = self.records.words();
        (0..4 * self.rng.pick(&[0, 0, 0, 1, 2])).for_each(|_| words.push(self.rng.below(9)));
        words
    }
}

/// The jobs of one random table or list: the point planted, others, none at all, and the same damaged.
fn batch(rng: &mut Rng) -> Vec<Job> {
    let (p, n) = (rng.prime(), 1 + rng.below(8));
    let point = rng.point(p, n);
    let most = if rng.one_in(40) { LONG } else { rng.pick(&[1, 2, 4, 8]) };
    let kind = rng.pick(&[TABLE, LIST]);
    let (records, terms, triangles, heads) = Default::default();
    let mut maker = Maker { rng, p, n, point: point.clone(), most, records, terms, triangles, heads };
    if kind == TABLE {
        maker.table()
    } else {
        maker.list()
    }
    let words = maker.words();
    let mut points = all_points(p, n, 64);
    points.extend([point.clone(), rng.point(p, n), rng.no_point(p, n)]);
    let mut jobs: Vec<Job> = points.into_iter().map(|point| Job { kind, table: words.clone(), point }).collect();
    jobs.push(Job { kind: READ, table: words.clone(), point: Vec::new() });
    for _ in 0..12 {
        let table = damaged(rng, &words);
        let point = if rng.one_in(8) { rng.no_point(p, n) } else { point.clone() };
        jobs.push(Job { kind, table, point });
    }
    jobs
}

pub fn jobs(seed: u32, count: u32) -> Vec<Job> {
    batches(seed, count, batch)
}
