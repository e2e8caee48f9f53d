//! Term tables and lists: reading with its refusals, and points.

use crate::field;
use crate::poly::{Poly, TERMS};

#[derive(Clone, Copy, Debug, PartialEq, Eq)]
pub struct Refusal {
    pub number: u32,
    pub record: u32,
}

fn refuse<T>(number: u32, record: usize) -> Result<T, Refusal> {
    Err(Refusal { number, record: record as u32 })
}

#[derive(Clone, Debug, PartialEq, Eq)]
pub struct Input {
    pub p: u32,
    pub n: u32,
    pub zeros: Vec<Poly>,
    pub nonzeros: Vec<Poly>,
}

#[derive(Clone, Debug, PartialEq, Eq)]
pub struct System {
    pub t: Vec<Poly>,
    pub u: Vec<Poly>,
}

#[derive(Clone, Debug, PartialEq, Eq)]
pub struct List {
    pub p: u32,
    pub n: u32,
    pub systems: Vec<System>,
}

struct Reader<'a> {
    words: &'a [u32],
    p: u32,
    n: u32,
}

impl Reader<'_> {
    fn word(&self, record: usize, j: usize) -> u32 {
        self.words[4 * record + j]
    }

    /// The record that word j of `at` leads to; 0 ends the chain.
    fn follow(&self, at: usize, j: usize) -> Result<usize, Refusal> {
        let i = self.word(at, j) as usize;
        if i != 0 && (i <= at || i >= self.words.len() / 4) {
            return refuse(4, at);
        }
        Ok(i)
    }

    /// The polynomial of a head.
    fn head(&self, head: usize) -> Result<Poly, Refusal> {
        if self.word(head, 1) != 0 || self.word(head, 2) != 0 {
            return refuse(5, head);
        }
        let mut f = Poly::default();
        let mut i = self.follow(head, 0)?;
        while i != 0 {
            if f.len() == TERMS {
                return refuse(9, i);
            }
            let c = self.word(i, 0);
            if c == 0 || c >= self.p {
                return refuse(6, i);
            }
            let m = (self.word(i, 1) as u64) << 32 | self.word(i, 2) as u64;
            if self.n < 8 && m >> (8 * self.n) != 0 {
                return refuse(7, i);
            }
            if f.m.last().is_some_and(|&last| m >= last) {
                return refuse(8, i);
            }
            f.push(c, m);
            i = self.follow(i, 3)?;
        }
        Ok(f)
    }

    /// The polynomials on the chain from word j of `at`; with leading variables that rise, if asked.
    fn chain(&self, at: usize, j: usize, rising: bool) -> Result<Vec<Poly>, Refusal> {
        let mut fs: Vec<Poly> = Vec::new();
        let mut last = 0;
        let mut i = self.follow(at, j)?;
        while i != 0 {
            let f = self.head(i)?;
            if rising {
                if f.leader() <= last {
                    return refuse(15, i);
                }
                last = f.leader();
            }
            fs.push(f);
            i = self.follow(i, 3)?;
        }
        Ok(fs)
    }
}

/// The first record, which tables and lists share.
fn header(words: &[u32]) -> Result<Reader<'_>, Refusal> {
    if words.len() % 4 != 0 || words.is_empty() || words.len() > 4 * 65536 {
        return refuse(1, 0);
    }
    let (p, n) = (words[0], words[1]);
    if !field::is_prime(p) {
        return refuse(2, 0);
    }
    if !(1..=8).contains(&n) {
        return refuse(3, 0);
    }
    Ok(Reader { words, p, n })
}

pub fn read(words: &[u32]) -> Result<Input, Refusal> {
    let r = header(words)?;
    let zeros = r.chain(0, 2, false)?;
    let nonzeros = r.chain(0, 3, false)?;
    Ok(Input { p: r.p, n: r.n, zeros, nonzeros })
}

pub fn read_list(words: &[u32]) -> Result<List, Refusal> {
    let r = header(words)?;
    let mut systems = Vec::new();
    let mut i = r.follow(0, 2)?;
    while i != 0 {
        if r.word(i, 2) != 0 {
            return refuse(15, i);
        }
        let t = r.chain(i, 0, true)?;
        let u = r.chain(i, 1, false)?;
        systems.push(System { t, u });
        i = r.follow(i, 3)?;
    }
    if systems.len() as u32 != words[3] {
        return refuse(15, 0);
    }
    Ok(List { p: r.p, n: r.n, systems })
}

fn test_point(p: u32, n: u32, point: &[u32]) -> Result<(), Refusal> {
    if point.len() != n as usize || point.iter().any(|&x| x >= p) {
        return refuse(14, 0);
    }
    Ok(())
}

fn solves(p: u32, zeros: &[Poly], nonzeros: &[Poly], point: &[u32]) -> bool {
    zeros.iter().all(|f| f.value(p, point) == 0) && nonzeros.iter().all(|f| f.value(p, point) != 0)
}

pub fn try_table(words: &[u32], point: &[u32]) -> Result<bool, Refusal> {
    let t = read(words)?;
    test_point(t.p, t.n, point)?;
    Ok(solves(t.p, &t.zeros, &t.nonzeros, point))
}

pub fn try_list(words: &[u32], point: &[u32]) -> Result<u32, Refusal> {
    let list = read_list(words)?;
    test_point(list.p, list.n, point)?;
    let place = list.systems.iter().position(|s| solves(list.p, &s.t, &s.u, point));
    Ok(place.map_or(0, |i| i as u32 + 1))
}
