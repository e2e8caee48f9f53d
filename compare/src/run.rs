//! The run and the written list.

use crate::poly::{self, Over, Poly};
use crate::table::{self, Input, Refusal};
use std::rc::Rc;

/// A polynomial with a hash of its terms, so that most unequal ones are told apart at once.
struct Member {
    hash: u64,
    poly: Poly,
}

type Shared = Rc<Member>;

fn shared(poly: Poly) -> Shared {
    let mut hash = poly.len() as u64;
    for (c, m) in poly.terms() {
        hash = (hash ^ m).wrapping_mul(0x9e37_79b9_7f4a_7c15).rotate_left(29) ^ c as u64;
    }
    Rc::new(Member { hash, poly })
}

fn holds(list: &[Shared], f: &Shared) -> bool {
    list.iter().any(|g| g.hash == f.hash && g.poly == f.poly)
}

/// The records that a list takes.
fn size(list: &[Shared]) -> usize {
    list.iter().map(|f| 1 + f.poly.len()).sum()
}

/// P, Q and T of document 01.
#[derive(Clone, Default)]
struct Branch {
    zeros: Vec<Shared>,
    nonzeros: Vec<Shared>,
    triangle: Vec<Shared>,
}

impl Branch {
    fn size(&self) -> usize {
        1 + size(&self.zeros) + size(&self.nonzeros) + size(&self.triangle)
    }

    /// Whether rule 1 drops it.
    fn is_contradictory(&self) -> bool {
        self.zeros.iter().any(|f| f.poly.is_one()) || self.nonzeros.iter().any(|f| f.poly.is_empty())
    }

    /// The places in P of the polynomials led by v(k+1).
    fn led(&self, k: u32) -> impl Iterator<Item = usize> + '_ {
        (0..self.zeros.len()).filter(move |&i| self.zeros[i].poly.leader() == k + 1)
    }

    /// k for the highest leading variable v(k+1), and the pivot's place in P; none if P is empty.
    fn pivot(&self) -> Option<(u32, usize)> {
        let k = self.zeros.iter().map(|f| f.poly.leader()).max()? - 1;
        let degree_and_terms = |&i: &usize| {
            let f = &self.zeros[i].poly;
            (poly::exponent(f.m[0], k), f.len())
        };
        Some((k, self.led(k).min_by_key(degree_and_terms)?))
    }
}

/// The prime, the records in use, and how many may be.
struct Store {
    p: u32,
    live: usize,
    room: usize,
}

impl Store {
    fn take(&mut self, records: usize) -> Result<(), u32> {
        self.live += records;
        if self.live > self.room {
            return Err(11);
        }
        Ok(())
    }

    fn put(&mut self, list: &mut Vec<Shared>, f: Poly, dropped: fn(&Poly) -> bool) -> Result<(), u32> {
        let f = f.monic(self.p);
        if dropped(&f) {
            return Ok(());
        }
        let f = shared(f);
        if holds(list, &f) {
            return Ok(());
        }
        self.take(1 + f.poly.len())?;
        list.push(f);
        Ok(())
    }

    fn put_zero(&mut self, branch: &mut Branch, f: Poly) -> Result<(), u32> {
        self.put(&mut branch.zeros, f, Poly::is_empty)
    }

    fn put_nonzero(&mut self, branch: &mut Branch, f: Poly) -> Result<(), u32> {
        self.put(&mut branch.nonzeros, f, Poly::is_one)
    }

    /// The remainder of g by the pivot in v(k+1); g is freed then.
    fn replaced(&mut self, k: u32, pivot: &Shared, g: Shared) -> Result<Poly, u32> {
        let r = poly::remainder(self.p, k, &pivot.poly, &g.poly)?;
        self.live -= 1 + g.poly.len();
        Ok(r)
    }
}

impl From<Over> for u32 {
    fn from(over: Over) -> u32 {
        match over {
            Over::Degree => 10,
            Over::Terms => 9,
        }
    }
}

/// A run under way. Errors of its functions are the numbers of refusals.
struct Run {
    store: Store,
    /// The last one is open.
    branches: Vec<Branch>,
    systems: Vec<Branch>,
}

impl Run {
    fn start(&mut self, input: Input) -> Result<(), u32> {
        let mut first = Branch::default();
        self.store.take(1)?;
        for f in input.zeros {
            self.store.put_zero(&mut first, f)?;
        }
        for f in input.nonzeros {
            self.store.put_nonzero(&mut first, f)?;
        }
        self.branches.push(first);
        Ok(())
    }

    /// Applies the first rule that fits the open branch.
    fn step(&mut self) -> Result<(), u32> {
        let open = self.branches.last_mut().unwrap();
        if open.is_contradictory() {
            self.store.live -= open.size();
            self.branches.pop();
            return Ok(());
        }
        let Some((k, place)) = open.pivot() else {
            self.systems.extend(self.branches.pop());
            return Ok(());
        };
        let pivot = open.zeros[place].clone();
        // Its first coefficient is the pivot's, which is 1.
        let initial = pivot.poly.initial(k);
        if !initial.is_one() {
            let initial = shared(initial);
            if !holds(&open.nonzeros, &initial) {
                return self.split(k, place, initial);
            }
        }
        let other = open.led(k).find(|&i| i != place);
        if let Some(i) = other {
            let g = open.zeros.remove(i);
            let r = self.store.replaced(k, &pivot, g)?;
            return self.store.put_zero(open, r);
        }
        open.triangle.insert(0, open.zeros.remove(place));
        for g in std::mem::take(&mut open.nonzeros) {
            let r = self.store.replaced(k, &pivot, g)?;
            self.store.put_nonzero(open, r)?;
        }
        Ok(())
    }

    /// Rule 3: the branch set aside waits under the open one.
    fn split(&mut self, k: u32, place: usize, initial: Shared) -> Result<(), u32> {
        let mut open = self.branches.pop().unwrap();
        let mut aside = open.clone();
        self.store.take(1 + initial.poly.len())?;
        open.nonzeros.push(initial.clone());
        let pivot = aside.zeros.remove(place);
        self.store.take(aside.size())?;
        self.store.put_zero(&mut aside, initial.poly.clone())?;
        self.store.put_zero(&mut aside, pivot.poly.rest(k))?;
        self.branches.extend([aside, open]);
        Ok(())
    }

    /// The steps, and how the run ends.
    fn run(&mut self, input: Input, limit: u32) -> (u32, Result<(), u32>) {
        if let Err(number) = self.start(input) {
            return (0, Err(number));
        }
        let mut steps = 0;
        while !self.branches.is_empty() {
            if steps == limit {
                return (steps, Err(12));
            }
            if let Err(number) = self.step() {
                return (steps, Err(number));
            }
            steps += 1;
        }
        (steps, Ok(()))
    }
}

/// The steps, and the count of systems or the refusal.
#[derive(Clone, Copy, Debug, PartialEq, Eq)]
pub struct Answer {
    pub steps: u32,
    pub outcome: Result<u32, Refusal>,
}

/// Eliminates a table. The work area only lends its room, and is cleared.
pub fn eliminate(words: &[u32], work: &mut [u32], out: &mut [u32], limit: u32) -> Answer {
    let answer = eliminate_into(words, work.len(), out, limit);
    work.fill(0);
    answer
}

fn eliminate_into(words: &[u32], work: usize, out: &mut [u32], limit: u32) -> Answer {
    let input = match table::read(words) {
        Ok(input) => input,
        Err(refusal) => return Answer { steps: 0, outcome: Err(refusal) },
    };
    let (p, n) = (input.p, input.n);
    let room = (work / 4).min(65536).saturating_sub(1);
    let mut run = Run { store: Store { p, live: 0, room }, branches: Vec::new(), systems: Vec::new() };
    let (steps, ended) = run.run(input, limit);
    let refused = |number| Answer { steps, outcome: Err(Refusal { number, record: 0 }) };
    if let Err(number) = ended {
        return refused(number);
    }
    let records = 1 + run.systems.iter().map(Branch::size).sum::<usize>();
    if records > out.len() / 4 {
        return refused(13);
    }
    write(p, n, &run.systems, out);
    Answer { steps, outcome: Ok(run.systems.len() as u32) }
}

/// Writes records one after another.
struct Writer<'a> {
    out: &'a mut [u32],
    next: usize,
}

impl Writer<'_> {
    fn record(&mut self, words: [u32; 4]) -> usize {
        let at = self.next;
        self.out[4 * at..4 * at + 4].copy_from_slice(&words);
        self.next += 1;
        at
    }

    /// Lets word j of a record lead to the next one.
    fn link(&mut self, at: usize, j: usize) {
        self.out[4 * at + j] = self.next as u32;
    }

    /// The heads, each followed by its terms, as a chain from word j of a record.
    fn chain(&mut self, mut at: usize, mut j: usize, list: &[Shared]) {
        for f in list {
            self.link(at, j);
            let head = self.record([0; 4]);
            let (mut last, mut word) = (head, 0);
            for (c, m) in f.poly.terms() {
                self.link(last, word);
                last = self.record([c, (m >> 32) as u32, m as u32, 0]);
                word = 3;
            }
            (at, j) = (head, 3);
        }
    }
}

fn write(p: u32, n: u32, systems: &[Branch], out: &mut [u32]) {
    let mut w = Writer { out, next: 0 };
    let mut at = w.record([p, n, 0, systems.len() as u32]);
    let mut word = 2;
    for s in systems {
        w.link(at, word);
        at = w.record([0; 4]);
        word = 3;
        w.chain(at, 0, &s.triangle);
        w.chain(at, 1, &s.nonzeros);
    }
}
