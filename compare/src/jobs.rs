//! What jobs are made of: tables, straight, record by record, edited and damaged; points; random batches.

use crate::poly::{Poly, TERMS};
use crate::rng::Rng;
use crate::table::{Input, Refusal};

pub type Record = [u32; 4];

/// Modulo 7, two variables: P = v1 v2 + 6, 2 v1^2 + 3 v1; Q = v1 + 4. The one solution is (2, 4).
pub const INPUT: [Record; 10] = [
    [7, 2, 1, 7],
    [2, 0, 0, 4],
    [1, 0, 257, 3],
    [6, 0, 0, 0],
    [5, 0, 0, 0],
    [2, 0, 2, 6],
    [3, 0, 1, 0],
    [8, 0, 0, 0],
    [1, 0, 1, 9],
    [4, 0, 0, 0],
];

/// A record, one of its words, and what is put there.
pub type Edit = (usize, usize, u32);

pub fn edited(records: &[Record], edits: &[Edit]) -> Vec<u32> {
    let mut records = records.to_vec();
    for &(record, word, value) in edits {
        records[record][word] = value;
    }
    records.concat()
}

/// A call's outcome, 0 or the refusal's number, and its value or the refusal's record.
pub type Outcome = (u32, u32);

pub fn outcome(result: Result<u32, Refusal>) -> Outcome {
    match result {
        Ok(value) => (0, value),
        Err(Refusal { number, record }) => (number, record),
    }
}

/// The monomial vk^e.
pub fn power(k: u32, e: u32) -> u64 {
    (e as u64) << (8 * (k - 1))
}

pub fn term(c: u32, m: u64, next: u32) -> Record {
    [c, (m >> 32) as u32, m as u32, next]
}

/// Records before a chain of terms, the first in the record after them; each term is the monomial of its number, falling to 1.
pub fn with_terms(before: &[Record], count: u32) -> Vec<Record> {
    let mut records = before.to_vec();
    for m in (0..count).rev() {
        let next = if m == 0 { 0 } else { records.len() as u32 + 1 };
        records.push(term(1, m as u64, next));
    }
    records
}

/// The header, then P's heads and Q's, each followed by its terms.
pub fn straight(input: &Input) -> Vec<u32> {
    let mut words = vec![input.p, input.n, 0, 0];
    for (mut link, list) in [(2, &input.zeros), (3, &input.nonzeros)] {
        for f in list {
            let head = words.len();
            words[link] = head as u32 / 4;
            words.extend([0; 4]);
            link = head;
            for (c, m) in f.terms() {
                words[link] = words.len() as u32 / 4;
                link = words.len() + 3;
                words.extend(term(c, m, 0));
            }
            link = head + 3;
        }
    }
    words
}

/// A term: a coefficient and the exponents of v1, v2, ..
pub type Term<'a> = (u32, &'a [u32]);

/// The words of a table with these polynomials.
pub fn table(p: u32, n: u32, zeros: &[&[Term]], nonzeros: &[&[Term]]) -> Vec<u32> {
    let monomial = |exponents: &[u32]| exponents.iter().rev().fold(0, |m, &e| m << 8 | e as u64);
    let list = |list: &[&[Term]]| list.iter().map(|f| f.iter().map(|&(c, e)| (c, monomial(e))).collect()).collect();
    straight(&Input { p, n, zeros: list(zeros), nonzeros: list(nonzeros) })
}

/// Records made from the last to the first, so that a record can lead to any made before it. A link is one more than the place here of the
/// record that it leads to; 0 leads to none.
#[derive(Default)]
pub struct Backwards {
    records: Vec<Record>,
    /// The words that are links.
    links: Vec<(usize, usize)>,
}

impl Backwards {
    /// Makes a record with links in the given words, and gives the link that leads to it.
    pub fn record(&mut self, words: Record, links: &[usize]) -> u32 {
        self.links.extend(links.iter().map(|&j| (self.records.len(), j)));
        self.records.push(words);
        self.records.len() as u32
    }

    /// Makes a record that nothing leads to.
    pub fn junk(&mut self, rng: &mut Rng) {
        self.record([rng.draw() as u32, rng.below(3), rng.below(2), rng.below(20)], &[]);
    }

    /// The words, with the records the right way round.
    pub fn words(mut self) -> Vec<u32> {
        let count = self.records.len() as u32;
        for (i, j) in self.links {
            let link = &mut self.records[i][j];
            *link = if *link == 0 { 0 } else { count - *link };
        }
        self.records.into_iter().rev().flatten().collect()
    }
}

/// f with another constant, so that it vanishes at the point; as it is where it has no room for that.
pub fn planted(p: u32, mut f: Poly, point: &[u32]) -> Poly {
    if f.m.last() == Some(&0) {
        f.truncate(f.len() - 1);
    }
    let v = f.value(p, point);
    if v != 0 && f.len() < TERMS {
        f.push(p - v, 0);
    }
    f
}

/// The words with one changed, or some cut or added; perhaps so again.
pub fn damaged(rng: &mut Rng, words: &[u32]) -> Vec<u32> {
    let mut words = words.to_vec();
    (0..rng.pick(&[1, 1, 1, 2, 3])).for_each(|_| damage(rng, &mut words));
    words
}

/// Changes one word, or cuts or adds some.
fn damage(rng: &mut Rng, words: &mut Vec<u32>) {
    if rng.one_in(20) {
        let len = words.len() as u32 + 5 - rng.below(10).min(words.len() as u32);
        words.resize(len as usize, 0);
    }
    if words.is_empty() {
        return;
    }
    let (count, p) = (words.len() as u32 / 4, words[0]);
    let i = rng.below(words.len() as u32) as usize;
    let own = i as u32 / 4;
    words[i] = match rng.below(10) {
        0 => rng.pick(&[0, 1, 256, 65536, 1 << 24, 1 << 31, u32::MAX]),
        1 => rng.pick(&[p, p.wrapping_sub(1), p.wrapping_add(1)]),
        2 => rng.pick(&[count, count.wrapping_sub(1), own, own + 1]),
        3 | 4 => rng.below(count + 1),
        5 => words[i].wrapping_add(1),
        6 => words[i].wrapping_sub(1),
        7 => words[i] ^ 1 << rng.below(32),
        8 => rng.pick(words),
        _ => rng.draw() as u32,
    };
}

/// Every point, if there are no more than `most`; else none.
pub fn all_points(p: u32, n: u32, most: u64) -> Vec<Vec<u32>> {
    let count = (p as u64).saturating_pow(n);
    if count > most {
        return Vec::new();
    }
    (0..count as u32).map(|i| (0..n).map(|k| i / p.pow(k) % p).collect()).collect()
}

/// So many jobs from random batches.
pub fn batches<J>(seed: u32, count: u32, mut batch: impl FnMut(&mut Rng) -> Vec<J>) -> Vec<J> {
    let mut rng = Rng(seed as u64);
    let mut jobs = Vec::new();
    while jobs.len() < count as usize {
        jobs.extend(batch(&mut rng));
    }
    jobs.truncate(count as usize);
    jobs
}

#[cfg(test)]
mod tests {
    use super::*;
    use crate::run::{eliminate, Answer};
    use crate::table::read_list;

    fn run(words: &[u32], room: usize, limit: u32) -> (Answer, Vec<u32>) {
        let mut out = vec![9; 4 * 4096];
        let answer = eliminate(words, &mut vec![5; 4 * (room + 1)], &mut out, limit);
        (answer, out)
    }

    fn answer(words: &[u32]) -> (u32, Result<u32, Refusal>) {
        let (a, _) = run(words, 4095, 100_000);
        (a.steps, a.outcome)
    }

    fn refused(number: u32) -> Result<u32, Refusal> {
        Err(Refusal { number, record: 0 })
    }

    #[test]
    fn jobs_of_document_01() {
        let unit: &[Term] = &[(1, &[1, 1]), (6, &[])];
        assert_eq!(answer(&table(7, 2, &[], &[])), (1, Ok(1)));
        assert_eq!(run(&table(7, 2, &[], &[]), 4095, 0).0, Answer { steps: 0, outcome: refused(12) });
        assert_eq!(answer(&table(7, 2, &[&[(3, &[])]], &[])), (1, Ok(0)));
        assert_eq!(answer(&table(7, 2, &[], &[&[]])), (1, Ok(0)));
        assert_eq!(answer(&table(7, 2, &[&[(1, &[1])]], &[&[(1, &[1])]])), (2, Ok(0)));
        assert_eq!(answer(&table(7, 2, &[unit], &[])), (4, Ok(1)));
        assert_eq!(run(&table(7, 2, &[unit], &[]), 10, 100).0, Answer { steps: 0, outcome: refused(11) });
        assert_eq!(run(&table(7, 2, &[unit], &[]), 11, 100).0, Answer { steps: 4, outcome: Ok(1) });
        assert_eq!(answer(&table(7, 1, &[&[(1, &[2]), (6, &[])], &[(1, &[2]), (1, &[1]), (5, &[])]], &[])), (4, Ok(1)));
        assert_eq!(answer(&table(2, 1, &[&[(1, &[2]), (1, &[1]), (1, &[])]], &[])), (2, Ok(1)));
        let three: [&[Term]; 3] = [&[(1, &[2]), (6, &[1])], unit, &[(1, &[1, 0, 1]), (6, &[0, 0, 1]), (1, &[0, 1])]];
        assert_eq!(answer(&table(7, 3, &three, &[])), (9, Ok(1)));
        assert_eq!(answer(&table(7, 2, &[&[(1, &[200, 1]), (1, &[])], &[(1, &[55, 1]), (1, &[])]], &[])), (6, Ok(1)));
        assert_eq!(answer(&table(7, 2, &[&[(1, &[200, 1]), (1, &[])], &[(1, &[56, 1]), (1, &[])]], &[])), (1, refused(10)));
        for p in [1, 9, 2147483648] {
            assert_eq!(answer(&table(p, 2, &[], &[])), (0, refused(2)));
        }
        for p in [2, 2147483647] {
            assert_eq!(answer(&table(p, 2, &[], &[])), (1, Ok(1)));
        }
    }

    #[test]
    fn printed_job() {
        let (_, out) = run(&[7, 2, 1, 0, 2, 0, 0, 0, 1, 0, 257, 3, 6, 0, 0, 0], 4095, 100_000);
        let list = [7, 2, 1, 1, 2, 5, 0, 0, 3, 0, 0, 0, 1, 0, 257, 4, 6, 0, 0, 0, 6, 0, 0, 0, 1, 0, 1, 0];
        assert_eq!(out[..28], list);
        assert!(out[28..].iter().all(|&w| w == 9));
        assert_eq!(read_list(&list).unwrap().systems.len(), 1);
    }
}
