//! Inputs as tables with records that are shared, that nothing leads to, and that stand in another order.

use reference::jobs::{straight, term, Backwards, Record};
use reference::poly::Poly;
use reference::rng::Rng;
use reference::table::Input;
use std::collections::HashMap;

#[derive(Default)]
struct Maker<'a> {
    /// Without it all equal records are shared, and there is no junk.
    rng: Option<&'a mut Rng>,
    records: Backwards,
    /// By words and by how many of them are links.
    made: HashMap<(Record, usize), u32>,
}

impl Maker<'_> {
    fn one_in(&mut self, n: u32) -> bool {
        self.rng.as_mut().is_some_and(|rng| rng.one_in(n))
    }

    /// The record's link: mostly of an equal one, if there is one.
    fn record(&mut self, words: Record, links: &[usize]) -> u32 {
        if let Some(&link) = self.made.get(&(words, links.len())) {
            if !self.one_in(4) {
                return link;
            }
        }
        if self.one_in(10) {
            self.records.junk(self.rng.as_mut().unwrap());
        }
        let link = self.records.record(words, links);
        self.made.insert((words, links.len()), link);
        link
    }

    fn polynomial(&mut self, f: &Poly, next: u32) -> u32 {
        let first = f.terms().rev().fold(0, |next, (c, m)| self.record(term(c, m, next), &[3]));
        self.record([first, 0, 0, next], &[0, 3])
    }

    fn chain(&mut self, list: &[Poly]) -> u32 {
        list.iter().rev().fold(0, |next, f| self.polynomial(f, next))
    }

    fn table(mut self, input: &Input) -> Vec<u32> {
        let nonzeros = self.chain(&input.nonzeros);
        let zeros = self.chain(&input.zeros);
        self.records.record([input.p, input.n, zeros, nonzeros], &[2, 3]);
        self.records.words()
    }
}

/// Equal ends of polynomials and of chains mostly share their records, and junk lies between and after them.
pub fn shared(input: &Input, rng: &mut Rng) -> Vec<u32> {
    let mut words = Maker { rng: Some(rng), ..Maker::default() }.table(input);
    (0..4 * rng.pick(&[0, 0, 1, 2])).for_each(|_| words.push(rng.below(9)));
    words
}

/// Shared for one in n, else straight.
pub fn shared_one_in(n: u32, input: &Input, rng: &mut Rng) -> Vec<u32> {
    if rng.one_in(n) {
        shared(input, rng)
    } else {
        straight(input)
    }
}

/// The fewest records: all equal ends are shared.
pub fn tight(input: &Input) -> Vec<u32> {
    Maker::default().table(input)
}

#[cfg(test)]
mod tests {
    use super::*;
    use crate::systems;
    use reference::table;

    #[test]
    fn every_layout_reads_as_the_input() {
        let mut rng = Rng(1);
        for _ in 0..2000 {
            let input = systems::any(&mut rng);
            assert_eq!(table::read(&straight(&input)), Ok(input.clone()));
            assert_eq!(table::read(&tight(&input)), Ok(input.clone()));
            assert_eq!(table::read(&shared(&input, &mut rng)), Ok(input));
        }
    }
}
