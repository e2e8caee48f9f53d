//! Random inputs of many kinds: most are small, and each kind makes its own rules of the run work.

use reference::field;
use reference::jobs::{planted, power};
use reference::poly::{self, Poly, TERMS};
use reference::rng::Rng;
use reference::table::Input;

/// The polynomial with the sum of these terms.
pub fn gathered(p: u32, mut terms: Vec<(u32, u64)>) -> Poly {
    terms.sort_unstable_by_key(|&(_, m)| std::cmp::Reverse(m));
    let mut f = Poly::default();
    for group in terms.chunk_by(|a, b| a.1 == b.1) {
        let c = group.iter().fold(0, |s, &(c, _)| field::add(p, s, c % p));
        if c != 0 {
            f.push(c, group[0].1);
        }
    }
    f
}

/// Random polynomials in n variables.
struct Source<'a> {
    rng: &'a mut Rng,
    p: u32,
    n: u32,
}

impl Source<'_> {
    fn coefficient(&mut self) -> u32 {
        if self.rng.one_in(3) {
            return 1;
        }
        1 + self.rng.below(self.p - 1)
    }

    fn variable(&mut self) -> u32 {
        1 + self.rng.below(self.n)
    }

    fn monomial(&mut self, bound: u32) -> u64 {
        self.rng.monomial(self.n, bound)
    }

    /// At most so many terms, with exponents below the bound.
    fn sparse(&mut self, terms: u32, bound: u32) -> Poly {
        let count = 1 + self.rng.below(terms);
        let terms = (0..count).map(|_| (self.coefficient(), self.monomial(bound))).collect();
        gathered(self.p, terms)
    }

    /// A linear polynomial in at most so many variables.
    fn linear(&mut self, variables: u32) -> Poly {
        let mut terms: Vec<(u32, u64)> = Vec::new();
        for _ in 0..1 + self.rng.below(variables) {
            let k = self.variable();
            terms.push((self.coefficient(), power(k, 1)));
        }
        if !self.rng.one_in(3) {
            terms.push((self.coefficient(), 0));
        }
        gathered(self.p, terms)
    }

    /// The product, or the first factor where the product is refused.
    fn times(&self, f: Poly, g: &Poly) -> Poly {
        poly::product(self.p, &f, g).unwrap_or(f)
    }

    /// A product of linear polynomials.
    fn factors(&mut self, count: u32, variables: u32) -> Poly {
        let first = self.linear(variables);
        (1..count).fold(first, |f, _| {
            let g = self.linear(variables);
            self.times(f, &g)
        })
    }

    /// At most so many polynomials.
    fn list(&mut self, most: u32, mut next: impl FnMut(&mut Self) -> Poly) -> Vec<Poly> {
        (0..self.rng.below(most + 1)).map(|_| next(self)).collect()
    }

    /// At least two polynomials and at most so many, but for one list in twelve.
    fn several(&mut self, most: u32, mut next: impl FnMut(&mut Self) -> Poly) -> Vec<Poly> {
        if self.rng.one_in(12) {
            return self.list(1, next);
        }
        (0..2 + self.rng.below(most - 1)).map(|_| next(self)).collect()
    }

    /// Few terms with small exponents, about half of P planted.
    fn small(&mut self) -> (Vec<Poly>, Vec<Poly>) {
        let point = self.rng.point(self.p, self.n);
        let bound = self.rng.pick(&[2, 2, 3, 4]);
        let zeros = self.several(4, |s| {
            let f = s.sparse(4, bound);
            if s.rng.one_in(2) {
                planted(s.p, f, &point)
            } else {
                f
            }
        });
        (zeros, self.list(2, |s| s.sparse(3, bound)))
    }

    /// Products of linear polynomials: many splits, many branches dropped.
    fn split(&mut self) -> (Vec<Poly>, Vec<Poly>) {
        let zeros = self.several(4, |s| {
            let count = 1 + s.rng.below(3);
            s.factors(count, 2)
        });
        (zeros, self.list(2, |s| s.linear(2)))
    }

    /// Multiples of one polynomial, perhaps with a factor of them in Q.
    fn common(&mut self) -> (Vec<Poly>, Vec<Poly>) {
        let g = self.factors(2, 2);
        let zeros = self.several(3, |s| {
            let f = s.sparse(3, 3);
            s.times(f, &g)
        });
        let mut nonzeros = self.list(1, |s| s.linear(2));
        if self.rng.one_in(3) {
            nonzeros.push(g);
        }
        (zeros, nonzeros)
    }

    /// Linear equations, about as many as variables.
    fn equations(&mut self) -> (Vec<Poly>, Vec<Poly>) {
        let variables = self.rng.pick(&[2, 3, 8]);
        let zeros = (0..self.n + self.rng.below(3)).map(|_| self.linear(variables)).collect();
        (zeros, self.list(2, |s| s.linear(variables)))
    }

    /// Monomials, and differences of two.
    fn monomials(&mut self) -> (Vec<Poly>, Vec<Poly>) {
        let bound = self.rng.pick(&[2, 2, 3]);
        let zeros = self.several(7, |s| s.sparse(2, bound));
        (zeros, self.list(3, |s| gathered(s.p, vec![(1, s.monomial(2))])))
    }

    /// A polynomial led by each variable, its initial of the lower ones, sometimes two of them.
    fn triangle(&mut self) -> (Vec<Poly>, Vec<Poly>) {
        let (n, mut zeros) = (self.n, Vec::new());
        for k in 1..=n {
            self.n = k - 1;
            for _ in 0..self.rng.pick(&[0, 1, 1, 1, 2]) {
                let d = self.rng.pick(&[1, 1, 2, 3]);
                let (initial, rest) =
                    if k == 1 { (gathered(self.p, vec![(1, 0)]), Poly::default()) } else { (self.sparse(3, 2), self.sparse(3, 3)) };
                let head = gathered(self.p, vec![(1, power(k, d)), (self.rng.below(self.p), power(k, d - 1))]);
                zeros.push(poly::difference(self.p, &self.times(head, &initial), &rest).unwrap());
            }
        }
        self.n = n;
        if self.rng.one_in(2) {
            zeros.reverse();
        }
        (zeros, self.list(2, |s| s.sparse(2, 3)))
    }

    /// Polynomials in one variable with some of their roots in common.
    fn one_variable(&mut self) -> (Vec<Poly>, Vec<Poly>) {
        let k = self.variable();
        let roots = |s: &mut Self, count: u32| {
            (0..count).fold(gathered(s.p, vec![(1, 0)]), |f, _| {
                let root = gathered(s.p, vec![(1, power(k, 1)), (s.rng.below(s.p), 0)]);
                s.times(f, &root)
            })
        };
        let shared = roots(self, 2);
        let zeros = self.several(4, |s| {
            let count = s.rng.below(10);
            let f = roots(s, count);
            s.times(f, &shared)
        });
        let nonzeros = self.list(2, |s| roots(s, 1));
        (zeros, nonzeros)
    }

    /// Equal polynomials, multiples by a number, zeros, ones, and the same in Q.
    fn repeated(&mut self) -> (Vec<Poly>, Vec<Poly>) {
        let few = [self.linear(2), self.sparse(3, 2), self.factors(2, 1)];
        let any = |s: &mut Self, constant: u32| -> Poly {
            if s.rng.one_in(constant) {
                return gathered(s.p, vec![(s.rng.below(s.p), 0)]);
            }
            let number = gathered(s.p, vec![(1 + s.rng.below(s.p - 1), 0)]);
            let f = few[s.rng.below(3) as usize].clone();
            s.times(f, &number)
        };
        let zeros = self.several(6, |s| any(s, 12));
        (zeros, self.list(4, |s| any(s, 6)))
    }

    /// Two or three terms with exponents up to 255.
    fn high(&mut self) -> (Vec<Poly>, Vec<Poly>) {
        let bound = self.rng.pick(&[20, 100, 129, 256]);
        let zeros = self.several(3, |s| {
            let k = s.variable();
            let mut terms = vec![(1, s.monomial(bound)), (s.coefficient(), 0)];
            terms[0].1 |= power(k, 1 + s.rng.below(3));
            if s.rng.one_in(3) {
                terms.push((1, power(k, s.rng.pick(&[1, 127, 128, 254, 255]))));
            }
            gathered(s.p, terms)
        });
        (zeros, self.list(1, |s| s.sparse(2, bound)))
    }

    /// Up to 256 terms.
    fn long(&mut self) -> (Vec<Poly>, Vec<Poly>) {
        let bound = self.rng.pick(&[3, 6, 16, 256]);
        let long = |s: &mut Self| {
            let most = s.rng.pick(&[20, 60, 300]);
            let mut f = s.sparse(most, bound);
            f.truncate(TERMS);
            f
        };
        let mut zeros = self.list(2, |s| s.sparse(4, 3));
        zeros.push(long(self));
        if self.rng.one_in(2) {
            zeros.rotate_right(1);
        }
        (zeros, self.list(1, long))
    }

    /// The input with these lists: one in three is planted, and now and then zero goes to P or a number to Q.
    fn input(mut self, (mut zeros, nonzeros): (Vec<Poly>, Vec<Poly>)) -> Input {
        let (p, n) = (self.p, self.n);
        if self.rng.one_in(3) {
            let point = self.rng.point(p, n);
            zeros = zeros.into_iter().map(|f| planted(p, f, &point)).collect();
        }
        let mut input = Input { p, n, zeros, nonzeros };
        if self.rng.one_in(30) {
            input.zeros.push(Poly::default());
        }
        if self.rng.one_in(30) {
            let one = self.coefficient();
            input.nonzeros.insert(0, gathered(p, vec![(one, 0)]));
        }
        input
    }
}

/// An input of any kind; the kinds from 8 on have higher exponents or more terms.
fn of_kind(kind: u32, rng: &mut Rng, p: u32, n: u32) -> Input {
    let mut source = Source { rng, p, n };
    let lists = match kind {
        0 | 1 => source.small(),
        2 => source.split(),
        3 => source.common(),
        4 => source.equations(),
        5 => source.monomials(),
        6 => source.triangle(),
        7 => source.repeated(),
        8 => source.one_variable(),
        9 => source.high(),
        _ => source.long(),
    };
    source.input(lists)
}

/// An input over this field in n variables, with small exponents and few terms.
pub fn small(rng: &mut Rng, p: u32, n: u32) -> Input {
    of_kind(rng.below(9), rng, p, n)
}

pub fn any(rng: &mut Rng) -> Input {
    let p = if rng.one_in(3) { rng.pick(&[2, 3, 5, 7, 11, 257, 32003, 65537, 2147483629, 2147483647]) } else { rng.prime() };
    let n = if rng.one_in(4) { 1 + rng.below(8) } else { 1 + rng.below(4) };
    let kind = if rng.one_in(40) { 10 } else { rng.below(10) };
    of_kind(kind, rng, p, n)
}
