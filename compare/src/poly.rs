//! Polynomials: coefficients and packed monomials in two columns, in falling order. v1's exponent is a monomial's lowest byte.

use crate::field;

#[derive(Clone, Debug, Default, PartialEq, Eq)]
pub struct Poly {
    pub m: Vec<u64>,
    pub c: Vec<u32>,
}

/// Which bound an operation passes, 255 or 256: refusal 10 or 9.
#[derive(Clone, Copy, Debug, PartialEq, Eq)]
pub enum Over {
    Degree,
    Terms,
}

/// The most terms of a polynomial.
pub const TERMS: usize = 256;

/// The exponent of v(k+1).
pub fn exponent(m: u64, k: u32) -> u32 {
    (m >> (8 * k)) as u32 & 255
}

/// Whether some byte of a plus the same byte of b passes 255.
fn carries(a: u64, b: u64) -> bool {
    const LOW: u64 = 0x7f7f_7f7f_7f7f_7f7f;
    let s = (a & LOW) + (b & LOW);
    ((a & b) | ((a | b) & s)) & !LOW != 0
}

impl FromIterator<(u32, u64)> for Poly {
    fn from_iter<I: IntoIterator<Item = (u32, u64)>>(terms: I) -> Poly {
        let mut f = Poly::default();
        for (c, m) in terms {
            f.push(c, m);
        }
        f
    }
}

impl Poly {
    fn with_room() -> Poly {
        Poly { m: Vec::with_capacity(TERMS), c: Vec::with_capacity(TERMS) }
    }

    pub fn len(&self) -> usize {
        self.m.len()
    }

    pub fn is_empty(&self) -> bool {
        self.m.is_empty()
    }

    pub fn push(&mut self, c: u32, m: u64) {
        self.c.push(c);
        self.m.push(m);
    }

    /// Adds a term unless its coefficient is zero; a 257th is refused.
    fn push_tested(&mut self, c: u32, m: u64) -> Result<(), Over> {
        if c != 0 {
            if self.len() == TERMS {
                return Err(Over::Terms);
            }
            self.push(c, m);
        }
        Ok(())
    }

    /// The coefficients with their monomials, in falling order.
    pub fn terms(&self) -> impl DoubleEndedIterator<Item = (u32, u64)> + '_ {
        self.c.iter().copied().zip(self.m.iter().copied())
    }

    /// Keeps the first so many terms.
    pub fn truncate(&mut self, terms: usize) {
        self.c.truncate(terms);
        self.m.truncate(terms);
    }

    pub fn is_one(&self) -> bool {
        self.m == [0] && self.c == [1]
    }

    /// k for vk, 0 for none: the first term has the highest variable.
    pub fn leader(&self) -> u32 {
        match self.m.first() {
            None => 0,
            Some(&m) => (64 - m.leading_zeros()).div_ceil(8),
        }
    }

    /// The degree in v(k+1).
    pub fn degree(&self, k: u32) -> u32 {
        self.m.iter().map(|&m| exponent(m, k)).max().unwrap_or(0)
    }

    fn degrees(&self) -> [u32; 8] {
        std::array::from_fn(|k| self.degree(k as u32))
    }

    pub fn monic(mut self, p: u32) -> Poly {
        if let Some(&c) = self.c.first() {
            if c != 1 {
                let i = field::inverse(p, c);
                for c in &mut self.c {
                    *c = field::mul(p, *c, i);
                }
            }
        }
        self
    }

    /// The coefficient of v(k+1)^d, with the power divided by v(k+1)^by: by = d leaves none of it.
    fn part(&self, k: u32, d: u32, by: u32) -> Poly {
        self.terms().filter(|&(_, m)| exponent(m, k) == d).map(|(c, m)| (c, m - ((by as u64) << (8 * k)))).collect()
    }

    /// The coefficient of the highest power of v(k+1).
    pub fn initial(&self, k: u32) -> Poly {
        let d = self.degree(k);
        self.part(k, d, d)
    }

    /// The polynomial without the highest power of v(k+1).
    pub fn rest(&self, k: u32) -> Poly {
        let d = self.degree(k);
        self.terms().filter(|&(_, m)| exponent(m, k) != d).collect()
    }

    pub fn value(&self, p: u32, point: &[u32]) -> u32 {
        let mut v = 0;
        for (c, m) in self.terms() {
            let mut t = c;
            for (k, &x) in point.iter().enumerate() {
                let e = exponent(m, k as u32);
                if e > 0 {
                    t = field::mul(p, t, field::power(p, x, e));
                }
            }
            v = field::add(p, v, t);
        }
        v
    }
}

/// Whether for some variable the degrees sum to over 255. Exact degrees are found only if the or-ed monomials could pass.
fn degrees_over(f: &Poly, g: &Poly) -> bool {
    let or = |f: &Poly| f.m.iter().fold(0, |a, &m| a | m);
    if !carries(or(f), or(g)) {
        return false;
    }
    let (a, b) = (f.degrees(), g.degrees());
    (0..8).any(|k| a[k] + b[k] > 255)
}

pub fn product(p: u32, f: &Poly, g: &Poly) -> Result<Poly, Over> {
    if f.is_empty() || g.is_empty() {
        return Ok(Poly::default());
    }
    if degrees_over(f, g) {
        return Err(Over::Degree);
    }
    let (a, b) = if f.len() <= g.len() { (f, g) } else { (g, f) };
    match a.len() {
        1 => Ok(row(p, a.c[0], a.m[0], b)),
        2 => two_rows(p, a, b),
        _ => rows(p, a, b),
    }
}

/// A term times g.
fn row(p: u32, c: u32, m: u64, g: &Poly) -> Poly {
    Poly { c: g.c.iter().map(|&d| field::mul(p, c, d)).collect(), m: g.m.iter().map(|&n| m + n).collect() }
}

/// The product by one merge, where a has two terms.
fn two_rows(p: u32, a: &Poly, b: &Poly) -> Result<Poly, Over> {
    let (n, mut i, mut j) = (b.len(), 0, 0);
    let mut out = Poly::with_room();
    while j < n {
        let y = a.m[1] + b.m[j];
        let x = if i < n { a.m[0] + b.m[i] } else { 0 };
        let (mut s, m) = (0u64, if i < n && x > y { x } else { y });
        if i < n && x >= y {
            s += a.c[0] as u64 * b.c[i] as u64;
            i += 1;
        }
        if m == y {
            s += a.c[1] as u64 * b.c[j] as u64;
            j += 1;
        }
        out.push_tested((s % p as u64) as u32, m)?;
    }
    Ok(out)
}

/// A sum of at most 256 products of residues, in two halves that can't overflow.
#[derive(Default)]
struct Sum {
    low: u64,
    high: u64,
}

impl Sum {
    fn add(&mut self, a: u32, b: u32) {
        let t = a as u64 * b as u64;
        self.low += t & 0xffff_ffff;
        self.high += t >> 32;
    }

    fn modulo(&self, p: u32) -> u32 {
        let p = p as u64;
        ((((self.high % p) << 32) + self.low) % p) as u32
    }
}

/// Terms straight in falling order: one position for each row, and a pass over the rows for each monomial.
fn rows(p: u32, a: &Poly, b: &Poly) -> Result<Poly, Over> {
    let (rows, width) = (a.len(), b.len());
    let mut at = [0u16; TERMS];
    let mut out = Poly::with_room();
    let mut m = a.m[0] + b.m[0];
    // Rows before `from` are used up; those before `to` have begun, as a row does once its first monomial is reached.
    let (mut from, mut to) = (0, 1);
    while from < rows {
        while to < rows && a.m[to] + b.m[0] >= m {
            to += 1;
        }
        let mut sum = Sum::default();
        let mut next = if to < rows { a.m[to] + b.m[0] } else { 0 };
        let begun = a.c[from..to].iter().zip(&a.m[from..to]);
        for ((&c, &x), at) in begun.zip(&mut at[from..to]) {
            let mut j = *at as usize;
            if j < width && x + b.m[j] == m {
                sum.add(c, b.c[j]);
                j += 1;
                *at += 1;
            }
            if j < width {
                next = next.max(x + b.m[j]);
            }
        }
        while from < to && at[from] as usize == width {
            from += 1;
        }
        out.push_tested(sum.modulo(p), m)?;
        m = next;
    }
    Ok(out)
}

/// f minus c·m times g, tested for terms.
fn subtract(p: u32, f: &Poly, c: u32, m: u64, g: &Poly) -> Result<Poly, Over> {
    let mut out = Poly::with_room();
    let mut i = 0;
    for (d, n) in g.terms() {
        let (d, n) = (if c == 1 { d } else { field::mul(p, c, d) }, m + n);
        while i < f.len() && f.m[i] > n {
            out.push(f.c[i], f.m[i]);
            i += 1;
        }
        let mut x = 0;
        if i < f.len() && f.m[i] == n {
            x = f.c[i];
            i += 1;
        }
        let d = field::sub(p, x, d);
        if d != 0 {
            out.push(d, n);
        }
    }
    out.c.extend_from_slice(&f.c[i..]);
    out.m.extend_from_slice(&f.m[i..]);
    if out.len() > TERMS {
        return Err(Over::Terms);
    }
    Ok(out)
}

pub fn difference(p: u32, f: &Poly, g: &Poly) -> Result<Poly, Over> {
    subtract(p, f, 1, 0, g)
}

/// One round of the division of R by T, of degree d in v(k+1) with the initial i; e is the degree of R.
pub fn round(p: u32, k: u32, d: u32, e: u32, i: &Poly, t: &Poly, r: &Poly) -> Result<Poly, Over> {
    let l = r.part(k, e, d);
    let formed;
    let x = if i.is_one() {
        r
    } else {
        formed = product(p, i, r)?;
        &formed
    };
    if l.len() == 1 {
        if degrees_over(&l, t) {
            return Err(Over::Degree);
        }
        return subtract(p, x, l.c[0], l.m[0], t);
    }
    difference(p, x, &product(p, &l, t)?)
}

/// The remainder of g by t in v(k+1).
pub fn remainder(p: u32, k: u32, t: &Poly, g: &Poly) -> Result<Poly, Over> {
    let d = t.degree(k);
    let i = t.initial(k);
    let mut r = g.clone();
    loop {
        let e = r.degree(k);
        if e < d || r.is_empty() {
            return Ok(r);
        }
        r = round(p, k, d, e, &i, t, &r)?;
    }
}

#[cfg(test)]
mod tests {
    use super::*;

    fn power_plus_one(k: u32, e: u64) -> Poly {
        [(1, e << (8 * k)), (1, 0)].into_iter().collect()
    }

    #[test]
    fn degrees_over_255_are_refused_in_each_variable() {
        for k in 0..8 {
            let f = power_plus_one(k, 200);
            assert_eq!(product(7, &f, &power_plus_one(k, 55)).map(|f| f.len()), Ok(4));
            assert_eq!(product(7, &f, &power_plus_one(k, 56)), Err(Over::Degree));
        }
    }

    #[test]
    fn every_way_to_a_product_agrees() {
        // 1 + v1 + .. + v1^(n-1) times v1 - 1 is v1^n - 1, as two rows and as many.
        for p in [2, 7, 2147483647] {
            for n in 2..=255 {
                let series: Poly = (0..n).rev().map(|e| (1, e)).collect();
                let two: Poly = [(1, 1), (p - 1, 0)].into_iter().collect();
                let expected: Poly = [(1, n), (p - 1, 0)].into_iter().collect();
                assert_eq!(product(p, &series, &two), Ok(expected.clone()));
                assert_eq!(rows(p, &two, &series), Ok(expected.clone()));
                assert_eq!(rows(p, &series, &two), Ok(expected));
            }
        }
    }
}
