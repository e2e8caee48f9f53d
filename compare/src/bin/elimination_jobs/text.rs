//! Polynomials from text such as `x^2 + 2*y*(z - 1)`: sums of products of numbers, variables and brackets, the last two with powers.

use crate::systems::gathered;
use reference::jobs::power;
use reference::poly::{product, Poly};

struct Text<'a> {
    p: u32,
    variables: &'a [&'a str],
    left: &'a str,
}

impl<'a> Text<'a> {
    /// Whether the next character is this one; it is read then.
    fn reads(&mut self, c: char) -> bool {
        self.left = self.left.trim_start();
        let rest = self.left.strip_prefix(c);
        self.left = rest.unwrap_or(self.left);
        rest.is_some()
    }

    /// The letters and digits that come next.
    fn word(&mut self) -> &'a str {
        let end = self.left.find(|c: char| !c.is_ascii_alphanumeric()).unwrap_or(self.left.len());
        let word = &self.left[..end];
        self.left = &self.left[end..];
        word
    }

    fn sum(&mut self) -> Poly {
        let mut terms = Vec::new();
        let mut minus = self.reads('-');
        loop {
            let f = self.product();
            terms.extend(f.terms().map(|(c, m)| (if minus { self.p - c } else { c }, m)));
            minus = self.reads('-');
            if !minus && !self.reads('+') {
                return gathered(self.p, terms);
            }
        }
    }

    fn product(&mut self) -> Poly {
        let mut f = self.factor();
        while self.reads('*') {
            f = product(self.p, &f, &self.factor()).unwrap();
        }
        f
    }

    fn factor(&mut self) -> Poly {
        let (p, variables) = (self.p, self.variables);
        let f = if self.reads('(') {
            let f = self.sum();
            assert!(self.reads(')'), "a bracket is open before {:?}", self.left);
            f
        } else {
            let word = self.word();
            match (word.parse::<u64>(), variables.iter().position(|name| *name == word)) {
                (Ok(number), _) => gathered(p, vec![((number % p as u64) as u32, 0)]),
                (_, Some(k)) => gathered(p, vec![(1, power(k as u32 + 1, 1))]),
                _ => panic!("no variable {word:?} before {:?}", self.left),
            }
        };
        if !self.reads('^') {
            return f;
        }
        let e: u32 = self.word().parse().unwrap();
        (0..e).fold(gathered(p, vec![(1, 0)]), |g, _| product(p, &g, &f).unwrap())
    }
}

/// The polynomial modulo p; the variables are named from v1 on.
pub fn polynomial(p: u32, variables: &[&str], text: &str) -> Poly {
    let mut text = Text { p, variables, left: text };
    let f = text.sum();
    assert!(text.left.trim().is_empty(), "not read: {:?}", text.left);
    f
}

#[cfg(test)]
mod tests {
    use super::*;

    #[test]
    fn text_is_read() {
        let read = |text| polynomial(7, &["x", "y1"], text);
        assert_eq!(read("x*y1 - 1"), gathered(7, vec![(1, 257), (6, 0)]));
        assert_eq!(read(" -(x - 2)^2*y1+ 15"), gathered(7, vec![(6, 258), (4, 257), (3, 256), (1, 0)]));
        assert_eq!(read("2*(x + y1)*(x - y1) - 2*x^2"), gathered(7, vec![(5, 512)]));
        assert_eq!(read("x - 8*x"), Poly::default());
    }
}
