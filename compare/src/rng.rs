//! Random numbers by the generator splitmix64, so that a seed gives the same jobs everywhere.

use crate::field;

pub struct Rng(pub u64);

impl Rng {
    pub fn draw(&mut self) -> u64 {
        self.0 = self.0.wrapping_add(0x9e37_79b9_7f4a_7c15);
        let z = (self.0 ^ (self.0 >> 30)).wrapping_mul(0xbf58_476d_1ce4_e5b9);
        let z = (z ^ (z >> 27)).wrapping_mul(0x94d0_49bb_1331_11eb);
        z ^ (z >> 31)
    }

    pub fn below(&mut self, n: u32) -> u32 {
        (self.draw() % n as u64) as u32
    }

    pub fn one_in(&mut self, n: u32) -> bool {
        self.below(n) == 0
    }

    pub fn pick<T: Copy>(&mut self, from: &[T]) -> T {
        from[self.below(from.len() as u32) as usize]
    }

    /// A monomial in v1 to vn with exponents below the bound; about half of them are 0.
    pub fn monomial(&mut self, n: u32, bound: u32) -> u64 {
        (0..n).fold(0, |m, _| m << 8 | if self.one_in(2) { self.below(bound) as u64 } else { 0 })
    }

    pub fn point(&mut self, p: u32, n: u32) -> Vec<u32> {
        (0..n).map(|_| if self.one_in(6) { 0 } else { self.below(p) }).collect()
    }

    pub fn prime(&mut self) -> u32 {
        if self.one_in(3) {
            return self.pick(&[251, 257, 65537, 2147483629, 2147483647]);
        }
        if self.one_in(3) {
            let from = self.below(2147483000);
            return (from..).find(|&p| field::is_prime(p)).unwrap();
        }
        self.pick(&[2, 2, 3, 3, 5, 7, 11])
    }

    /// A point with the wrong count of numbers, or one that is no residue.
    pub fn no_point(&mut self, p: u32, n: u32) -> Vec<u32> {
        let mut point = self.point(p, n);
        match self.below(3) {
            0 => point.resize(self.below(n) as usize, 0),
            1 => point.resize(n as usize + 1 + self.below(4) as usize, 0),
            _ => point[self.below(n) as usize] = self.pick(&[p, p + 1, u32::MAX]),
        }
        point
    }
}
