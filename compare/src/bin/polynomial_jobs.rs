//! The jobs of `crates/polynomial_jobs` once more, by the polynomials of this crate: the same operands, the same lines.

use reference::field;
use reference::poly::{self, Over, Poly};

/// The generator: a state below 2^31, times a constant modulo a prime.
struct Generator(u64);

impl Generator {
    /// A number below n.
    fn draw(&mut self, n: u64) -> u64 {
        self.0 = self.0 * 48271 % 2147483647;
        self.0 % n
    }
}

/// The digits of j in the base are exponents, v1's first, each times the scale.
fn monomial(mut j: u64, base: u64, scale: u64) -> u64 {
    let mut exponents = [0u8; 8];
    for e in &mut exponents {
        *e = (j % base * scale) as u8;
        j /= base;
    }
    u64::from_le_bytes(exponents)
}

fn digit_sum(mut j: u64, base: u64) -> u64 {
    let mut sum = 0;
    while j > 0 {
        sum += j % base;
        j /= base;
    }
    sum
}

/// The monomials of top, top − gap, .. in the base; the coefficient is c where the exponents have an odd sum, else 1.
fn regular(top: u64, gap: u64, base: u64, c: u64) -> Vec<u64> {
    (0..=top / gap).map(|i| top - i * gap).flat_map(|j| [if digit_sum(j, base) % 2 == 1 { c } else { 1 }, monomial(j, base, 1)]).collect()
}

/// What random operands are made of: digits in a base, with so many places in all, each digit times the scale.
#[derive(Clone, Copy)]
struct Shape {
    base: u64,
    places: u64,
    scale: u64,
}

fn shape(g: &mut Generator) -> Shape {
    let base = 2 + match g.draw(4) {
        0 => g.draw(2),
        1 => g.draw(8),
        2 => g.draw(30),
        _ => g.draw(255),
    };
    let variables = 1 + g.draw(8);
    let mut places = 1;
    for _ in 0..variables {
        if places < 8388608 {
            places *= base;
        }
    }
    let scale = if g.draw(2) == 0 { 1 } else { 1 + g.draw(255 / (base - 1)) };
    Shape { base, places, scale }
}

/// A random number of terms, with random gaps between their monomials.
fn scattered(g: &mut Generator, p: u64, s: Shape) -> Vec<u64> {
    let mut left = 1 + match g.draw(4) {
        0 => g.draw(3),
        1 => g.draw(8),
        2 => g.draw(40),
        _ => g.draw(256),
    };
    let mut j = g.draw(s.places);
    let mut words = Vec::new();
    while left > 0 {
        words.push(1 + g.draw(p - 1));
        words.push(monomial(j, s.base, s.scale));
        let gap = 1 + g.draw(1 + 2 * j / left);
        if j < gap {
            break;
        }
        j -= gap;
        left -= 1;
    }
    words
}

/// The polynomial that the words hold, if they hold one.
fn read(p: u64, words: &[u64]) -> Option<Poly> {
    let mut f = Poly::default();
    for pair in words.chunks(2) {
        let [c, m] = *pair else { return None };
        if c == 0 || c >= p || f.len() == poly::TERMS || f.m.last().is_some_and(|&last| last <= m) {
            return None;
        }
        f.push(c as u32, m);
    }
    Some(f)
}

fn print(tag: &str, f: &Poly) {
    if f.len() <= 6 {
        let listed: String = f.terms().map(|(c, m)| format!(" {c}:{m:x}")).collect();
        println!("{tag} {}{listed}", f.len());
    } else {
        let sum = f.terms().flat_map(|(c, m)| [c as u64, m]).fold(0, |h, w| (h * 1000003 + w % 2147483647) % 2147483647);
        println!("{tag} {} #{sum}", f.len());
    }
}

fn print_formed(tag: &str, f: &Result<Poly, Over>) {
    match f {
        Ok(f) => print(tag, f),
        Err(Over::Degree) => println!("{tag} refusal 10"),
        Err(Over::Terms) => println!("{tag} refusal 9"),
    }
}

/// What the division of f by t in the leading variable of t leaves.
fn divide(p: u32, f: &Poly, t: &Poly) {
    let lead = t.leader();
    if lead == 0 {
        println!("no divisor");
        return;
    }
    let k = lead - 1;
    let (d, i) = (t.degree(k), t.initial(k));
    let mut r = Ok(f.clone());
    while let Ok(f) = &r {
        if f.degree(k) < d {
            break;
        }
        r = poly::round(p, k, d, f.degree(k), &i, t, f);
    }
    print_formed("remainder", &r);
}

fn point(p: u64, seed: u64) -> Vec<u32> {
    let mut g = Generator(seed);
    (0..8).map(|_| g.draw(p) as u32).collect()
}

/// All jobs on f and g.
fn run(p: u64, f: &[u64], g: &[u64]) {
    println!("p {p}");
    if !field::is_prime(p as u32) {
        println!("skip");
        return;
    }
    let (Some(f), Some(g), p) = (read(p, f), read(p, g), p as u32) else {
        println!("skip");
        return;
    };
    print("f", &f);
    print("g", &g);
    print_formed("product", &poly::product(p, &f, &g));
    print_formed("difference", &poly::difference(p, &f, &g));
    println!("equal {}", (f == g) as u32);
    let monic = f.clone().monic(p);
    print("monic", &monic);
    println!("equal {}", (monic == f) as u32);
    println!("leader {}", f.leader());
    if f.leader() > 0 {
        print("initial", &f.initial(f.leader() - 1));
        print("rest", &f.rest(f.leader() - 1));
    }
    divide(p, &f, &g);
    divide(p, &g, &f);
    println!("value {}", f.value(p, &[0; 8]));
    println!("value {}", f.value(p, &point(p as u64, 1 + f.len() as u64)));
}

/// Words that hold no polynomial, and numbers that are no prime.
fn skipped() {
    run(9, &[1, 1], &[1, 0]);
    run(1, &[1, 1], &[1, 0]);
    run(7, &[0, 1], &[1, 0]);
    run(7, &[1, 1], &[7, 0]);
    run(7, &[1, 1, 2, 1], &[1, 0]);
    run(7, &[1, 0], &[1, 0, 2, 1]);
    run(7, &[1, 1, 1], &[1, 0]);
    run(7, &regular(256, 1, 256, 1), &[1, 0]);
}

/// What document 01's jobs go through, and zero.
fn of_the_document() {
    run(7, &[1, 2, 1, 1, 5, 0], &[1, 2, 6, 0]);
    run(7, &[1, 257, 6, 0], &[1, 1]);
    run(7, &[1, 456, 1, 0], &[1, 311, 1, 0]);
    run(7, &[1, 456, 1, 0], &[1, 312, 1, 0]);
    run(2, &[1, 2, 1, 1, 1, 0], &[1, 1]);
    run(7, &[1, 200, 1, 0], &[1, 55, 1, 8, 1, 0]);
    run(7, &[3, 0], &[1, 1]);
    run(7, &[], &[1, 1]);
    run(7, &[], &[]);
}

/// Products of 256 and of 272 terms, and with alternating signs, so that terms cancel.
fn about_256_terms(p: u64) {
    let sixteen = regular(15, 1, 256, 1);
    run(p, &sixteen, &regular(15 * 256, 256, 256, 1));
    run(p, &sixteen, &regular(16 * 256, 256, 256, 1));
    run(p, &regular(255, 1, 256, p - 1), &sixteen);
    for (base, variables) in [(2u64, 8), (4, 4)] {
        for n in 1..=variables {
            let top = base.pow(n) - 1;
            run(p, &regular(top, 1, base, p - 1), &regular(top, 1, base, 1));
        }
    }
}

fn random(jobs: u64) {
    let mut g = Generator(1);
    for _ in 0..jobs {
        let p = match g.draw(8) {
            0 => 2,
            1 => 3,
            2 => 7,
            3 => 101,
            4 => 65537,
            5 => 1000003,
            6 => 2147483629,
            _ => 2147483647,
        };
        let s = shape(&mut g);
        let f = scattered(&mut g, p, s);
        let t = scattered(&mut g, p, s);
        run(p, &f, &t);
    }
}

fn main() {
    skipped();
    of_the_document();
    about_256_terms(2);
    about_256_terms(7);
    about_256_terms(2147483647);
    random(300);
}
