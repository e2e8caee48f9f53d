//! Residues modulo a prime below 2^31.

/// True exactly for the primes from 2 to 2^31 - 1.
pub fn is_prime(p: u32) -> bool {
    if !(2..1 << 31).contains(&p) {
        return false;
    }
    for q in [2, 3, 5] {
        if p % q == 0 {
            return p == q;
        }
    }
    // All other primes are one of these steps past 7, 37, 67, ..
    let mut d = 7;
    while d * d <= p {
        for step in [0, 4, 6, 10, 12, 16, 22, 24] {
            if p % (d + step) == 0 {
                return p == d + step;
            }
        }
        d += 30;
    }
    true
}

pub fn mul(p: u32, a: u32, b: u32) -> u32 {
    (a as u64 * b as u64 % p as u64) as u32
}

pub fn sub(p: u32, a: u32, b: u32) -> u32 {
    if a >= b {
        a - b
    } else {
        a + (p - b)
    }
}

pub fn add(p: u32, a: u32, b: u32) -> u32 {
    let s = a as u64 + b as u64;
    if s >= p as u64 {
        (s - p as u64) as u32
    } else {
        s as u32
    }
}

/// The inverse of a, from 1 to p - 1, by Euclid's algorithm.
pub fn inverse(p: u32, a: u32) -> u32 {
    let (mut r0, mut r1) = (p as i64, a as i64);
    let (mut t0, mut t1) = (0i64, 1i64);
    while r1 != 0 {
        let q = r0 / r1;
        (r0, r1) = (r1, r0 - q * r1);
        (t0, t1) = (t1, t0 - q * t1);
    }
    t0.rem_euclid(p as i64) as u32
}

pub fn power(p: u32, x: u32, mut e: u32) -> u32 {
    let (mut r, mut b) = (1 % p, x);
    while e > 0 {
        if e & 1 == 1 {
            r = mul(p, r, b);
        }
        b = mul(p, b, b);
        e >>= 1;
    }
    r
}
