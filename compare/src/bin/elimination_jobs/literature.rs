//! Systems from the papers that document 01 builds on, others that are well known, and linkages, each under several primes.

use crate::measure;
use crate::rooms;
use crate::text::polynomial;
use crate::Job;
use reference::jobs::{all_points, straight};
use reference::rng::Rng;
use reference::table::Input;

/// Variables in rising order, polynomials to vanish, polynomials not to vanish, and a point with small numbers that solves them, or none.
struct System {
    variables: &'static str,
    zeros: &'static [&'static str],
    nonzeros: &'static [&'static str],
    point: &'static [i32],
}

const fn equations(variables: &'static str, zeros: &'static [&'static str]) -> System {
    System { variables, zeros, nonzeros: &[], point: &[] }
}

/// Wang, An elimination method for polynomial systems, 1993: the running example in three orders of the variables (the first is the
/// paper's), example 2 whole, without its last equation and with each factor of that, example 3, and two triangular forms.
const WANG: &[System] = &[
    equations("t z y x", &["x^31 - x^6 - x - y", "x^8 - z", "x^10 - t"]),
    equations("x y z t", &["x^31 - x^6 - x - y", "x^8 - z", "x^10 - t"]),
    equations("y t x z", &["x^31 - x^6 - x - y", "x^8 - z", "x^10 - t"]),
    equations("x y u v w", &["(x - u)^2 + (y - v)^2 - 1", "v^2 - u^3", "2*v*(x - u) + 3*u^2*(y - v)", "(3*w*u^2 - 1)*(2*w*v - 1)"]),
    equations("u v x y", &["(x - u)^2 + (y - v)^2 - 1", "v^2 - u^3", "2*v*(x - u) + 3*u^2*(y - v)"]),
    equations("x y u v w", &["(x - u)^2 + (y - v)^2 - 1", "v^2 - u^3", "2*v*(x - u) + 3*u^2*(y - v)", "3*w*u^2 - 1"]),
    equations("x y u v w", &["(x - u)^2 + (y - v)^2 - 1", "v^2 - u^3", "2*v*(x - u) + 3*u^2*(y - v)", "2*w*v - 1"]),
    equations(
        "b p d c q",
        &[
            "2*(b - 1)^2 + 2*(q - p*q + p^2) + c^2*(q - 1)^2 - 2*b*q + 2*c*d*(1 - q)*(q - p) + 2*b*p*q*d*(d - c) + b^2*d^2*(1 - 2*p)
             + 2*b*d^2*(p - q) + 2*b*d*c*(p - 1) + 2*b*p*q*(c + 1) + (b^2 - 2*b)*p^2*d^2 + 2*b^2*p^2 + 4*b*(1 - b)*p + d^2*(p - q)^2",
            "d*(2*p + 1)*(q - p) + c*(p + 2)*(1 - q) + b*(b - 2)*d + b*(1 - 2*b)*p*d + b*c*(q + p - p*q - 1) + b*(b + 1)*p^2*d",
            "-b^2*(p - 1)^2 + 2*p*(p - q) - 2*(q - 1)",
            "b^2 + 4*(p - q^2) + 3*c^2*(q - 1)^2 - 3*d^2*(p - q)^2 + 3*b^2*d^2*(p - 1)^2 + b^2*p*(p - 2) + 6*b*d*c*(p + q + p*q - 1)",
        ],
    ),
    equations("x1 x2 x3", &["x1^2 - 2", "x2^2 - 2*x1*x2 + 2", "(x2 - x1)*x3 + 1"]),
    equations("x1 x2", &["x1^2 - 1", "(x1^3 - 1)*x2 + 1"]),
];

/// Lazard, Solving zero-dimensional algebraic systems, 1992 (1) and (7), and the same with three variables; Li, Xia and Zhao, 2022,
/// examples 3.4 and 4.2.
const LAZARD: &[System] = &[
    equations("c b a", &["a + b + c", "a*b + b*c + c*a", "a*b*c - 1"]),
    equations("d c b a", &["a + b + c + d", "a*b + b*c + c*d + d*a", "a*b*c + b*c*d + c*d*a + d*a*b", "a*b*c*d - 1"]),
    equations(
        "e d c b a",
        &[
            "a + b + c + d + e",
            "a*b + b*c + c*d + d*e + e*a",
            "a*b*c + b*c*d + c*d*e + d*e*a + e*a*b",
            "a*b*c*d + b*c*d*e + c*d*e*a + d*e*a*b + e*a*b*c",
            "a*b*c*d*e - 1",
        ],
    ),
    equations("x y", &["x^2 - 1", "x*y - y", "y^3 - y"]),
    equations("x y", &["x^2 - 1", "y^2 - 2*x*y + 1"]),
];

const CAPRASSE: &[&str] = &[
    "(2*t*y - 2)*x + z*y^2 - z",
    "(t^2 - 1)*x + 2*t*z*y - 2*z",
    "-z*x^3 + (4*t*y + 4)*x^2 + (4*z*y^2 + 4*z)*x + 2*t*y^3 - 10*y^2 - 10*t*y + 2",
    "(-z^3 + (4*t^2 + 4)*z)*x + (4*t*z^2 + 2*t^3 - 10*t)*y + 4*z^2 - 10*t^2 + 2",
];

const ALONSO: &[&str] = &["(u - r - 2)*x - u - 2*t^4 + 1", "r*y - t^2*u - 1", "t*u*z - 1", "v - t*r"];

const R: &[&str] = &[
    "x1*(x1 + 1)",
    "(x2^2 + x2 + 1)*x1 + x2",
    "x3*x2^2 + (x3^3 + 1)*x2 + x3",
    "x4*x3^3 + (x4^4 + 1)*x3 + x4",
    "x5*x4^4 + (x5^5 + 1)*x4 + x5",
    "x6*x5^5 + (x6^6 + 1)*x5 + x6",
    "x7*x6^6 + (x7^7 + 1)*x6 + x7",
];

/// Aubry and Moreno Maza, Triangular sets for solving polynomial systems, 1999, Table 5, as printed there: Caprasse in two orders, Singular,
/// R5, R6, R7, L2, L3, Alonso in two orders, and the robot ROMIN with numbers for its lengths and its place.
const TABLE_5: &[System] = &[
    equations("t z y x", CAPRASSE),
    equations("x y z t", CAPRASSE),
    equations(
        "x y",
        &[
            "(y - x)*(y^2 + x^2 - 1)*(y^2 - x)",
            "-(y^2 + x^2 - 1)*(y^2 - x) + 2*x*(y - x)*(y^2 - x) - (y - x)*(y^2 + x^2 - 1)",
            "(y^2 + x^2 - 1)*(y^2 - x) + 2*y*(y - x)*(y^2 - x) + 2*y*(y - x)*(y^2 + x^2 - 1)",
        ],
    ),
    equations("x5 x4 x3 x2 x1", R.split_at(5).0),
    equations("x6 x5 x4 x3 x2 x1", R.split_at(6).0),
    equations("x7 x6 x5 x4 x3 x2 x1", R),
    equations("x1 x2 x3", &["x1^2 + x2 + x3 - 1", "x1 + x2^2 + x3 - 1", "x1 + x2 + x3^2 - 1"]),
    equations("x1 x2 x3 x4", &["x1^3 + x2 + x3 + x4 - 1", "x1 + x2^3 + x3 + x4 - 1", "x1 + x2 + x3^3 + x4 - 1", "x1 + x2 + x3 + x4^3 - 1"]),
    equations("t r u v z y x", ALONSO),
    equations("v z y x t u r", ALONSO),
    System {
        variables: "d c3 s3 c2 s2 c1 s1",
        zeros: &["-d*s1", "d*c1 - 2", "2*c2 + 3*c3 - d", "2*s2 + 3*s3 - 3", "s1^2 + c1^2 - 1", "s2^2 + c2^2 - 1", "s3^2 + c3^2 - 1"],
        nonzeros: &[],
        point: &[2, 0, 1, 1, 0, 1, 0],
    },
    equations(
        "d c3 s3 c2 s2 c1 s1",
        &["-d*s1 - 3", "d*c1 - 4", "2*c2 + 3*c3 - d", "2*s2 + 3*s3 - 1", "s1^2 + c1^2 - 1", "s2^2 + c2^2 - 1", "s3^2 + c3^2 - 1"],
    ),
];

/// Systems that Table 5 names and that are well known: Trinks, with and without its last equation; Katsura 3 and 4; Arnborg and Lazard;
/// Noonburg's neural network; Liu; three-stage Runge-Kutta methods of order 3 (Hairer).
const KNOWN: &[System] = &[
    equations("b s t z p w", TRINKS),
    equations("b s t z p w", TRINKS.split_at(6).0),
    equations(
        "u3 u2 u1 u0",
        &[
            "u0 + 2*u1 + 2*u2 + 2*u3 - 1",
            "u0^2 + 2*u1^2 + 2*u2^2 + 2*u3^2 - u0",
            "2*u0*u1 + 2*u1*u2 + 2*u2*u3 - u1",
            "2*u0*u2 + u1^2 + 2*u1*u3 - u2",
        ],
    ),
    equations(
        "u0 u1 u2 u3 u4",
        &[
            "u0 + 2*u1 + 2*u2 + 2*u3 + 2*u4 - 1",
            "u0^2 + 2*u1^2 + 2*u2^2 + 2*u3^2 + 2*u4^2 - u0",
            "2*u0*u1 + 2*u1*u2 + 2*u2*u3 + 2*u3*u4 - u1",
            "2*u0*u2 + u1^2 + 2*u1*u3 + 2*u2*u4 - u2",
            "2*u0*u3 + 2*u1*u2 + 2*u1*u4 - u3",
        ],
    ),
    equations(
        "x y z",
        &[
            "x^2*y*z + x*y^2*z + x*y*z^2 + x*y*z + x*y + x*z + y*z",
            "x^2*y^2*z + x*y^2*z^2 + x^2*y*z + x*y*z + y*z + x + z",
            "x^2*y^2*z^2 + x^2*y^2*z + x*y^2*z + x*y*z + x*z + z + 1",
        ],
    ),
    equations("c x y z", &["1 - c*x - x*y^2 - x*z^2", "1 - c*y - y*x^2 - y*z^2", "1 - c*z - z*x^2 - z*y^2"]),
    equations("a t z y x", &["y*z - y*t - x + a", "z*t - z*x - y + a", "t*x - y*t - z + a", "x*y - z*x - t + a"]),
    equations(
        "c2 c3 b3 b2 b1 a21 a32 a31",
        &["c2 - a21", "c3 - a31 - a32", "b1 + b2 + b3 - 1", "2*b2*c2 + 2*b3*c3 - 1", "3*b2*c2^2 + 3*b3*c3^2 - 1", "6*b3*a32*c2 - 1"],
    ),
];

const TRINKS: &[&str] = &[
    "45*p + 35*s - 165*b - 36",
    "35*p + 40*z + 25*t - 27*s",
    "15*w + 25*p*s + 30*z - 18*t - 165*b^2",
    "-9*w + 15*p*t + 20*z*s",
    "w*p + 2*z*t - 11*b^3",
    "99*w - 11*s*b + 3*b^2",
    "10000*b^2 + 6600*b + 2673",
];

/// Linkages in the plane, with a cosine and a sine for each angle: arms with two and three links to a given place, in several orders of
/// the variables; four-bar linkages, one of them a parallelogram, also with the path of a point of the coupler; a slider crank; a
/// five-bar linkage with both cranks given.
const LINKAGES: &[System] = &[
    System {
        variables: "c2 s2 c1 s1",
        zeros: &["3*c1 + 2*(c1*c2 - s1*s2) - 3", "3*s1 + 2*(s1*c2 + c1*s2) - 2", "c1^2 + s1^2 - 1", "c2^2 + s2^2 - 1"],
        nonzeros: &[],
        point: &[0, 1, 1, 0],
    },
    System {
        variables: "s1 s2 c1 c2",
        zeros: &["3*c1 + 2*(c1*c2 - s1*s2) - 3", "3*s1 + 2*(s1*c2 + c1*s2) - 2", "c1^2 + s1^2 - 1", "c2^2 + s2^2 - 1"],
        nonzeros: &["s2"],
        point: &[0, 1, 1, 0],
    },
    System {
        variables: "x y c2 s2 c1 s1",
        zeros: &["5*c1 + 4*(c1*c2 - s1*s2) - x", "5*s1 + 4*(s1*c2 + c1*s2) - y", "c1^2 + s1^2 - 1", "c2^2 + s2^2 - 1"],
        nonzeros: &["s2"],
        point: &[5, 4, 0, 1, 1, 0],
    },
    System {
        variables: "c1 s1 c2 s2 c3 s3",
        zeros: &[
            "4*c1 + 3*c2 + 2*c3 - 6",
            "4*s1 + 3*s2 + 2*s3 - 3",
            "c3 - 1",
            "s3",
            "c1^2 + s1^2 - 1",
            "c2^2 + s2^2 - 1",
            "c3^2 + s3^2 - 1",
        ],
        nonzeros: &[],
        point: &[1, 0, 0, 1, 1, 0],
    },
    System {
        variables: "c3 s3 c2 s2 c1 s1",
        zeros: &["4*c1 + 3*c2 + 2*c3 - 6", "4*s1 + 3*s2 + 2*s3 - 3", "c1^2 + s1^2 - 1", "c2^2 + s2^2 - 1", "c3^2 + s3^2 - 1"],
        nonzeros: &["c1*s2 - s1*c2"],
        point: &[1, 0, 0, 1, 1, 0],
    },
    System {
        variables: "c2 s2 c4 s4 c3 s3",
        zeros: &["2*c2 + 3*c3 - 2*c4 - 3", "2*s2 + 3*s3 - 2*s4", "c2^2 + s2^2 - 1", "c3^2 + s3^2 - 1", "c4^2 + s4^2 - 1"],
        nonzeros: &[],
        point: &[0, 1, 0, 1, 1, 0],
    },
    equations(
        "c2 s2 c4 s4 c3 s3",
        &["5*c2 - 3", "5*s2 - 4", "2*c2 + 5*c3 - 4*c4 - 6", "2*s2 + 5*s3 - 4*s4", "c2^2 + s2^2 - 1", "c3^2 + s3^2 - 1", "c4^2 + s4^2 - 1"],
    ),
    System {
        variables: "x y c2 s2 c3 s3 c4 s4",
        zeros: &[
            "2*c2 + 3*c3 - 2*c4 - 3",
            "2*s2 + 3*s3 - 2*s4",
            "2*c2 + c3 - 2*s3 - x",
            "2*s2 + s3 + 2*c3 - y",
            "c2^2 + s2^2 - 1",
            "c3^2 + s3^2 - 1",
            "c4^2 + s4^2 - 1",
        ],
        nonzeros: &[],
        point: &[1, 4, 0, 1, 1, 0, 0, 1],
    },
    equations("c2 s2 c4 s4", &["3*c4 - 2*c2 + 5 - 4*(c2*c4 + s2*s4)", "c2^2 + s2^2 - 1", "c4^2 + s4^2 - 1"]),
    System {
        variables: "x c1 s1 c2 s2",
        zeros: &["2*c1 + 5*c2 - x", "2*s1 + 5*s2", "c1^2 + s1^2 - 1", "c2^2 + s2^2 - 1"],
        nonzeros: &["c2"],
        point: &[7, 1, 0, 1, 0],
    },
    System {
        variables: "c1 s1 c3 s3 c2 s2 c4 s4",
        zeros: &[
            "c1",
            "s1 - 1",
            "c3",
            "s3 - 1",
            "2*c1 + 3*c2 - 6 - 2*c3 - 3*c4",
            "2*s1 + 3*s2 - 2*s3 - 3*s4",
            "c2^2 + s2^2 - 1",
            "c4^2 + s4^2 - 1",
        ],
        nonzeros: &[],
        point: &[0, 1, 0, 1, 1, 0, -1, 0],
    },
];

const PRIMES: [u32; 9] = [2, 3, 5, 7, 257, 32003, 65537, 2147483629, 2147483647];
const LIMIT: u32 = 20_000;

impl System {
    fn input(&self, p: u32) -> Input {
        let variables: Vec<&str> = self.variables.split(' ').collect();
        let read = |texts: &[&str]| texts.iter().map(|text| polynomial(p, &variables, text)).collect();
        Input { p, n: variables.len() as u32, zeros: read(self.zeros), nonzeros: read(self.nonzeros) }
    }

    /// The point that is stated, or any.
    fn point(&self, input: &Input, rng: &mut Rng) -> Vec<u32> {
        if self.point.is_empty() {
            return rng.point(input.p, input.n);
        }
        self.point.iter().map(|x| x.rem_euclid(input.p as i32) as u32).collect()
    }

    fn job(&self, p: u32, rng: &mut Rng) -> Job {
        let input = self.input(p);
        let table = straight(&input);
        // The first of these rooms that is enough; the last is.
        let rooms = [63, 255, 1023, 4095, 16383, 65535];
        let mut tried = rooms.into_iter().map(|room| (room, measure::measured(&table, room, LIMIT)));
        let (room, measure) = tried.find(|(_, measure)| measure.outcome.0 != 11).unwrap();
        let mut job = measure::roomy(table, LIMIT, room, measure.list);
        job.output += 4;
        if measure.list > 0 {
            job.points = all_points(p, input.n, 625);
        }
        job.points.extend([self.point(&input, rng), rng.point(p, input.n)]);
        job
    }
}

/// Each system under each prime; and under one prime with rooms, limits and outputs about what it needs.
pub fn jobs() -> Vec<Job> {
    let mut rng = Rng(1);
    let mut jobs = Vec::new();
    for system in [WANG, LAZARD, TABLE_5, KNOWN, LINKAGES].into_iter().flatten() {
        jobs.extend(PRIMES.map(|p| system.job(p, &mut rng)));
        let input = system.input(32003);
        let point = system.point(&input, &mut rng);
        jobs.extend(rooms::around(&mut rng, straight(&input), point));
    }
    jobs
}

#[cfg(test)]
mod tests {
    use super::*;

    #[test]
    fn the_points_stated_solve_their_systems() {
        for system in [TABLE_5, LINKAGES].into_iter().flatten().filter(|s| !s.point.is_empty()) {
            let answer = system.job(32003, &mut Rng(1)).answer();
            assert_eq!(answer.outcome.0, 0);
            assert!(matches!(answer.points[0], ((0, 1), (0, 1..))));
        }
    }
}
