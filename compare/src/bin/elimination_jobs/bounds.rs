//! Products and differences at 255 and 256: what is tested in a division, in which order, and what is not.

use crate::fixed::{job, Jobs};
use crate::systems::gathered;
use crate::text::polynomial;
use crate::Job;
use reference::jobs::{power, straight};
use reference::poly::{product, Poly};
use reference::table::Input;

/// Modulo 7 in v1, v2, v3.
fn read(text: &str) -> Poly {
    polynomial(7, &["v1", "v2", "v3"], text)
}

/// 1 + vk + .. with so many terms.
fn series(k: u32, terms: u32) -> Poly {
    gathered(7, (0..terms).map(|e| (1, power(k, e))).collect())
}

fn times(f: &Poly, g: &Poly) -> Poly {
    product(7, f, g).unwrap()
}

fn plus(f: &Poly, g: &Poly) -> Poly {
    gathered(7, f.terms().chain(g.terms()).collect())
}

fn with(zeros: Vec<Poly>, nonzeros: Vec<Poly>) -> Job {
    let input = Input { p: 7, n: 3, zeros, nonzeros };
    Job { work: 16384, output: 4, ..job(straight(&input)) }
}

/// Refused inside a step, or for the output, which has one record: room for a list of no systems.
fn stops(jobs: &mut Jobs, zeros: Vec<Poly>, nonzeros: Vec<Poly>, number: u32, steps: u32) {
    jobs.stated(with(zeros, nonzeros), (number, 0), steps);
}

/// Exponents: each variable below the leading one, in the initial times the dividend and in the other product.
fn degrees(jobs: &mut Jobs) {
    for k in 1..8 {
        for (e, number, steps) in [(55, 13, 6), (56, 10, 1)] {
            let led = |e: u32| gathered(7, vec![(1, power(k, e) | power(8, 1)), (1, 0)]);
            // With 200 and 55 in two terms: their bits together are more than the degree.
            for first in [led(200), plus(&led(200), &gathered(7, vec![(1, power(k, 55) | power(8, 1))]))] {
                let input = Input { p: 7, n: 8, zeros: vec![first, led(e)], nonzeros: vec![] };
                jobs.stated(Job { output: 4, ..job(straight(&input)) }, (number, 0), steps);
            }
        }
    }
    for (e, number, steps) in [(55, 13, 2), (56, 10, 0)] {
        let g = plus(&gathered(7, vec![(1, power(1, e) | power(2, 3))]), &read("1"));
        stops(jobs, vec![read("v2^2 + v1^200")], vec![g], number, steps);
    }
    // Every exponent 255: no product is formed.
    let all = gathered(7, vec![(1, u64::MAX), (1, 0)]);
    let input = Input { p: 7, n: 8, zeros: vec![all], nonzeros: vec![] };
    jobs.stated(Job { output: 28, ..job(straight(&input)) }, (0, 1), 4);
}

/// Terms: of the initial times the dividend, of the other product, of the difference.
fn terms(jobs: &mut Jobs) {
    let v3 = read("v3");
    for (b, number, steps) in [(16, 13, 3), (17, 9, 0)] {
        let initial = series(1, 16);
        stops(jobs, vec![times(&initial, &v3), times(&series(2, b), &v3)], vec![initial], number, steps);
    }
    // An initial of two terms: products of 256 and of 257.
    let two = read("v1 + 1");
    for (g, number, steps) in [(series(2, 128), 13, 3), (plus(&series(2, 128), &read("v1")), 9, 0)] {
        stops(jobs, vec![times(&two, &v3), times(&g, &v3)], vec![two.clone()], number, steps);
    }
    // The other product has a term more for each of the dividend: 255 and 272. With 255 the run goes on in v2, and is refused there.
    let initial = series(1, 16);
    let pivot = plus(&times(&initial, &v3), &read("1"));
    let zeros = |b: u32| vec![pivot.clone(), times(&series(2, b), &read("v3^2"))];
    let goes_on = with(zeros(15), vec![initial.clone()]);
    assert!(goes_on.answer().steps > 0);
    jobs.0.push(goes_on);
    stops(jobs, zeros(16), vec![initial], 9, 0);
    for (b, number, steps) in [(156, 13, 2), (157, 9, 0)] {
        let g = plus(&read("v2^3"), &series(1, b));
        stops(jobs, vec![plus(&read("v2^2"), &series(1, 100))], vec![g], number, steps);
    }
    // 256 terms as they are, in P and in Q; and divided by 255, which leaves 1.
    stops(jobs, vec![series(1, 256)], vec![series(2, 256)], 13, 2);
    stops(jobs, vec![series(1, 256), series(1, 255)], vec![], 0, 2);
}

/// Which of 9 and 10 comes first: the degrees of a product before its terms, the initial's product before the other.
fn precedence(jobs: &mut Jobs) {
    let v3_squared = read("v3^2");
    let initial = plus(&read("v2^200"), &series(1, 16));
    let g = times(&v3_squared, &plus(&read("v2^56"), &series(2, 15)));
    stops(jobs, vec![times(&initial, &read("v3")), g], vec![initial], 10, 0);
    for (a, number) in [(16, 10), (17, 9)] {
        let initial = series(2, a);
        let pivot = plus(&times(&initial, &read("v3")), &read("v1^200"));
        let g = times(&v3_squared, &plus(&read("v1^56"), &series(1, 15)));
        stops(jobs, vec![pivot, g], vec![initial], number, 0);
    }
}

/// Products whose partial sums have more terms than they: these are not tested.
fn partial_sums(jobs: &mut Jobs) {
    let square = times(&series(1, 16), &series(2, 16));
    let g = times(&square, &read("v3^2"));
    let initial = read("(v1 - 1)*(v2 - 1)");
    let led = times(&initial, &read("v3"));
    stops(jobs, vec![led.clone(), g.clone()], vec![initial.clone()], 13, 3);
    stops(jobs, vec![plus(&led, &read("1")), g], vec![initial], 9, 0);
    let initial = read("(v1 - 1)^2");
    let g = times(&times(&series(1, 128), &read("1 + v2")), &read("v3^2"));
    stops(jobs, vec![times(&initial, &read("v3")), g], vec![initial], 13, 3);
}

/// Of two members of Q, one whose remainder has no room and one whose division is refused, the first answers.
fn members(jobs: &mut Jobs) {
    let pivot = plus(&read("v2^2"), &series(1, 100));
    let grows = plus(&read("v2^3"), &series(1, 100));
    let refused = plus(&read("v2^3"), &series(1, 157));
    let room = 1 + 102 + 102 + 159;
    for (q, more, number) in [
        (vec![grows.clone(), refused.clone()], 0, 11),
        (vec![grows.clone(), refused.clone()], 98, 11),
        (vec![grows.clone(), refused.clone()], 99, 9),
        (vec![refused, grows], 0, 9),
    ] {
        let job = Job { work: 4 * (room + more + 1), ..with(vec![pivot.clone()], q) };
        jobs.stated(job, (number, 0), 0);
    }
}

pub fn jobs(jobs: &mut Jobs) {
    degrees(jobs);
    terms(jobs);
    precedence(jobs);
    partial_sums(jobs);
    members(jobs);
}
