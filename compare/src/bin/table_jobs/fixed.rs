//! Every refusal at every place it can come from, and what is accepted, each with the answer that document 01 gives.

use crate::{Job, LIST, READ, TABLE};
use reference::jobs::{edited, power, term, with_terms, Edit, Outcome, Record, INPUT};

const BIG: u32 = u32::MAX;

const INPUT_HEADS: [usize; 3] = [1, 4, 7];
const INPUT_TERMS: [usize; 6] = [2, 3, 5, 6, 8, 9];

/// Modulo 7, two variables, two systems: T = v1 + 6, v1 v2 + 6 with U = v1 + 1, solved by (1, 1); T = v2 with U empty.
const LISTED: [Record; 14] = [
    [7, 2, 1, 2],
    [2, 8, 0, 11],
    [3, 0, 0, 5],
    [1, 0, 1, 4],
    [6, 0, 0, 0],
    [6, 0, 0, 0],
    [1, 0, 257, 7],
    [6, 0, 0, 0],
    [9, 0, 0, 0],
    [1, 0, 1, 10],
    [1, 0, 0, 0],
    [12, 0, 0, 0],
    [13, 0, 0, 0],
    [1, 0, 256, 0],
];
const LISTED_SYSTEMS: [usize; 2] = [1, 11];
const LISTED_HEADS: [usize; 4] = [2, 5, 8, 12];
const LISTED_TERMS: [usize; 7] = [3, 4, 6, 7, 9, 10, 13];

#[derive(Default)]
struct Jobs(Vec<(Job, Outcome)>);

impl Jobs {
    fn push(&mut self, kind: u32, table: Vec<u32>, point: &[u32], answer: Outcome) {
        self.0.push((Job { kind, table, point: point.to_vec() }, answer));
    }

    /// A table that reading refuses, read and tried.
    fn refused(&mut self, table: Vec<u32>, answer: Outcome) {
        self.push(READ, table.clone(), &[], answer);
        self.push(TABLE, table, &[2, 4], answer);
    }

    /// What is refused as a table and as a list.
    fn refused_both(&mut self, table: &[u32], answer: Outcome) {
        self.refused(table.to_vec(), answer);
        self.push(LIST, table.to_vec(), &[1, 1], answer);
    }

    fn input(&mut self, edits: &[Edit], number: u32, record: usize) {
        self.refused(edited(&INPUT, edits), (number, record as u32));
    }

    fn list(&mut self, edits: &[Edit], number: u32, record: usize) {
        self.push(LIST, edited(&LISTED, edits), &[1, 1], (number, record as u32));
    }

    /// A table that is accepted, and whether the point solves it.
    fn tried(&mut self, records: &[Record], point: &[u32], yes: bool) {
        self.push(READ, records.concat(), &[], (0, 0));
        self.push(TABLE, records.concat(), point, (0, yes as u32));
    }

    /// A list that is accepted, and the place that the point has.
    fn placed(&mut self, records: &[Record], point: &[u32], place: u32) {
        self.push(LIST, records.concat(), point, (0, place));
    }
}

/// 1, 2 and 3, for both operations alike.
fn headers(jobs: &mut Jobs) {
    for words in [0, 1, 2, 3, 5, 7, 17] {
        jobs.refused_both(&INPUT.concat()[..words], (1, 0));
    }
    for p in [0, 1, 4, 9, 46337 * 46337, 2147483646, 2147483648, 2147483649, 4294967291, BIG] {
        jobs.refused_both(&[p, 2, 0, 0], (2, 0));
    }
    // Squares of the primes from 7 to 61, so that a factor of each residue modulo 30 decides; and pseudoprimes.
    for q in [7, 11, 13, 17, 19, 23, 29, 31, 37, 41, 43, 47, 53, 59, 61] {
        jobs.refused_both(&[q * q, 2, 0, 0], (2, 0));
    }
    for p in [561, 1105, 1729, 2047, 1373653, 25326001] {
        jobs.refused_both(&[p, 2, 0, 0], (2, 0));
    }
    for n in [0, 9, 256, BIG] {
        jobs.refused_both(&[7, n, 0, 0], (3, 0));
    }
    for p in [2, 3, 5, 46337, 2147483629, 2147483647] {
        jobs.tried(&[[p, 2, 0, 0]], &[1, p - 1], true);
        jobs.placed(&[[p, 2, 0, 0]], &[1, p - 1], 0);
    }
}

/// 4 at each index: back, its own record's number, past the end.
fn indices(jobs: &mut Jobs) {
    let heads_and_terms = |heads: &[usize], terms: &[usize]| -> Vec<(usize, usize)> {
        let heads = heads.iter().flat_map(|&i| [(i, 0), (i, 3)]);
        heads.chain(terms.iter().map(|&i| (i, 3))).collect()
    };
    let wrong = |record: usize, count: usize| {
        let values = [1, record as u32 - 1, record as u32, count as u32, count as u32 + 1, BIG];
        values.into_iter().filter(move |&i| i != 0 && (i <= record as u32 || i >= count as u32))
    };
    for past in [10, 11, 65536, BIG] {
        jobs.input(&[(0, 2, past)], 4, 0);
        jobs.input(&[(0, 3, past)], 4, 0);
    }
    for (record, word) in heads_and_terms(&INPUT_HEADS, &INPUT_TERMS) {
        for i in wrong(record, INPUT.len()) {
            jobs.input(&[(record, word, i)], 4, record);
        }
    }
    for past in [14, 15, 65536, BIG] {
        jobs.list(&[(0, 2, past)], 4, 0);
    }
    let mut places = heads_and_terms(&LISTED_HEADS, &LISTED_TERMS);
    places.extend(LISTED_SYSTEMS.iter().flat_map(|&i| [(i, 0), (i, 1), (i, 3)]));
    for (record, word) in places {
        for i in wrong(record, LISTED.len()) {
            jobs.list(&[(record, word, i)], 4, record);
        }
    }
}

/// 5 at each head, 6 and 7 at each term, 8 at each second term.
fn records(jobs: &mut Jobs) {
    for (word, value) in [(1, 1), (1, BIG), (2, 1), (2, BIG)] {
        INPUT_HEADS.iter().for_each(|&i| jobs.input(&[(i, word, value)], 5, i));
        LISTED_HEADS.iter().for_each(|&i| jobs.list(&[(i, word, value)], 5, i));
    }
    for c in [0, 7, 8, BIG] {
        INPUT_TERMS.iter().for_each(|&i| jobs.input(&[(i, 0, c)], 6, i));
        LISTED_TERMS.iter().for_each(|&i| jobs.list(&[(i, 0, c)], 6, i));
    }
    for (word, value) in [(1, 1), (1, 1 << 24), (2, 1 << 16), (2, 255 << 24)] {
        INPUT_TERMS.iter().for_each(|&i| jobs.input(&[(i, word, value)], 7, i));
        LISTED_TERMS.iter().for_each(|&i| jobs.list(&[(i, word, value)], 7, i));
    }
    // The term before, and one step above it.
    for (i, before) in [(3, 257), (6, 2), (9, 1)] {
        jobs.input(&[(i, 2, before)], 8, i);
        jobs.input(&[(i, 2, before + 1)], 8, i);
    }
    for (i, before) in [(4, 1), (7, 257), (10, 1)] {
        jobs.list(&[(i, 2, before)], 8, i);
        jobs.list(&[(i, 2, before + 1)], 8, i);
    }
}

/// 7 for each n and each variable, and 8 for each pair of neighbours: vk^255 is below v(k+1).
fn exponents(jobs: &mut Jobs) {
    for n in 1..=8 {
        for (k, e) in (1..=8).flat_map(|k| [(k, 1), (k, 255)]) {
            let only = term(1, power(k, e), 0);
            let table = [[7, n, 1, 0], [2, 0, 0, 0], only].concat();
            let list = [[7, n, 1, 1], [2, 0, 0, 0], [3, 0, 0, 0], only].concat();
            let (of_table, of_list) = if k <= n { ((0, 0), (0, 1)) } else { ((7, 2), (7, 3)) };
            jobs.push(READ, table, &[], of_table);
            jobs.push(LIST, list, &vec![0; n as usize], of_list);
        }
    }
    for k in 1..=7 {
        let (above, below) = (power(k + 1, 1), power(k, 255));
        let table = |first: u64, second: u64| [[7, 8, 1, 0], [2, 0, 0, 0], term(1, first, 3), term(1, second, 0)];
        jobs.tried(&table(above, below), &[0; 8], true);
        jobs.refused(table(below, above).concat(), (8, 3));
        jobs.refused(table(below, below).concat(), (8, 3));
    }
}

/// 9 at the 257th term of P, Q, T and U, whatever it holds; 256 terms are accepted.
fn terms(jobs: &mut Jobs) {
    let (p, q): ([Record; 2], [Record; 2]) = ([[7, 2, 1, 0], [2, 0, 0, 0]], [[7, 2, 0, 1], [2, 0, 0, 0]]);
    let t: [Record; 3] = [[7, 2, 1, 1], [2, 0, 0, 0], [3, 0, 0, 0]];
    let u: [Record; 3] = [[7, 2, 1, 1], [0, 2, 0, 0], [3, 0, 0, 0]];
    // v1^255 + .. + 1 at 1 is 256, which is 4 modulo 7; at 2, whose powers sum to 0 by threes, it is 1.
    jobs.tried(&with_terms(&p, 256), &[1, 0], false);
    jobs.tried(&with_terms(&q, 256), &[2, 0], true);
    jobs.placed(&with_terms(&t, 256), &[1, 0], 0);
    jobs.placed(&with_terms(&u, 256), &[2, 0], 1);
    jobs.refused(with_terms(&p, 257).concat(), (9, 258));
    jobs.refused(with_terms(&q, 300).concat(), (9, 258));
    jobs.push(LIST, with_terms(&t, 257).concat(), &[1, 1], (9, 259));
    jobs.push(LIST, with_terms(&u, 300).concat(), &[1, 1], (9, 259));
    jobs.refused(edited(&with_terms(&p, 257), &[(258, 0, 0), (258, 1, 1), (258, 3, 1)]), (9, 258));
    jobs.refused(edited(&with_terms(&p, 256), &[(257, 3, 258)]), (4, 257));
}

/// 14 after all refusals of reading.
fn points(jobs: &mut Jobs) {
    let all: [&[u32]; 9] = [&[], &[1], &[1, 1, 1], &[1; 16], &[7, 1], &[1, 7], &[8, 1], &[1, BIG], &[BIG, BIG]];
    for point in all {
        jobs.push(TABLE, INPUT.concat(), point, (14, 0));
        jobs.push(LIST, LISTED.concat(), point, (14, 0));
        jobs.push(TABLE, edited(&INPUT, &[(9, 0, 7)]), point, (6, 9));
        jobs.push(LIST, edited(&LISTED, &[(0, 3, 1)]), point, (15, 0));
    }
    for (p, n, point) in [(2, 1, vec![2]), (2147483647, 1, vec![2147483647]), (7, 8, vec![0; 7]), (7, 8, vec![0; 9])] {
        jobs.push(TABLE, vec![p, n, 0, 0], &point, (14, 0));
        jobs.push(LIST, vec![p, n, 0, 0], &point, (14, 0));
    }
    for point in (0..7).flat_map(|x| (0..7).map(move |y| [x, y])) {
        jobs.push(TABLE, INPUT.concat(), &point, (0, (point == [2, 4]) as u32));
        let place = if point == [1, 1] { 1 } else { 2 * (point[1] == 0) as u32 };
        jobs.push(LIST, LISTED.concat(), &point, (0, place));
    }
}

/// 15 at a system, after a T polynomial, and for a wrong count.
fn broken(jobs: &mut Jobs) {
    for i in LISTED_SYSTEMS {
        jobs.list(&[(i, 2, 1)], 15, i);
        jobs.list(&[(i, 2, BIG)], 15, i);
    }
    // Zero, a constant.
    for (head, constant) in [(2, 4), (5, 7)] {
        jobs.list(&[(head, 0, 0)], 15, head);
        jobs.list(&[(head, 0, constant)], 15, head);
    }
    jobs.list(&[(12, 0, 0)], 15, 12);
    jobs.list(&[(13, 2, 0)], 15, 12);
    // Led by v1 twice, by v2 twice, by v2 and v1.
    jobs.list(&[(6, 2, 2)], 15, 5);
    jobs.list(&[(3, 2, 256)], 15, 5);
    jobs.list(&[(3, 2, 256), (6, 2, 2)], 15, 5);
    for count in [0, 1, 3, BIG] {
        jobs.list(&[(0, 3, count)], 15, 0);
    }
    jobs.list(&[(0, 2, 0)], 15, 0);
    jobs.push(LIST, vec![7, 2, 0, 1], &[1, 1], (15, 0));
    // The last of a system does not bind the next; nor does T bind U.
    jobs.push(LIST, edited(&LISTED, &[(13, 2, 1)]), &[0, 0], (0, 2));
    jobs.push(LIST, edited(&LISTED, &[(8, 3, 12)]), &[1, 1], (0, 1));
    for k in 1..=8 {
        let (first, second) = (term(1, power(k, 1), 0), term(1, power(k % 8 + 1, 1), 0));
        let list = [[7, 8, 1, 1], [2, 0, 0, 0], [3, 0, 0, 4], first, [5, 0, 0, 0], second];
        jobs.push(LIST, list.concat(), &[0; 8], if k < 8 { (0, 1) } else { (15, 4) });
    }
}

/// Where two rules are broken, the first in reading order.
fn order(jobs: &mut Jobs) {
    jobs.refused_both(&[9, 9, 9], (1, 0));
    jobs.refused_both(&[9, 9, 9, 9], (2, 0));
    jobs.refused_both(&[7, 9, 9, 9], (3, 0));
    jobs.input(&[(0, 2, 10), (0, 3, 10)], 4, 0);
    jobs.input(&[(9, 0, 0), (6, 1, 1)], 7, 6);
    jobs.input(&[(0, 3, 10), (4, 1, 1)], 5, 4);
    jobs.input(&[(4, 1, 1), (4, 0, 4)], 5, 4);
    jobs.input(&[(1, 3, 1), (3, 0, 0)], 6, 3);
    jobs.input(&[(4, 2, 1), (3, 3, 2)], 4, 3);
    jobs.input(&[(3, 0, 0), (3, 1, 1)], 6, 3);
    jobs.input(&[(3, 0, 7), (3, 2, 257)], 6, 3);
    jobs.input(&[(6, 1, 1), (6, 3, 1)], 7, 6);
    jobs.input(&[(6, 2, 2), (6, 3, 1)], 8, 6);
    jobs.list(&[(0, 2, 14), (0, 3, 0)], 4, 0);
    jobs.list(&[(1, 2, 1), (1, 0, 1)], 15, 1);
    jobs.list(&[(1, 0, 1), (1, 1, 1), (1, 3, 1)], 4, 1);
    jobs.list(&[(5, 1, 1), (8, 1, 1)], 5, 5);
    jobs.list(&[(8, 1, 1), (11, 2, 1)], 5, 8);
    jobs.list(&[(1, 3, 1), (10, 0, 0)], 6, 10);
    jobs.list(&[(2, 0, 4), (4, 3, 1)], 4, 4);
    jobs.list(&[(2, 0, 4), (2, 3, 1)], 15, 2);
    jobs.list(&[(2, 0, 0), (2, 1, 1)], 5, 2);
    jobs.list(&[(0, 3, 1), (11, 2, 1)], 15, 11);
    jobs.list(&[(0, 3, 1), (13, 3, 13)], 4, 13);
}

/// Zeros, constants, shared and unreached records in tables that are accepted.
fn tables(jobs: &mut Jobs) {
    let yes_at = |jobs: &mut Jobs, records: &[Record], solved: &dyn Fn(u32, u32) -> bool| {
        for (x, y) in [(0, 0), (1, 1), (2, 4), (3, 0), (6, 6)] {
            jobs.tried(records, &[x, y], solved(x, y));
        }
    };
    yes_at(jobs, &[[7, 2, 0, 0]], &|_, _| true);
    // Zero in P, in Q; a constant in P, in Q; one chain for both; one head's terms for another; P's second head as Q's first.
    yes_at(jobs, &[[7, 2, 1, 0], [0, 0, 0, 0]], &|_, _| true);
    yes_at(jobs, &[[7, 2, 0, 1], [0, 0, 0, 0]], &|_, _| false);
    yes_at(jobs, &[[7, 2, 1, 0], [2, 0, 0, 0], [6, 0, 0, 0]], &|_, _| false);
    yes_at(jobs, &[[7, 2, 0, 1], [2, 0, 0, 0], [6, 0, 0, 0]], &|_, _| true);
    yes_at(jobs, &[[7, 2, 1, 1], [2, 0, 0, 0], [1, 0, 1, 0]], &|_, _| false);
    yes_at(jobs, &[[7, 2, 1, 0], [3, 0, 0, 2], [3, 0, 0, 0], [1, 0, 256, 4], [6, 0, 1, 0]], &|x, y| x == y);
    yes_at(jobs, &[[7, 2, 1, 2], [3, 0, 0, 2], [3, 0, 0, 0], [1, 0, 1, 0]], &|_, _| false);
    // v2 + v1 and v1: the second polynomial is the end of the first. Record 3 is a term of Q, and a head of P.
    yes_at(jobs, &[[7, 2, 1, 0], [3, 0, 0, 2], [4, 0, 0, 0], [1, 0, 256, 4], [1, 0, 1, 0]], &|x, y| x == 0 && y == 0);
    yes_at(jobs, &[[7, 2, 3, 1], [2, 0, 0, 0], [1, 0, 1, 3], [4, 0, 0, 0], [1, 0, 256, 0]], &|x, y| y == 0 && x != 3);
    // Unreached records may hold anything.
    let [_, head, term, ..] = INPUT;
    let junk = [BIG; 4];
    yes_at(jobs, &[[7, 2, 2, 0], junk, [4, 0, 0, 0], [3, 3, 3, 3], [1, 0, 1, 0], junk, head, term], &|x, _| x == 0);
}

/// The same in lists.
fn lists(jobs: &mut Jobs) {
    // Record 2 is a system and a head, record 3 a head and a term: U = 4, and T = v1.
    jobs.placed(&[[7, 2, 1, 2], [0, 2, 0, 2], [3, 0, 0, 0], [4, 0, 0, 0], [1, 0, 1, 0]], &[0, 0], 1);
    // Zero in U. One T for two systems; T's chain as U's.
    let zero = [[7, 2, 1, 2], [4, 3, 0, 2], [4, 0, 0, 0], [0, 0, 0, 0], [5, 0, 0, 0], [1, 0, 1, 0], [BIG; 4]];
    jobs.placed(&zero, &[0, 0], 2);
    jobs.placed(&zero, &[1, 0], 0);
    let same = [[7, 2, 1, 2], [3, 3, 0, 2], [3, 0, 0, 0], [4, 0, 0, 0], [1, 0, 1, 0]];
    jobs.placed(&same, &[0, 3], 2);
    jobs.placed(&same, &[3, 0], 0);
    jobs.placed(&[[7, 2, 1, 1], [0, 0, 0, 0]], &[3, 3], 1);
}

/// Both ends of what is allowed, and document 01's printed job.
fn extremes(jobs: &mut Jobs) {
    // The largest prime: v1 + 1 at p - 1; every exponent 255, at p - 1 and at 0. The smallest, with all eight variables.
    let top = 2147483647;
    jobs.tried(&[[top, 1, 1, 0], [2, 0, 0, 0], [1, 0, 1, 3], [1, 0, 0, 0]], &[top - 1], true);
    jobs.tried(&[[top, 8, 1, 0], [2, 0, 0, 0], [top - 1, BIG, BIG, 3], [1, 0, 0, 0]], &[top - 1; 8], true);
    jobs.tried(&[[top, 8, 1, 0], [2, 0, 0, 0], [1, BIG, BIG, 0]], &[1, 2, 3, 4, 5, 6, 7, 0], true);
    jobs.tried(&[[2, 8, 1, 0], [2, 0, 0, 0], [1, BIG, BIG, 3], [1, 0, 0, 0]], &[1; 8], true);
    jobs.tried(&[[2, 8, 1, 0], [2, 0, 0, 0], [1, BIG, BIG, 3], [1, 0, 0, 0]], &[1, 1, 1, 0, 1, 1, 1, 1], false);
    // The printed job and its list.
    let input = [[7, 2, 1, 0], [2, 0, 0, 0], [1, 0, 257, 3], [6, 0, 0, 0]];
    let list = [[7, 2, 1, 1], [2, 5, 0, 0], [3, 0, 0, 0], [1, 0, 257, 4], [6, 0, 0, 0], [6, 0, 0, 0], [1, 0, 1, 0]];
    for (x, y) in (0..7).flat_map(|x| (0..7).map(move |y| (x, y))) {
        let solved = x * y % 7 == 1;
        jobs.push(TABLE, input.concat(), &[x, y], (0, solved as u32));
        jobs.placed(&list, &[x, y], solved as u32);
    }
}

pub fn jobs() -> Vec<(Job, Outcome)> {
    let mut jobs = Jobs::default();
    for part in [headers, indices, records, exponents, terms, points, broken, order, tables, lists, extremes] {
        part(&mut jobs);
    }
    jobs.0
}

/// The most records and one more, with chains through all of them.
pub fn large() -> Vec<(Job, Outcome)> {
    let mut jobs = Jobs::default();
    let with = |count: usize, first: Record| {
        let mut records = vec![[0; 4]; count];
        records[0] = first;
        records
    };
    jobs.push(READ, with(65537, [7, 2, 0, 0]).concat(), &[], (1, 0));
    jobs.push(LIST, with(65537, [7, 2, 0, 0]).concat(), &[1, 1], (1, 0));
    jobs.push(TABLE, with(65536, [7, 2, 65535, 0]).concat(), &[1, 1], (0, 1));
    jobs.push(READ, with(65536, [7, 2, 65536, 0]).concat(), &[], (4, 0));
    // Each record but the first is a head of P: zero.
    let mut chain = with(65536, [7, 2, 1, 0]);
    (1..65535).for_each(|i| chain[i][3] = i as u32 + 1);
    jobs.push(TABLE, chain.concat(), &[1, 1], (0, 1));
    jobs.push(READ, edited(&chain, &[(65535, 3, 65535)]), &[], (4, 65535));
    // Each is a system, and the last a head of zero in the others' U.
    chain[0] = [7, 2, 1, 65535];
    (1..65535).for_each(|i| chain[i][1] = 65535);
    jobs.push(LIST, chain.concat(), &[1, 1], (0, 65535));
    jobs.push(LIST, edited(&chain, &[(0, 3, 65534)]), &[1, 1], (15, 0));
    jobs.0
}
