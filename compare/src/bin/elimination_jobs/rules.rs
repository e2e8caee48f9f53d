//! The choices that the rules leave to ties, orders and puts, worked out by hand.

use crate::fixed::{job, Jobs, NOTHING, PAIR};
use crate::Job;
use reference::jobs::{table, Term};

/// Which polynomial is the pivot, and which is divided first.
fn pivots(jobs: &mut Jobs) {
    // The pivot is v2 + 1, of two terms: v2^2 + 1 leaves 2, and the branch is dropped.
    let shortest: [&[Term]; 3] = [&[(1, &[0, 2]), (1, &[])], &[(1, &[0, 1]), (1, &[1]), (1, &[])], &[(1, &[0, 1]), (1, &[])]];
    jobs.listed(table(7, 2, &shortest, &[]), NOTHING, 2, 0);
    // The pivot is the earlier one, v2 + v1: the other leaves 6 v1 + 1.
    let earliest: [&[Term]; 2] = [&[(1, &[0, 1]), (1, &[1])], &[(1, &[0, 1]), (1, &[])]];
    let list = "7 2 1 1, 2 0 0 0, 3 0 0 5, 1 0 1 4, 6 0 0 0, 6 0 0 0, 1 0 256 7, 1 0 1 0";
    jobs.listed(table(7, 2, &earliest, &[]), list, 4, 1);
    // v3 + v2 + v1 is divided by v3 before v3 + v2 + v1^2: so v2 + v1 stands first in P, and is the pivot in v2.
    let divided: [&[Term]; 3] =
        [&[(1, &[0, 0, 1]), (1, &[0, 1]), (1, &[1])], &[(1, &[0, 0, 1]), (1, &[0, 1]), (1, &[2])], &[(1, &[0, 0, 1])]];
    let list = "7 3 1 1, 2 0 0 0, 3 0 0 5, 1 0 2 4, 6 0 1 0, 6 0 0 8, 1 0 256 7, 1 0 1 0, 9 0 0 0, 1 0 65536 0";
    jobs.listed(table(7, 3, &divided, &[]), list, 7, 2);
}

/// Splits: what the branch set aside holds, in which order, and which branch is opened next.
fn splits(jobs: &mut Jobs) {
    // v1 v2 + v1: the initial and the rest are equal in the branch set aside, which is listed second.
    let list = "7 2 1 2, 2 5 0 7, 3 0 0 0, 1 0 257 4, 1 0 1 0, 6 0 0 0, 1 0 1 0, 8 0 0 0, 9 0 0 0, 1 0 1 0";
    jobs.listed(table(7, 2, &[&[(1, &[1, 1]), (1, &[1])]], &[]), list, 5, 13);
    // The initial v1 is in P, and not in Q: a split, and both branches are dropped.
    jobs.listed(table(7, 2, &[PAIR, &[(1, &[1])]], &[]), NOTHING, 5, 0);
    // (v2 + v1) v3 + v2 + v1^2: the initial is put before the rest, and so is the pivot of the branch set aside.
    let ordered: &[Term] = &[(1, &[0, 1, 1]), (1, &[1, 0, 1]), (1, &[0, 1]), (1, &[2])];
    let list = "7 3 1 2, 2 7 0 10, 3 0 0 0, 1 0 65792 4, 1 0 65537 5, 1 0 256 6, 1 0 2 0, 8 0 0 0, 1 0 256 9, 1 0 1 0,
        11 0 0 0, 12 0 0 14, 1 0 2 13, 6 0 1 0, 15 0 0 0, 1 0 256 16, 1 0 1 0";
    jobs.listed(table(7, 3, &[ordered], &[]), list, 7, 56);
    // v2 v3 and v1 v2: two branches wait, and the one set aside last is listed first; a rest of 0 is not put.
    let list = "7 3 1 3, 2 6 0 8, 3 0 0 4, 1 0 1 0, 5 0 0 0, 1 0 65792 0, 7 0 0 0, 1 0 256 0,
        9 11 0 13, 10 0 0 0, 1 0 257 0, 12 0 0 0, 1 0 1 0, 14 0 0 0, 15 0 0 16, 1 0 1 0, 17 0 0 0, 1 0 256 0";
    jobs.listed(table(7, 3, &[&[(1, &[0, 1, 1])], &[(1, &[1, 1])]], &[]), list, 14, 55);
}

/// Putting remainders into Q.
fn companions(jobs: &mut Jobs) {
    // By v2 + v1^2 both of Q, v2 + 1 and 3 v2 + 2 v1^2 + 1, leave 6 v1^2 + 1: U has it once, and monic.
    let parabola: &[Term] = &[(1, &[0, 1]), (1, &[2])];
    let twice: [&[Term]; 2] = [&[(1, &[0, 1]), (1, &[])], &[(3, &[0, 1]), (2, &[2]), (1, &[])]];
    let list = "7 2 1 1, 2 5 0 0, 3 0 0 0, 1 0 256 4, 1 0 2 0, 6 0 0 0, 1 0 2 7, 6 0 0 0";
    jobs.listed(table(7, 2, &[parabola], &twice), list, 2, 5);
    // A number that a division leaves in Q is dropped, zero drops the branch.
    let list = "7 2 1 1, 2 0 0 0, 3 0 0 0, 1 0 256 4, 1 0 2 0";
    jobs.listed(table(7, 2, &[parabola], &[&[(2, &[0, 1]), (2, &[2]), (3, &[])]]), list, 2, 7);
    jobs.listed(table(7, 2, &[parabola], &[&[(2, &[0, 1]), (2, &[2])]]), NOTHING, 2, 0);
}

/// Rooms that are enough, and a record less.
fn rooms(jobs: &mut Jobs) {
    // v1^2 + 6 and v1^2 + v1 + 5 take 8 records with their branch; the second is freed before v1 + 6 is put.
    let divided = job(table(7, 1, &[&[(1, &[2]), (6, &[])], &[(1, &[2]), (1, &[1]), (5, &[])]], &[]));
    jobs.stated(Job { work: 4 * 8, ..divided.clone() }, (11, 0), 0);
    jobs.stated(Job { work: 4 * 9, ..divided }, (0, 1), 4);
    // A split with T = v3 + 1: 7 records, then v1 in Q, then a branch with v1, 1 and T.
    let with_triangle = Job { output: 60, ..job(table(7, 3, &[&[(1, &[0, 0, 1]), (1, &[])], PAIR], &[])) };
    jobs.stated(Job { work: 4 * 17, ..with_triangle.clone() }, (11, 0), 1);
    jobs.stated(Job { work: 4 * 18, ..with_triangle }, (0, 1), 5);
    // A split with Q = v1 + 1: 7 records, then v1 in Q, then a branch with v1, 1 and Q as before.
    let with_companion = job(table(7, 2, &[PAIR], &[&[(1, &[1]), (1, &[])]]));
    jobs.stated(Job { work: 4 * 17, ..with_companion.clone() }, (11, 0), 0);
    jobs.stated(Job { work: 4 * 18, ..with_companion }, (0, 1), 4);
    // v2 v3 and v1 v2: the second split takes the records in use to 21; the third uses those of a dropped branch again.
    let dropped = job(table(7, 3, &[&[(1, &[0, 1, 1])], &[(1, &[1, 1])]], &[]));
    jobs.stated(Job { work: 4 * 21, ..dropped.clone() }, (11, 0), 2);
    jobs.stated(Job { work: 4 * 22, ..dropped }, (0, 3), 14);
}

pub fn jobs(jobs: &mut Jobs) {
    pivots(jobs);
    splits(jobs);
    companions(jobs);
    rooms(jobs);
}
