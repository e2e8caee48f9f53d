//! The solver once more, written from document 01 and for speed (`field`, `poly`, `table`, `run`): it shares no code with the proved one, and
//! two ideas only, the prime test's wheel of 30 and the or-ed monomials before the exact test of degrees. The two are compared on many jobs.
//! What makes the jobs stands beside it.

pub mod field;
pub mod jobs;
pub mod poly;
pub mod rng;
pub mod run;
pub mod table;
pub mod words;
