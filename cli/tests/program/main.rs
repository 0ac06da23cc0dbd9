//! The program `parity`, against the model and the elimination decoder of the tests from outside, and against files
//! that were computed apart from it.

// The model is written from the papers alone; not all of it is needed here.
#[allow(dead_code)]
#[path = "../../../tests/outside/src/cases.rs"]
mod cases;
#[allow(dead_code)]
#[path = "../../../tests/outside/src/codes.rs"]
mod codes;
#[allow(dead_code)]
#[path = "../../../tests/outside/src/elimination.rs"]
mod elimination;
#[allow(dead_code)]
#[path = "../../../tests/outside/src/generate.rs"]
mod generate;
#[allow(dead_code)]
#[path = "../../../tests/outside/src/min_sum.rs"]
mod min_sum;
#[allow(dead_code, clippy::needless_range_loop)]
#[path = "../../../tests/outside/src/model.rs"]
mod model;
#[allow(dead_code)]
#[path = "../../../tests/outside/src/random.rs"]
mod random;

/// What `codes` says of a call that fails; none of those is made here.
mod compare {
    pub fn describe(lent: &crate::model::Lent) -> String {
        format!("{lent:?}")
    }
}

mod coding;
mod curves;
mod explaining;
mod formats;
mod golden;
mod json;
mod lines;
mod links;
mod mutations;
mod outputs;
mod refusals;
mod report;
mod same;
mod soft;
mod streams;
mod stumbles;
mod support;
mod words;
mod xml;
