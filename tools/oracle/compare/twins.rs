//! Two records beside each other: their bytes are equal exactly where they say the same of the frame.

use crate::case::{Case, Function, Reply};
use crate::side_info_functions::record_of;
use crate::spelling_functions::SPELLING;
use questions::random::Random;
use questions::served::budget_of;
use questions::side_info::BYTES;
use questions::spelled_records::draw_twin;
use questions::spelling::says_the_same;

pub const BESIDE: &str = "the answers to the record beside it differ";
pub const OTHER_BYTES: &str = "it says the same as the record beside it, and the bytes differ";
pub const SAME_BYTES: &str = "it says something else than the record beside it, in the same bytes";

/// The case with another record in its slices; it follows from the case alone. Nothing where the record
/// is not looked at.
pub fn twin_of(function: &Function, case: &Case) -> Option<Case> {
    if function.name != SPELLING || !function.is_read(case) {
        return None;
    }
    let budget = budget_of(&case.numbers)?;
    let mut random = Random::new(case.fill, 0, 0);
    let record = draw_twin(&budget, &record_of(case), &mut random);
    let mut twin = case.clone();
    let parts = [&record.steps[..], &record.scfsi, &record.index];
    for (slice, part) in twin.ins.iter_mut().zip(parts) {
        slice[..part.len()].copy_from_slice(part);
    }
    Some(twin)
}

/// Whether the two records say the same of the frame.
pub fn says_as_much(case: &Case, twin: &Case) -> bool {
    let [one, other] = [case, twin].map(record_of);
    budget_of(&case.numbers).is_some_and(|budget| says_the_same(&budget, &one, &other))
}

/// The second case, with the library's answer and what is right.
pub struct Beside {
    pub case: Case,
    pub answered: Reply,
    pub expected: Reply,
}

pub fn beside(function: &Function, case: &Case) -> Option<Beside> {
    let case = twin_of(function, case)?;
    Some(Beside {
        answered: function.answered(&case),
        expected: function.expected(&case),
        case,
    })
}

/// What the library's answers to the two do not hold.
pub fn broken(case: &Case, answered: &Reply, beside: &Beside) -> Vec<&'static str> {
    let mut differences = Vec::new();
    if beside.answered != beside.expected {
        differences.push(BESIDE);
    }
    if answered.number == 0 && beside.answered.number == 0 {
        let byte = |reply: &Reply, at: usize| reply.memories[0].get(1, at);
        let equal = (0..BYTES).all(|at| byte(answered, at) == byte(&beside.answered, at));
        match (says_as_much(case, &beside.case), equal) {
            (true, false) => differences.push(OTHER_BYTES),
            (false, true) => differences.push(SAME_BYTES),
            _ => {}
        }
    }
    differences
}
