//! Holds one answer of the library against what is right.

use crate::allocation_functions::{self, ALLOCATE};
use crate::case::{Case, Function, Reply};
use crate::twins::{BESIDE, Beside};
use crate::{
    check_functions, header_functions, read_functions, rules, sample_functions,
    scalefactor_functions, side_info_functions, spelling_functions, table_functions, twins,
};

/// Every function of the library.
pub fn functions() -> Vec<Function> {
    let mut functions: Vec<Function> = Vec::new();
    functions.extend(header_functions::FUNCTIONS);
    functions.extend(allocation_functions::FUNCTIONS);
    functions.extend(table_functions::FUNCTIONS);
    functions.extend(scalefactor_functions::FUNCTIONS);
    functions.extend(sample_functions::FUNCTIONS);
    functions.extend(side_info_functions::FUNCTIONS);
    functions.extend(read_functions::FUNCTIONS);
    functions.extend(check_functions::FUNCTIONS);
    functions.extend(spelling_functions::FUNCTIONS);
    functions
}

pub const ANSWER: &str = "the answers differ";

/// Makes the library's answer wrong on purpose, to see that it is noticed: to the case, or, where that
/// must be noticed, to the one beside it.
pub struct Break {
    pub name: &'static str,
    pub function: &'static str,
    /// What must be noticed.
    pub difference: &'static str,
    pub change: fn(&Function, &Case, &mut Reply),
}

pub struct Verdict {
    pub answered: Reply,
    pub expected: Reply,
    /// The case beside it, where there is one.
    pub beside: Option<Beside>,
    /// Empty where all is well.
    pub differences: Vec<&'static str>,
}

pub fn judge(function: &Function, case: &Case, broken: Option<&Break>) -> Verdict {
    let expected = function.expected(case);
    let mut answered = function.answered(case);
    let mut beside = twins::beside(function, case);
    match broken.filter(|broken| broken.function == function.name) {
        Some(broken) if broken.difference == BESIDE => {
            if let Some(Beside { case, answered, .. }) = &mut beside {
                (broken.change)(function, case, answered);
            }
        }
        Some(broken) => (broken.change)(function, case, &mut answered),
        None => {}
    }
    let mut differences = Vec::new();
    if let Some(beside) = &beside {
        differences.extend(twins::broken(case, &answered, beside));
    }
    if answered != expected {
        differences.push(ANSWER);
    }
    if function.name == ALLOCATE && answered.number == 0 && expected.number == 0 {
        differences.extend(rules::broken(case, &answered));
    }
    Verdict {
        answered,
        expected,
        beside,
        differences,
    }
}
