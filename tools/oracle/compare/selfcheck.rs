//! Spoils the library's answers one way at a time and sees that each is noticed and shrunk.

use crate::breaks::READ;
use crate::case::{Case, Function};
use crate::judge::{Break, judge};
use crate::report;
use crate::run::{Cases, Found, go, shrunk};

/// Enough to meet every way in which an answer is spoilt.
const CASES: u64 = 500_000;

/// True where every spoilt answer was reported.
pub fn selfcheck(functions: &[Function], breaks: &[Break], seed: u64, shown: bool) -> bool {
    let mut missed = 0;
    for broken in breaks {
        let words = check(functions, broken, seed, shown);
        missed += u32::from(words.is_err());
        let (Ok(words) | Err(words)) = words;
        println!("{}: {words}", broken.name);
    }
    println!(
        "{} of {} ways are reported",
        breaks.len() as u32 - missed,
        breaks.len()
    );
    missed == 0
}

fn check(functions: &[Function], broken: &Break, seed: u64, shown: bool) -> Result<String, String> {
    let only = functions
        .iter()
        .position(|function| function.name == broken.function);
    let only: Vec<usize> = only.into_iter().collect();
    let cases = Cases {
        seed,
        first: 0,
        count: CASES,
    };
    let Err(found) = go(functions, &cases, &only, Some(broken)) else {
        return Err("NOT NOTICED".to_string());
    };
    if !found.differences.contains(&broken.difference) {
        return Err(format!("noticed as {:?} alone", found.differences));
    }
    check_shrunk(&functions[found.function], &found, broken, shown)
}

fn check_shrunk(
    function: &Function,
    found: &Found,
    broken: &Break,
    shown: bool,
) -> Result<String, String> {
    let small = shrunk(function, found, broken.difference, Some(broken));
    if !judge(function, &small, Some(broken))
        .differences
        .contains(&broken.difference)
    {
        return Err("shrunk to a case without the difference".to_string());
    }
    let (before, left) = (nonzero(&found.case), nonzero(&small));
    if broken.name == function.name && !function.ins.is_empty() && left != [(0, READ)] {
        return Err(format!("shrunk to {left:?}, not to {READ} alone"));
    }
    if shown {
        print!("{}", report::difference(function, &small, Some(broken)));
    }
    let counts = match function.ins {
        [] => String::new(),
        _ => format!(", read and not 0: {}, shrunk {}", before.len(), left.len()),
    };
    let words = found.differences.join("; ");
    Ok(format!(
        "reported at case {} ({words}){counts}",
        found.number
    ))
}

/// Slice and place of each element that is read and is not 0.
fn nonzero(case: &Case) -> Vec<(usize, usize)> {
    let slices = case.ins.iter().enumerate();
    slices
        .flat_map(|(slice, elements)| {
            let places = (0..elements.len()).filter(|&at| elements[at] != 0);
            places.map(move |at| (slice, at))
        })
        .collect()
}
