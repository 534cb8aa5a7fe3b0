//! Compares the C library with the reference Rust in one process, and times both.

mod allocation_functions;
mod bench;
mod bench_inputs;
mod beside;
mod breaks;
mod case;
mod check_bench;
mod check_breaks;
mod check_functions;
mod header_functions;
mod judge;
mod layout;
mod library;
mod read_bench;
mod read_breaks;
mod read_functions;
mod report;
mod rules;
mod run;
mod sample_functions;
mod scalefactor_functions;
mod selfcheck;
mod shrink;
mod side_info_bench;
mod side_info_breaks;
mod side_info_functions;
mod spelling_bench;
mod spelling_breaks;
mod spelling_functions;
mod table_functions;
mod timing;
mod twins;

use case::Function;
use judge::Break;
use questions::kind::stop;
use run::Cases;
use std::env;
use std::process::exit;

const USAGE: &str = "words: compare --cases N --seed S [--from CASE] [--only NAME,..] [--break NAME], \
                     selfcheck [--seed S] [--only NAME,..] [--show], bench [NAME..], beside OBJECT..";

struct Command {
    cases: Cases,
    only: Vec<usize>,
    broken: Option<String>,
    shown: bool,
}

/// None where the words are not understood.
fn parse(words: &[String], functions: &[Function]) -> Option<Command> {
    let cases = Cases {
        seed: 1,
        first: 0,
        count: 1_000_000,
    };
    let mut command = Command {
        cases,
        only: Vec::new(),
        broken: None,
        shown: false,
    };
    let mut rest = words.iter();
    while let Some(word) = rest.next() {
        match word.as_str() {
            "--cases" => command.cases.count = rest.next()?.parse().ok()?,
            "--seed" => command.cases.seed = rest.next()?.parse().ok()?,
            "--from" => command.cases.first = rest.next()?.parse().ok()?,
            "--only" => command.only = places(rest.next()?, functions)?,
            "--break" => command.broken = Some(rest.next()?.clone()),
            "--show" => command.shown = true,
            _ => return None,
        }
    }
    Some(command)
}

/// The places of functions that are named with commas between.
fn places(names: &str, functions: &[Function]) -> Option<Vec<usize>> {
    let place = |name: &str| functions.iter().position(|function| function.name == name);
    names.split(',').map(place).collect()
}

fn named<'a>(name: &str, breaks: &'a [Break]) -> &'a Break {
    let known = || {
        breaks
            .iter()
            .map(|broken| broken.name)
            .collect::<Vec<_>>()
            .join(", ")
    };
    let found = breaks.iter().find(|broken| broken.name == name);
    found.unwrap_or_else(|| stop(&format!("--break knows {}", known())))
}

fn main() {
    let words: Vec<String> = env::args().skip(1).collect();
    let Some((mode, rest)) = words.split_first() else {
        stop(USAGE);
    };
    let good = match mode.as_str() {
        "bench" => bench::bench(rest) || stop(USAGE),
        "beside" => beside::beside(rest) || stop(USAGE),
        "compare" | "selfcheck" => ask(mode == "selfcheck", rest),
        _ => stop(USAGE),
    };
    exit(if good { 0 } else { 1 });
}

/// False where a difference is found, or missed in a check of the comparison itself.
fn ask(checks_itself: bool, words: &[String]) -> bool {
    let functions = judge::functions();
    let mut breaks = breaks::breaks(&functions);
    let Some(command) = parse(words, &functions) else {
        stop(USAGE);
    };
    run::tell_halts();
    if checks_itself {
        let named = |name: &str| {
            let mut only = command.only.iter();
            command.only.is_empty() || only.any(|&at| functions[at].name == name)
        };
        breaks.retain(|broken| named(broken.function));
        selfcheck::selfcheck(&functions, &breaks, command.cases.seed, command.shown)
    } else {
        let broken = command.broken.map(|name| named(&name, &breaks));
        run::compare(&functions, &command.cases, &command.only, broken)
    }
}
