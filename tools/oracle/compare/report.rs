//! What is written about a difference, and the table of a run without one.

use crate::case::{Case, Function, Reply, Sort};
use crate::judge::{ANSWER, Break, judge};
use std::collections::BTreeMap;

/// A double by its value and its bits.
fn double(bits: u64) -> String {
    format!("{:?} ({bits:#018x})", f64::from_bits(bits))
}

fn shown(number: u64, sort: Sort) -> String {
    match sort {
        Sort::Double => double(number),
        _ => number.to_string(),
    }
}

/// The input, one argument a line; of a slice what is 0 is left out.
pub fn input(function: &Function, case: &Case) -> String {
    let mut text = String::new();
    for (argument, &number) in function.arguments.iter().zip(&case.numbers) {
        let value = shown(number, argument.sort);
        text += &format!("    {} = {value}\n", argument.name);
    }
    for (read, slice) in function.ins.iter().zip(&case.ins) {
        text += &format!("    {} {}, 0 but for these:\n", slice.len(), read.name);
        for (at, &number) in slice.iter().enumerate().filter(|&(_, &n)| n != 0) {
            text += &format!("        [{at}] = {}\n", shown(number, read.sort));
        }
    }
    for (out, length) in function.outs.iter().zip(case.lengths) {
        text += &format!("    {}: room for {length} of {}\n", out.name, out.count);
    }
    text
}

/// The number, and each slice up to its end.
fn answer(function: &Function, case: &Case, reply: &Reply, other: &Reply) -> String {
    let mut text = format!("{}", reply.number);
    for (at, out) in function.outs.iter().enumerate() {
        let memory = &reply.memories[at];
        let get = |place| memory.get(out.width, place);
        let values: Vec<String> = (0..case.lengths[at])
            .map(|place| get(place).to_string())
            .collect();
        text += &format!("; {}: {}", out.name, values.join(" "));
        let same = |place| get(place) == other.memories[at].get(out.width, place);
        if *memory != other.memories[at] && (0..case.lengths[at]).all(same) {
            text += "; the memory behind it differs";
        }
    }
    text
}

/// The input and both answers.
fn call(function: &Function, case: &Case, library: &Reply, right: &Reply) -> String {
    format!(
        "{}  library: {}\n  expected: {}\n",
        input(function, case),
        answer(function, case, library, right),
        answer(function, case, right, library),
    )
}

/// A difference with all that is needed to see it again.
pub fn difference(function: &Function, case: &Case, broken: Option<&Break>) -> String {
    let verdict = judge(function, case, broken);
    let mut text = format!(
        "folgrist_{}: {}\n  input, as small as it was found:\n{}",
        function.name,
        verdict.differences.join("; "),
        call(function, case, &verdict.answered, &verdict.expected),
    );
    if !verdict.differences.contains(&ANSWER)
        && let Some(beside) = &verdict.beside
    {
        text += "  the record beside it:\n";
        text += &call(function, &beside.case, &beside.answered, &beside.expected);
    }
    text
}

/// How often each function was asked, and with which numbers.
#[derive(Default)]
pub struct Counts {
    numbers: BTreeMap<u32, u64>,
    pub cases: u64,
}

impl Counts {
    /// Values are no numbers of answers: they count as accepted.
    pub fn note(&mut self, function: &Function, number: u32) {
        self.cases += 1;
        let number = if function.outs.is_empty() { 0 } else { number };
        *self.numbers.entry(number).or_default() += 1;
    }
}

/// One line for each function that was asked.
pub fn table(functions: &[Function], counts: &[Counts]) -> String {
    let columns = [0, 1, 2, 4, 5, 6, 7, 8, 9, 10, 14, 16, 17, 18, 97, 98];
    let names = columns.map(|number| format!("answer {number}")).join(" | ");
    let mut text = format!(
        "| function | cases | {names} |\n|---|{}\n",
        "--:|".repeat(1 + columns.len())
    );
    let mut lines: Vec<(&str, Vec<u64>)> = Vec::new();
    for (function, counts) in functions
        .iter()
        .zip(counts)
        .filter(|(_, counts)| counts.cases > 0)
    {
        let numbers = columns.map(|number| counts.numbers.get(&number).copied().unwrap_or(0));
        lines.push((function.name, [&[counts.cases], &numbers[..]].concat()));
    }
    let total = (0..=columns.len()).map(|at| lines.iter().map(|line| line.1[at]).sum());
    let total = total.collect();
    lines.push(("all", total));
    for (name, numbers) in lines {
        let cells: Vec<String> = numbers.into_iter().map(grouped).collect();
        text += &format!("| `{name}` | {} |\n", cells.join(" | "));
    }
    text
}

/// With commas between thousands.
pub fn grouped(number: u64) -> String {
    let digits = number.to_string();
    let mut text = String::new();
    for (at, digit) in digits.chars().enumerate() {
        if at > 0 && (digits.len() - at) % 3 == 0 {
            text.push(',');
        }
        text.push(digit);
    }
    text
}
