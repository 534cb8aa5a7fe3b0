//! Writes the reference Rust's answers as lines of numbers, and the oracle's own where the Rust has
//! none, to be held against the port's.

use questions::kind::{Asker, Kind, silence_halts, stop};
use questions::{
    allocation_kinds, budget_kinds, check_kinds, class_kinds, header_kinds, read_kinds,
    sample_kinds, scalefactor_kinds, scfsi_kinds, side_info_kinds, spelling_kinds, table_kinds,
};
use std::env;
use std::io::{self, BufWriter, Write};

const FORMAT: &str = "\
# Answers of the reference Rust, one a line: the kind's number, its arguments, its answers.
# Kind 35 has the oracle's own answers: the Rust has no such function. Nor has it that of kind 36:
# there the check and the choice of scfsi are the oracle's own, bits and other refusals the Rust's.
# All are unsigned decimal numbers with single spaces between; lines that begin with # are comments.
# H stands for seven numbers: lsf bit_rate sample_rate padding protection_bit mode extension.
# Flags are 0 or 1; mode: 0 stereo, 1 joint, 2 dual, 3 single; extension: 0 to 3 for 4, 8, 12, 16.
# Tables are 0 to 4 for B2a, B2b, B2c, B2d, B1Lsf; a double is its 64 bits as one number.
# found is 1, or 0 for the Rust's None; the values after a 0 are 0.
# number is 0 where the call is accepted; a refused call has the number of its refusal.
";

/// Every kind, by rising number.
fn all_kinds() -> Vec<Kind> {
    let mut kinds: Vec<Kind> = Vec::new();
    kinds.extend(table_kinds::KINDS);
    kinds.extend(header_kinds::KINDS);
    kinds.extend(class_kinds::KINDS);
    kinds.extend(scalefactor_kinds::KINDS);
    kinds.extend(scfsi_kinds::KINDS);
    kinds.extend(sample_kinds::KINDS);
    kinds.extend(budget_kinds::KINDS);
    kinds.extend(allocation_kinds::KINDS);
    kinds.extend(side_info_kinds::KINDS);
    kinds.extend(read_kinds::KINDS);
    kinds.extend(check_kinds::KINDS);
    kinds.extend(spelling_kinds::KINDS);
    kinds.sort_by_key(|kind| kind.number);
    kinds
}

struct Command {
    sample: bool,
    seed: u64,
}

/// None where the words are not understood.
fn parse(words: &[String]) -> Option<Command> {
    let mut sample = None;
    let mut seed = 1;
    let mut rest = words.iter();
    while let Some(word) = rest.next() {
        match word.as_str() {
            "answers" if sample.is_none() => sample = Some(false),
            "sample" if sample.is_none() => sample = Some(true),
            "--seed" => seed = rest.next()?.parse().ok()?,
            _ => return None,
        }
    }
    sample.map(|sample| Command { sample, seed })
}

fn write_comments(command: &Command, kinds: &[Kind], out: &mut dyn Write) -> io::Result<()> {
    out.write_all(FORMAT.as_bytes())?;
    let name = if command.sample { "sample" } else { "answers" };
    writeln!(out, "# {name}, seed {}", command.seed)?;
    for kind in kinds {
        writeln!(out, "# {} {}: {}", kind.number, kind.name, kind.form)?;
    }
    Ok(())
}

fn write_lines(command: &Command) -> io::Result<()> {
    let kinds = all_kinds();
    let mut out = BufWriter::new(io::stdout().lock());
    write_comments(command, &kinds, &mut out)?;
    for kind in &kinds {
        (kind.ask)(&mut Asker::new(
            kind,
            command.seed,
            command.sample,
            &mut out,
        ));
    }
    out.flush()
}

fn main() {
    let words: Vec<String> = env::args().skip(1).collect();
    let Some(command) = parse(&words) else {
        stop("words: answers or sample, and --seed S with a whole number");
    };
    silence_halts();
    if let Err(error) = write_lines(&command) {
        stop(&format!("cannot write: {error}"));
    }
}
