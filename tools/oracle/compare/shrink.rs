//! The smallest input, as far as it is found by small changes, on which a difference stays.

use crate::case::{Case, Function, Sort};

/// From the simplest on.
const BIT_RATES: [u64; 8] = [
    32_000, 64_000, 96_000, 128_000, 192_000, 256_000, 384_000, 0,
];
const SAMPLE_RATES: [u64; 7] = [48_000, 44_100, 32_000, 24_000, 22_050, 16_000, 0];

/// More bytes than are read of a slice that may have any length.
const ROOM: usize = 200;

/// Enough for any input of the library.
const MOST_TRIES: usize = 200_000;

/// Tries changes and keeps those with which the difference stays.
struct Shrinking<'a> {
    best: Case,
    stays: &'a dyn Fn(&Case) -> bool,
    tries: usize,
}

impl Shrinking<'_> {
    fn attempt(&mut self, change: impl Fn(&mut Case)) -> bool {
        if self.tries == MOST_TRIES {
            return false;
        }
        self.tries += 1;
        let mut case = self.best.clone();
        change(&mut case);
        let kept = (self.stays)(&case);
        if kept {
            self.best = case;
        }
        kept
    }

    /// Gives the slices the lengths that they must have.
    fn lengths(&mut self, function: &Function) -> bool {
        let mut changed = self.best.fill != 0 && self.attempt(|case| case.fill = 0);
        for (at, out) in function.outs.iter().enumerate() {
            if self.best.lengths[at] != out.count {
                changed |= self.attempt(|case| case.lengths[at] = out.count);
            }
        }
        for (at, read) in function.ins.iter().enumerate() {
            if !read.has_any_length() && self.best.ins[at].len() != read.count {
                changed |= self.attempt(|case| case.ins[at].resize(read.count, 0));
            }
        }
        changed
    }

    /// Puts zeros behind a slice of any length: then its end is in the way of nothing.
    fn lengthen(&mut self, slice: usize) {
        if self.best.ins[slice].len() < ROOM {
            self.attempt(|case| case.ins[slice].resize(ROOM, 0));
        }
    }

    /// Takes ever smaller parts off the end of a slice of any length.
    fn shorten(&mut self, slice: usize) -> bool {
        let (mut changed, mut part) = (false, self.best.ins[slice].len());
        while part > 0 {
            let kept = self.best.ins[slice].len().checked_sub(part);
            if kept.is_some_and(|kept| self.attempt(|case| case.ins[slice].truncate(kept))) {
                changed = true;
            } else {
                part /= 2;
            }
        }
        changed
    }

    fn number(&mut self, at: usize, sort: Sort) -> bool {
        let mut changed = false;
        loop {
            let candidates = simpler(self.best.numbers[at], sort);
            let mut tried = candidates.into_iter();
            if !tried.any(|value| self.attempt(|case| case.numbers[at] = value)) {
                return changed;
            }
            changed = true;
        }
    }

    /// Zeros ever smaller runs of a slice, at last each element by itself.
    fn zeros(&mut self, slice: usize) -> bool {
        let (mut changed, count) = (false, self.best.ins[slice].len());
        let mut run = count;
        while run > 0 {
            for start in (0..count).step_by(run) {
                let range = start..count.min(start + run);
                let elements = &self.best.ins[slice][range.clone()];
                if elements.iter().any(|&element| element != 0) {
                    changed |= self.attempt(|case| case.ins[slice][range.clone()].fill(0));
                }
            }
            run /= 2;
        }
        changed
    }

    fn elements(&mut self, slice: usize, sort: Sort) -> bool {
        let mut changed = self.zeros(slice);
        for at in 0..self.best.ins[slice].len() {
            let candidates = simpler(self.best.ins[slice][at], sort);
            let mut tried = candidates.into_iter();
            changed |= tried.any(|value| self.attempt(|case| case.ins[slice][at] = value));
        }
        changed
    }
}

/// Shrinks until no change helps any more.
pub fn shrink(function: &Function, case: Case, stays: &dyn Fn(&Case) -> bool) -> Case {
    let mut shrinking = Shrinking {
        best: case,
        stays,
        tries: 0,
    };
    for (slice, read) in function.ins.iter().enumerate() {
        if read.has_any_length() {
            shrinking.lengthen(slice);
        }
    }
    loop {
        let mut changed = shrinking.lengths(function);
        for (at, argument) in function.arguments.iter().enumerate() {
            changed |= shrinking.number(at, argument.sort);
        }
        for (slice, read) in function.ins.iter().enumerate() {
            changed |= shrinking.elements(slice, read.sort);
            changed |= read.has_any_length() && shrinking.shorten(slice);
        }
        if !changed {
            return shrinking.best;
        }
    }
}

/// Values that are simpler than this one, the simplest first.
fn simpler(value: u64, sort: Sort) -> Vec<u64> {
    match sort {
        Sort::BitRate => listed(value, &BIT_RATES),
        Sort::SampleRate => listed(value, &SAMPLE_RATES),
        Sort::Double => simpler_double(value),
        Sort::UpTo(_) | Sort::Whole => smaller(value),
    }
}

/// Those before it in the list; for a value that is not there, the whole list and smaller values.
fn listed(value: u64, list: &[u64]) -> Vec<u64> {
    match list.iter().position(|&listed| listed == value) {
        Some(at) => list[..at].to_vec(),
        None => [list.to_vec(), smaller(value)].concat(),
    }
}

fn smaller(value: u64) -> Vec<u64> {
    let mut values: Vec<u64> = [0, 1, 2, 3]
        .into_iter()
        .filter(|&low| low < value)
        .collect();
    let parts = [2, 8, 64, 1024].map(|part| value / part).into_iter();
    values.extend(parts.filter(|&part| part > 0).map(|part| value - part));
    values.extend(value.checked_sub(1));
    values
}

/// 0, then 1, then a whole number or one of few bits.
fn simpler_double(bits: u64) -> Vec<u64> {
    let value = f64::from_bits(bits);
    let mut values = vec![0, 1f64.to_bits(), 10f64.to_bits(), 100f64.to_bits()];
    values.extend([value.abs(), value.trunc(), (2.0 * value).trunc() / 2.0].map(f64::to_bits));
    values.extend([bits & !0 << 44, bits & !0 << 30]);
    values.retain(|&other| weight(other) < weight(bits));
    values
}

/// How hard a double is to read.
fn weight(bits: u64) -> u64 {
    let significant = 52 - u64::from(bits.trailing_zeros()).min(52);
    let value = f64::from_bits(bits);
    let size = if value.abs() <= 1.0 { 0 } else { 1 };
    match bits {
        0 => 0,
        _ => 1 + 4 * significant + 2 * size + (bits >> 63),
    }
}
