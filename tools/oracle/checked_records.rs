//! Records that hang together, and changes after which they do not.

use crate::checking::{CONTRADICTED, Checked, OUTSIDE, PASSED};
use crate::random::Random;
use crate::ratios::{SLOTS, SUBBANDS};
use crate::records::*;
use crate::served::budget_of;
use crate::side_info::*;
use reference::encoder_bit_allocator::FixedBitBudget;

/// What can be wrong at a slot, in the order in which it is asked.
pub const NUMBERS: [u32; 3] = [OUTSIDE, APART, CONTRADICTED];

/// Which granules have the same index.
pub const PATTERNS: [[usize; GRANULES]; 5] =
    [[0, 0, 0], [0, 0, 1], [0, 1, 0], [0, 1, 1], [0, 1, 2]];

/// Few, many, and such whose low bits are 0.
const STRAY_STEPS: [u64; 5] = [1, 3, 1 << 16, 1 << 31, u32::MAX as u64];

/// How the steps of a subband's channels differ.
#[derive(Clone, Copy)]
pub enum Apart {
    FirstIdle,
    SecondIdle,
    InRow,
    InHighBit,
}

const APARTS: [Apart; 4] = [
    Apart::FirstIdle,
    Apart::SecondIdle,
    Apart::InRow,
    Apart::InHighBit,
];

/// What is changed at a slot of a record that passes.
#[derive(Clone, Copy)]
pub enum Change {
    Steps(u64),
    /// At channel 0, for both.
    Channels(Apart),
    /// The scfsi, and which of the indices are the same; a slot without steps gets some.
    Indices(u64, [usize; GRANULES]),
}

impl Change {
    /// The answer where nothing else is changed.
    pub fn answer(self, budget: &FixedBitBudget, slot: usize) -> Checked {
        let number = match self {
            Change::Steps(_) => OUTSIDE,
            Change::Channels(_) => APART,
            Change::Indices(..) => CONTRADICTED,
        };
        let agrees = matches!(self, Change::Indices(code, pattern) if is_said(code, pattern));
        if agrees || !can_have(budget, slot, number) {
            return PASSED;
        }
        Checked {
            number,
            subband: slot % SUBBANDS,
            channel: slot / SUBBANDS,
        }
    }

    fn make(self, record: &mut Record, budget: &FixedBitBudget, slot: usize, random: &mut Random) {
        match self {
            Change::Steps(steps) => record.steps[slot] = steps,
            Change::Channels(apart) => part_channels(record, budget, slot, apart, random),
            Change::Indices(code, pattern) => {
                wake(record, budget, slot, random);
                let indices = different(random);
                record.scfsi[slot] = code;
                let triple = pattern.map(|at| indices[at]);
                record.indices(slot).copy_from_slice(&triple);
            }
        }
    }
}

/// Whether granules of such a pattern share what the scfsi says.
fn is_said(code: u64, [a, b, c]: [usize; GRANULES]) -> bool {
    let (first, last) = ([1, 2].contains(&code), [2, 3].contains(&code));
    (a == b || !first) && (b == c || !last)
}

/// Whether something can be answered this number at the slot.
pub fn can_have(budget: &FixedBitBudget, slot: usize, number: u32) -> bool {
    match number {
        OUTSIDE => !is_carried(budget, slot),
        APART => (budget.bound..budget.sblimit).contains(&slot),
        _ => is_carried(budget, slot),
    }
}

/// All that is changed at a slot: every scfsi with every pattern, and steps in every way.
pub fn changes_at(budget: &FixedBitBudget, slot: usize) -> Vec<Change> {
    if !is_carried(budget, slot) {
        return STRAY_STEPS.map(Change::Steps).to_vec();
    }
    let codes = (0..4).flat_map(|code| PATTERNS.map(|pattern| Change::Indices(code, pattern)));
    let mut changes: Vec<Change> = codes.collect();
    if slot < SUBBANDS && budget.channels == 2 {
        changes.extend(APARTS.map(Change::Channels));
    }
    changes
}

/// A change that is answered this number.
pub fn draw_fault(number: u32, random: &mut Random) -> Change {
    match number {
        OUTSIDE => Change::Steps(random.pick(&STRAY_STEPS)),
        APART => Change::Channels(APARTS[random.below(4) as usize]),
        _ => loop {
            let pattern = PATTERNS[random.below(5) as usize];
            let code = random.below(4);
            if !is_said(code, pattern) {
                return Change::Indices(code, pattern);
            }
        },
    }
}

/// Makes changes, each at its slot; those of indices first, which may need steps.
pub fn make_all(
    changes: &[(usize, Change)],
    record: &mut Record,
    budget: &FixedBitBudget,
    random: &mut Random,
) {
    let mut ordered = changes.to_vec();
    ordered.sort_by_key(|(_, change)| !matches!(change, Change::Indices(..)));
    for (slot, change) in ordered {
        change.make(record, budget, slot, random);
    }
}

fn part_channels(
    record: &mut Record,
    budget: &FixedBitBudget,
    subband: usize,
    apart: Apart,
    random: &mut Random,
) {
    let mut row = row(budget.table, subband).split_off(1);
    let steps = random.pick(&row);
    row.retain(|&count| count != steps);
    let [first, second] = match apart {
        Apart::FirstIdle => [0, steps],
        Apart::SecondIdle => [steps, 0],
        Apart::InRow => [steps, random.pick(&row)],
        Apart::InHighBit => [steps, steps | 1 << (16 + random.below(16))],
    };
    record.steps[subband] = first;
    record.steps[SUBBANDS + subband] = second;
}

/// Gives steps to a slot that has none, and to the other slot of its field.
fn wake(record: &mut Record, budget: &FixedBitBudget, slot: usize, random: &mut Random) {
    if record.steps[slot] == 0 {
        let steps = random.pick(&row(budget.table, slot % SUBBANDS)[1..]);
        let mut fields = fields_of(budget).into_iter();
        let field = fields.find(|field| field.contains(&slot));
        let field = field.into_iter().flatten();
        field.for_each(|slot| record.steps[slot] = steps);
    }
}

/// Three different indices, often beside one another or with one bit between them.
fn different(random: &mut Random) -> [u64; GRANULES] {
    let first = match random.below(2) {
        0 => random.below(LAST_INDEX - 1),
        _ => random.below(256),
    };
    let (second, third) = match random.below(3) {
        0 => (first + 1, first + 2),
        1 => (first ^ 128, first ^ 64),
        _ => (
            first + 1 + random.below(127),
            first + 128 + random.below(128),
        ),
    };
    [first, second, third].map(|index| index % 256)
}

/// A record that passes, its steps and indices such as are written; of four fields so many have
/// steps.
pub fn agreeing(budget: &FixedBitBudget, active: u64, random: &mut Random) -> Record {
    let mut record = accepted(budget, active, random);
    (0..SLOTS).for_each(|slot| agree(&mut record, slot));
    record
}

/// Gives granules the same index where the slot's scfsi says so.
pub fn agree(record: &mut Record, slot: usize) {
    let code = record.scfsi[slot];
    let triple = record.indices(slot);
    if [1, 2].contains(&code) {
        triple[1] = triple[0];
    }
    if [2, 3].contains(&code) {
        triple[2] = triple[1];
    }
}

/// Steps that the rows lack and indices above 62, with which the record still passes.
pub fn exceed(record: &mut Record, budget: &FixedBitBudget, random: &mut Random) {
    for field in fields_of(budget) {
        if random.one_in(3) {
            lack(record, budget.table, &field, random);
        }
    }
    for slot in 0..SLOTS {
        if random.one_in(3) {
            reserve(record, slot, random);
        }
        agree(record, slot);
    }
}

/// Anything in the scfsi and indices of all slots that are not active.
pub fn litter_all(record: &mut Record, budget: &FixedBitBudget, random: &mut Random) {
    (0..SLOTS).for_each(|slot| litter_idle(record, budget, slot, random));
}

/// One to three faults; half of those behind the first are in its subband or beside it.
pub fn draw_faults(budget: &FixedBitBudget, random: &mut Random) -> Vec<(usize, Change)> {
    let mut faults: Vec<(usize, Change)> = Vec::new();
    for _ in 0..1 + random.below(3) {
        let number = NUMBERS[random.below(3) as usize];
        let mut slots: Vec<usize> = (0..SLOTS)
            .filter(|&slot| can_have(budget, slot, number))
            .collect();
        if let Some(&(first, _)) = faults.first()
            && random.one_in(2)
        {
            slots.retain(|slot| (slot % SUBBANDS).abs_diff(first % SUBBANDS) < 2);
        }
        if let Some(&slot) = one_of(&slots, random) {
            faults.push((slot, draw_fault(number, random)));
        }
    }
    faults
}

/// For a header that is served half of them pass; half have anything in idle slots.
pub fn draw_checked(head: &[u64], random: &mut Random) -> Record {
    let Some(budget) = budget_of(head).filter(|_| !random.one_in(32)) else {
        return any_record(random);
    };
    let active = random.pick(&[0, 1, 2, 3, 4, 4]);
    let mut record = agreeing(&budget, active, random);
    if random.one_in(4) {
        exceed(&mut record, &budget, random);
    }
    if random.one_in(2) {
        let faults = draw_faults(&budget, random);
        make_all(&faults, &mut record, &budget, random);
    }
    if random.one_in(2) {
        litter_all(&mut record, &budget, random);
    }
    record
}
