//! Records in any spelling, and records beside them that say the same of a frame, or something else.

use crate::checked_records::*;
use crate::checking::{CONTRADICTED, OUTSIDE};
use crate::random::Random;
use crate::ratios::{SLOTS, SUBBANDS};
use crate::records::*;
use crate::served::budget_of;
use crate::side_info::*;
use crate::spelling::{SENT_FOR, carries};
use reference::encoder_bit_allocator::FixedBitBudget;

/// What comes of a record beside one that is accepted.
#[derive(Clone, Copy, PartialEq, Eq)]
pub enum Comes {
    SameBytes,
    OtherBytes,
    Refusal(u32),
}
use Comes::*;

/// A record, and what comes of it.
pub type Twin = (Record, Comes);

/// A record that is accepted, with indices that are the same in every way and any scfsi that carries
/// them; of four fields so many have steps.
pub fn in_any_spelling(budget: &FixedBitBudget, active: u64, random: &mut Random) -> Record {
    let mut record = accepted(budget, active, random);
    for slot in 0..SLOTS {
        if record.steps[slot] != 0 {
            let pattern = PATTERNS[random.below(5) as usize];
            draw_triple(&mut record, slot, pattern, random);
            record.scfsi[slot] = draw_code(record.triple(slot), random);
        }
    }
    record
}

/// Indices of which these are the same and the others are not.
pub fn draw_triple(
    record: &mut Record,
    slot: usize,
    pattern: [usize; GRANULES],
    random: &mut Random,
) {
    let first = any_index(random);
    let second = another(first, random);
    let mut third = another(first, random);
    while third == second {
        third = another(first, random);
    }
    let triple = pattern.map(|at| [first, second, third][at]);
    record.indices(slot).copy_from_slice(&triple);
}

fn another(index: u64, random: &mut Random) -> u64 {
    loop {
        let other = any_index(random);
        if other != index {
            return other;
        }
    }
}

/// Any scfsi that carries the three.
fn draw_code(triple: &[u64], random: &mut Random) -> u64 {
    let codes: Vec<u64> = (0..4).filter(|&code| carries(code, triple)).collect();
    random.pick(&codes)
}

/// The index in a granule, and in those for which the slot's scfsi sends the same.
pub fn put_index(record: &mut Record, slot: usize, granule: usize, index: u64) {
    let sent_for = SENT_FOR[record.scfsi[slot] as usize];
    for other in (0..GRANULES).filter(|&other| sent_for[other] == sent_for[granule]) {
        record.indices(slot)[other] = index;
    }
}

/// All that is changed at a slot of a record that is accepted: each scfsi, each index, the steps.
pub fn twins_at(
    budget: &FixedBitBudget,
    record: &Record,
    slot: usize,
    random: &mut Random,
) -> Vec<Twin> {
    let active = record.is_active(budget, slot);
    let mut twins = recoded(record, slot, active);
    if active {
        twins.extend(reindexed(record, slot, random));
        twins.extend(restepped(budget, record, slot, random));
    } else {
        twins.extend((0..GRANULES).map(|granule| {
            let mut other = record.clone();
            other.indices(slot)[granule] ^= 1 + random.below(255);
            (other, SameBytes)
        }));
    }
    if !is_carried(budget, slot) {
        let mut other = record.clone();
        other.steps[slot] = 1;
        twins.push((other, Refusal(OUTSIDE)));
    }
    twins
}

/// The three other scfsi.
fn recoded(record: &Record, slot: usize, active: bool) -> Vec<Twin> {
    let codes = (0..4).filter(|&code| code != record.scfsi[slot]);
    codes
        .map(|code| {
            let mut other = record.clone();
            other.scfsi[slot] = code;
            let contradicted = active && !carries(code, record.triple(slot));
            let comes = if contradicted {
                Refusal(CONTRADICTED)
            } else {
                SameBytes
            };
            (other, comes)
        })
        .collect()
}

/// Another index in each granule: alone, where it is not sent, else with those for which it is.
fn reindexed(record: &Record, slot: usize, random: &mut Random) -> Vec<Twin> {
    let sent_for = SENT_FOR[record.scfsi[slot] as usize];
    (0..GRANULES)
        .map(|granule| {
            let mut other = record.clone();
            let index = another(record.triple(slot)[granule], random);
            if sent_for[granule] == granule {
                put_index(&mut other, slot, granule, index);
                return (other, OtherBytes);
            }
            other.indices(slot)[granule] = index;
            (other, Refusal(CONTRADICTED))
        })
        .collect()
}

/// Other steps of the row, and none, in all slots of the field; and in one slot of a shared field.
fn restepped(
    budget: &FixedBitBudget,
    record: &Record,
    slot: usize,
    random: &mut Random,
) -> Vec<Twin> {
    let mut row = row(budget.table, slot % SUBBANDS);
    row.retain(|&count| count != 0 && count != record.steps[slot]);
    let fields = fields_of(budget);
    let field = fields.iter().find(|field| field.contains(&slot));
    let field: &[usize] = field.map_or(&[], |field| field);
    let with = |slots: &[usize], steps: u64| {
        let mut other = record.clone();
        slots.iter().for_each(|&slot| other.steps[slot] = steps);
        other
    };
    let mut twins = vec![
        (with(field, random.pick(&row)), OtherBytes),
        (with(field, 0), OtherBytes),
    ];
    if field.len() == 2 {
        twins.push((with(&[slot], random.pick(&row)), Refusal(APART)));
    }
    twins
}

/// The same record in another spelling, with anything in idle slots.
pub fn respelled(budget: &FixedBitBudget, record: &Record, random: &mut Random) -> Record {
    let mut other = record.clone();
    for slot in (0..SLOTS).filter(|&slot| record.is_active(budget, slot)) {
        other.scfsi[slot] = draw_code(record.triple(slot), random);
    }
    litter_all(&mut other, budget, random);
    other
}

/// The record in another spelling, or changed at a slot, or both.
pub fn draw_twin(budget: &FixedBitBudget, record: &Record, random: &mut Random) -> Record {
    let turn = random.below(4);
    let other = match turn {
        0 | 1 => respelled(budget, record, random),
        _ => record.clone(),
    };
    if turn == 0 {
        return other;
    }
    let slot = random.below(SLOTS as u64) as usize;
    let mut twins = twins_at(budget, &other, slot, random);
    let at = random.below(twins.len() as u64) as usize;
    twins.swap_remove(at).0
}

/// Faults that the check finds, steps that a row lacks, reserved indices: one of the three or more.
fn spoil(record: &mut Record, budget: &FixedBitBudget, random: &mut Random) {
    let faults = 1 + random.below(7);
    if faults & 1 != 0
        && let Some(field) = one_of(&fields_of(budget), random)
    {
        lack(record, budget.table, field, random);
    }
    let active: Vec<usize> = (0..SLOTS)
        .filter(|&slot| record.is_active(budget, slot))
        .collect();
    if faults & 2 != 0
        && let Some(&slot) = one_of(&active, random)
    {
        let granule = random.below(GRANULES as u64) as usize;
        put_index(record, slot, granule, reserved_index(random));
    }
    if faults & 4 != 0 {
        let changes = draw_faults(budget, random);
        make_all(&changes, record, budget, random);
    }
}

/// For a header that is served mostly accepted, often with faults; half of them with anything in idle
/// slots.
pub fn draw_spelled(head: &[u64], random: &mut Random) -> Record {
    let Some(budget) = budget_of(head).filter(|_| !random.one_in(32)) else {
        return any_record(random);
    };
    let active = random.pick(&[0, 1, 2, 3, 4, 4]);
    let mut record = in_any_spelling(&budget, active, random);
    if random.below(5) < 2 {
        spoil(&mut record, &budget, random);
    }
    if random.one_in(2) {
        litter_all(&mut record, &budget, random);
    }
    record
}
