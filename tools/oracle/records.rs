//! Records of side information that try its writers in various ways, and what makes them refuse.

use crate::heads::Head;
use crate::random::Random;
use crate::ratios::{SLOTS, SUBBANDS};
use crate::served::{budget_of, draw, layouts, unserved};
use crate::side_info::*;
use crate::steps;
use reference::bitalloc::BitAllocTable;
use reference::encoder_bit_allocator::FixedBitBudget;
use std::sync::LazyLock;

/// 0, then the steps of the row's places.
pub fn row(table: BitAllocTable, sb: usize) -> Vec<u64> {
    let steps = (0..16).map_while(|index| table.nb_steps(sb, index));
    steps.map(u64::from).collect()
}

/// Steps that the row lacks: beside classes, of other rows, the largest.
fn lacking(table: BitAllocTable, sb: usize) -> Vec<u64> {
    let row = row(table, sb);
    let mut counts = steps::near_classes();
    counts.retain(|count| !row.contains(count));
    counts
}

fn any_steps(random: &mut Random) -> u64 {
    match random.below(3) {
        0 => random.pick(&steps::CLASSES),
        1 => random.below(20),
        _ => random.word(),
    }
}

pub fn any_index(random: &mut Random) -> u64 {
    match random.below(8) {
        0 => 0,
        1 => LAST_INDEX,
        _ => random.below(LAST_INDEX + 1),
    }
}

pub fn reserved_index(random: &mut Random) -> u64 {
    match random.below(4) {
        0 | 1 => LAST_INDEX + 1,
        2 => 255,
        _ => 255 - random.below(255 - LAST_INDEX),
    }
}

/// Of four fields so many have steps, at places of their rows; all that is not looked at is 0.
pub fn accepted(budget: &FixedBitBudget, active: u64, random: &mut Random) -> Record {
    let mut record = Record::EMPTY;
    for field in fields_of(budget) {
        if random.below(4) < active {
            let steps = random.pick(&row(budget.table, field[0] % SUBBANDS)[1..]);
            field.iter().for_each(|&slot| record.steps[slot] = steps);
        }
    }
    let code = random.below(8);
    for slot in 0..SLOTS {
        if record.steps[slot] != 0 {
            record.scfsi[slot] = if code < 4 { code } else { random.below(4) };
            record.indices(slot).fill_with(|| any_index(random));
        }
    }
    record
}

/// Anything in what must not be looked at: steps outside the layout, scfsi and indices of idle
/// slots.
pub fn litter(record: &mut Record, budget: &FixedBitBudget, random: &mut Random) {
    for slot in 0..SLOTS {
        if !is_carried(budget, slot) {
            record.steps[slot] = any_steps(random);
        }
        litter_idle(record, budget, slot, random);
    }
}

/// Anything in scfsi and indices of the slot, unless it is active.
pub fn litter_idle(record: &mut Record, budget: &FixedBitBudget, slot: usize, random: &mut Random) {
    if !record.is_active(budget, slot) {
        record.scfsi[slot] = random.below(4);
        record.indices(slot).fill_with(|| match random.below(2) {
            0 => reserved_index(random),
            _ => random.below(256),
        });
    }
}

/// Steps that the row lacks, in every slot of the field.
pub fn lack(record: &mut Record, table: BitAllocTable, field: &[usize], random: &mut Random) {
    let steps = random.pick(&lacking(table, field[0] % SUBBANDS));
    field.iter().for_each(|&slot| record.steps[slot] = steps);
}

/// Other steps in one slot of a shared field, mostly of the row, 0 among them.
pub fn part(record: &mut Record, table: BitAllocTable, field: &[usize], random: &mut Random) {
    let turn = random.below(2) as usize;
    let (one, other) = (field[turn], field[1 - turn]);
    let mut counts = match random.below(4) {
        0 => lacking(table, one % SUBBANDS),
        _ => row(table, one % SUBBANDS),
    };
    counts.retain(|&count| count != record.steps[other]);
    record.steps[one] = random.pick(&counts);
}

/// A reserved index in one granule of the slot.
pub fn reserve(record: &mut Record, slot: usize, random: &mut Random) {
    let granule = random.below(GRANULES as u64) as usize;
    record.indices(slot)[granule] = reserved_index(random);
}

pub fn one_of<'a, T>(from: &'a [T], random: &mut Random) -> Option<&'a T> {
    from.get(random.below(from.len().max(1) as u64) as usize)
}

/// One to three faults, where there is a place for them.
fn spoil(record: &mut Record, budget: &FixedBitBudget, random: &mut Random) {
    let (fields, table) = (fields_of(budget), budget.table);
    let shared: Vec<_> = fields.iter().filter(|field| field.len() == 2).collect();
    for _ in 0..1 + random.below(3) {
        let active: Vec<usize> = (0..SLOTS)
            .filter(|&slot| record.is_active(budget, slot))
            .collect();
        let fault = random.below(3);
        if let (0, Some(field)) = (fault, one_of(&fields, random)) {
            lack(record, table, field, random);
        } else if let (1, Some(field)) = (fault, one_of(&shared, random)) {
            part(record, table, field, random);
        } else if let Some(&slot) = one_of(&active, random) {
            reserve(record, slot, random);
        }
    }
}

/// Bytes and steps of all sorts.
pub fn any_record(random: &mut Random) -> Record {
    Record {
        steps: [0; SLOTS].map(|_| any_steps(random)),
        scfsi: [0; SLOTS].map(|_| random.below(4)),
        index: [0; INDICES].map(|_| random.below(256)),
    }
}

/// For a header that is served mostly accepted, often with a fault; half of them with anything in
/// what must not be looked at.
pub fn draw_record(head: &[u64], random: &mut Random) -> Record {
    let Some(budget) = budget_of(head).filter(|_| !random.one_in(32)) else {
        return any_record(random);
    };
    let active = random.pick(&[0, 1, 2, 3, 4, 4]);
    let mut record = accepted(&budget, active, random);
    if random.below(5) < 2 {
        spoil(&mut record, &budget, random);
    }
    if random.one_in(2) {
        litter(&mut record, &budget, random);
    }
    record
}

static LAYOUTS: LazyLock<Vec<Head>> = LazyLock::new(|| layouts(&mut Random::new(1, 0, 0)));
static UNSERVED: LazyLock<Vec<Head>> = LazyLock::new(|| unserved(&mut Random::new(1, 0, 0)));

/// Mostly every table, mode and bound alike, else any header.
pub fn draw_layout(random: &mut Random) -> Head {
    let listed = match random.below(16) {
        0 => &UNSERVED,
        1..=4 => return draw(random),
        _ => &LAYOUTS,
    };
    listed[random.below(listed.len() as u64) as usize]
}
