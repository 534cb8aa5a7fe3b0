//! The allocation tables: sblimit, nbal and rows.

use crate::kind::{Asker, Kind, found};
use crate::steps;
use reference::bitalloc::BitAllocTable;

pub const KINDS: [Kind; 4] = [
    Kind {
        number: 1,
        name: "sblimit",
        form: "table -> sblimit",
        answer: |a| vec![table_of(a[0]).sblimit() as u64],
        halted: None,
        ask: |asker| (0..TABLES).for_each(|table| asker.ask(true, &[table])),
        one_in: 1,
    },
    Kind {
        number: 2,
        name: "nbal",
        form: "table sb -> nbal",
        answer: |a| vec![table_of(a[0]).nbal(a[1] as usize).into()],
        halted: None,
        ask: ask_nbal,
        one_in: 1,
    },
    Kind {
        number: 3,
        name: "nb_steps",
        form: "table sb index -> found steps",
        answer: |a| found(table_of(a[0]).nb_steps(a[1] as usize, a[2] as u32)),
        halted: None,
        ask: ask_nb_steps,
        one_in: 20,
    },
    Kind {
        number: 4,
        name: "allocation_index",
        form: "table sb steps -> found index",
        answer: |a| found(table_of(a[0]).allocation_index(a[1] as usize, a[2] as u32)),
        halted: None,
        ask: ask_allocation_index,
        one_in: 4000,
    },
];

const TABLES: u64 = 5;

/// One subband of each row of the tables B2a and B2b; here every low step count is asked.
const WIDE_SUBBANDS: [u64; 4] = [0, 3, 11, 23];

pub fn table_of(number: u64) -> BitAllocTable {
    match number {
        0 => BitAllocTable::B2a,
        1 => BitAllocTable::B2b,
        2 => BitAllocTable::B2c,
        3 => BitAllocTable::B2d,
        4 => BitAllocTable::B1Lsf,
        _ => unreachable!("a table is 0 to 4"),
    }
}

pub fn number_of(table: BitAllocTable) -> u64 {
    match table {
        BitAllocTable::B2a => 0,
        BitAllocTable::B2b => 1,
        BitAllocTable::B2c => 2,
        BitAllocTable::B2d => 3,
        BitAllocTable::B1Lsf => 4,
    }
}

/// The subbands about which some table's rows change, and some far outside.
fn is_edge_subband(sb: u64) -> bool {
    let edges = [
        0, 1, 2, 3, 4, 7, 8, 10, 11, 12, 22, 23, 26, 27, 29, 30, 31, 32,
    ];
    edges.contains(&sb) || sb >= 1 << 32
}

/// Every pair of a table and a subband to 40, and subbands that a narrower number would cut short.
fn places() -> Vec<(u64, u64)> {
    let far = [64, 256, 65_536, u64::from(u32::MAX), 1 << 32, u64::MAX];
    let subbands: Vec<u64> = (0..=40).chain(far).collect();
    (0..TABLES)
        .flat_map(|table| subbands.iter().map(move |&sb| (table, sb)))
        .collect()
}

fn ask_nbal(asker: &mut Asker) {
    for (table, sb) in places() {
        asker.ask(true, &[table, sb]);
    }
}

fn ask_nb_steps(asker: &mut Asker) {
    let far = [32, 256, 65_536, 1 << 31, u64::from(u32::MAX)];
    for (table, sb) in places() {
        for index in (0..=20).chain(far) {
            let edge = is_edge_subband(sb) && (index <= 16 || index >= 1 << 31);
            asker.ask(edge, &[table, sb, index]);
        }
    }
}

fn ask_allocation_index(asker: &mut Asker) {
    let (near, mut wide) = (steps::near_classes(), steps::all_low());
    wide.push(u32::MAX.into());
    for (table, sb) in places() {
        let is_wide = WIDE_SUBBANDS.contains(&sb);
        for &count in if is_wide { &wide } else { &near } {
            let in_row = count == 0 || steps::CLASSES.contains(&count);
            let in_list = near.binary_search(&count).is_ok();
            let edge = (is_edge_subband(sb) && in_row) || (is_wide && in_list);
            asker.ask(edge, &[table, sb, count]);
        }
    }
}
