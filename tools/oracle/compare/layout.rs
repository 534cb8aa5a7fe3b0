//! The allocation fields of a header, by plain arithmetic from Tables 3-B.2, B.1 and C.5.

use crate::header_functions::{BANC, frame_bytes};
use questions::heads::*;
use questions::ratios::SUBBANDS;
use questions::table_kinds::{number_of, table_of};
use reference::bitalloc::select_table;
use std::sync::LazyLock;

/// A place of a row: the steps, what 36 samples of them cost, and their signal-to-noise ratio.
#[derive(Clone, Copy)]
pub struct Place {
    pub steps: u32,
    pub bits: u64,
    pub snr: f64,
}

/// Table C.5, by rising steps from 3.
const RATIOS: [f64; 17] = [
    7.00, 11.00, 16.00, 20.84, 25.28, 31.59, 37.75, 43.84, 49.89, 55.93, 61.96, 67.98, 74.01,
    80.03, 86.05, 92.01, 98.01,
];

fn place(steps: u32) -> Place {
    let class = questions::steps::CLASSES
        .iter()
        .position(|&class| class == steps.into());
    let bits = match steps {
        0 => 0,
        3 => 60,
        5 => 84,
        9 => 120,
        _ => 36 * u64::from(steps.ilog2() + 1),
    };
    Place {
        steps,
        bits,
        snr: class.map_or(0.0, |class| RATIOS[class]),
    }
}

/// The rows of the five tables.
static ROWS: LazyLock<Vec<Vec<Vec<Place>>>> = LazyLock::new(|| {
    let row = |table, sb| {
        let steps = (0..16).map_while(|index| table_of(table).nb_steps(sb, index));
        steps.map(place).collect()
    };
    (0..5)
        .map(|table| (0..SUBBANDS).map(|sb| row(table, sb)).collect())
        .collect()
});

/// An allocation field.
pub struct Field {
    pub slot: usize,
    /// 2 where it is shared.
    pub serves: u64,
    pub row: &'static [Place],
}

impl Field {
    pub fn top(&self) -> usize {
        self.row.len() - 1
    }

    /// What the step to this place costs: the samples once, and 20 for each channel at first.
    pub fn price(&self, to: usize) -> u64 {
        let first = if to == 1 { 20 * self.serves } else { 0 };
        self.row[to].bits - self.row[to - 1].bits + first
    }

    /// All that was charged up to this place.
    pub fn charged(&self, at: usize) -> u64 {
        if at == 0 {
            0
        } else {
            self.row[at].bits + 20 * self.serves
        }
    }

    /// The mask-to-noise ratio at a place, the smaller of a shared field's two.
    pub fn mnr(&self, at: usize, ratios: &[u64]) -> f64 {
        let own = |slot: usize| {
            let smr = f64::from_bits(ratios[slot]);
            if at == 0 {
                -smr
            } else {
                self.row[at].snr - smr
            }
        };
        match self.serves {
            1 => own(self.slot),
            _ => own(self.slot).min(own(self.slot + SUBBANDS)),
        }
    }
}

/// The fields by rising subband, channel 0 first, and the bits offered.
pub struct Layout {
    pub fields: Vec<Field>,
    pub offered: u64,
}

/// The layout of a header that has a table and fits.
pub fn layout_of(numbers: &[u64]) -> Option<Layout> {
    let table = select_table(&header_of(numbers))?;
    let channels = if numbers[MODE] == 3 { 1 } else { 2 };
    let sblimit = table.sblimit();
    let bound = match numbers[MODE] {
        1 => sblimit.min(4 * (numbers[EXTENSION] as usize + 1)),
        _ => sblimit,
    };
    let mut fields = Vec::with_capacity(2 * SUBBANDS);
    let rows = &ROWS[number_of(table) as usize];
    for (sb, row) in rows[..sblimit].iter().enumerate() {
        let (own, serves) = if sb < bound { (channels, 1) } else { (1, 2) };
        fields.extend((0..own).map(|channel| Field {
            slot: SUBBANDS * channel + sb,
            serves,
            row,
        }));
    }
    let widths: u64 = fields
        .iter()
        .map(|field| u64::from(field.row.len().ilog2()))
        .sum();
    let fixed = 32 + 16 * (1 - numbers[PROTECTION_BIT]) + widths;
    let cb = 8 * frame_bytes(numbers);
    let offered = cb.checked_sub(fixed + numbers[BANC])?;
    Some(Layout { fields, offered })
}
