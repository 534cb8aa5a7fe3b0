//! The selection of scfsi, the classes of differences, and how many indices are transmitted.

use crate::kind::{Asker, Kind, sorted};
use reference::audio_data::Scfsi;
use reference::encoder_scfsi::{TransmissionPattern, classify_difference, select_scfsi};

pub const KINDS: [Kind; 5] = [
    Kind {
        number: 20,
        name: "select_scfsi",
        form: "a b c -> used0 used1 used2 write0 write1 write2 scfsi class1 class2 (scfsi: \
               0 ThreePerGranule, 1 Share01Then2, 2 ShareAll, 3 Share0Then12; classes 1 to 5)",
        answer: |a| selection([a[0] as u8, a[1] as u8, a[2] as u8]).to_vec(),
        halted: None,
        ask: ask_selections,
        one_in: 200,
    },
    Kind {
        number: 21,
        name: "scfsi_checksum",
        form: "a -> checksum (from 0, over b = 0 to 62, then c = 0 to 62, for each of the nine \
               numbers of kind 20: h = (h * 31 + number) mod 2^32)",
        answer: |a| vec![checksum(a[0] as u8)],
        halted: None,
        ask: |asker| (0..=LAST_INDEX).for_each(|a| asker.ask(true, &[a])),
        one_in: 1,
    },
    Kind {
        number: 24,
        name: "classify_difference",
        form: "d, 16 bits in two's complement -> class",
        answer: |a| vec![classify_difference(a[0] as u16 as i16).as_index().into()],
        halted: None,
        ask: ask_differences,
        one_in: 300,
    },
    Kind {
        number: 30,
        name: "transmitted_count",
        form: "write0 write1 write2 -> how many of the three are written",
        answer: |a| vec![pattern_of(a).transmitted_count() as u64],
        halted: None,
        ask: |asker| (0..8).for_each(|a| asker.ask(true, &[a / 4, a / 2 % 2, a % 2])),
        one_in: 1,
    },
    Kind {
        number: 31,
        name: "parts_on_wire",
        form: "scfsi, as in kind 20 -> how many indices are transmitted",
        answer: |a| vec![scfsi_of(a[0]).parts_on_wire() as u64],
        halted: None,
        ask: |asker| (0..4).for_each(|code| asker.ask(true, &[code])),
        one_in: 1,
    },
];

const LAST_INDEX: u64 = 62;

const RANDOM_TRIPLES: usize = 50_000;

fn pattern_of(a: &[u64]) -> TransmissionPattern {
    TransmissionPattern {
        write0: a[0] == 1,
        write1: a[1] == 1,
        write2: a[2] == 1,
    }
}

pub fn scfsi_of(number: u64) -> Scfsi {
    match number {
        0 => Scfsi::ThreePerGranule,
        1 => Scfsi::Share01Then2,
        2 => Scfsi::ShareAll,
        3 => Scfsi::Share0Then12,
        _ => unreachable!("an scfsi is 0 to 3"),
    }
}

pub fn code_of(scfsi: Scfsi) -> u64 {
    match scfsi {
        Scfsi::ThreePerGranule => 0,
        Scfsi::Share01Then2 => 1,
        Scfsi::ShareAll => 2,
        Scfsi::Share0Then12 => 3,
    }
}

pub fn selection(indices: [u8; 3]) -> [u64; 9] {
    let chosen = select_scfsi(indices);
    [
        chosen.used[0].into(),
        chosen.used[1].into(),
        chosen.used[2].into(),
        chosen.pattern.write0.into(),
        chosen.pattern.write1.into(),
        chosen.pattern.write2.into(),
        code_of(chosen.scfsi),
        chosen.classes.0.as_index().into(),
        chosen.classes.1.as_index().into(),
    ]
}

fn checksum(a: u8) -> u64 {
    let mut sum = 0u32;
    for b in 0..=LAST_INDEX as u8 {
        for c in 0..=LAST_INDEX as u8 {
            for number in selection([a, b, c]) {
                sum = sum.wrapping_mul(31).wrapping_add(number as u32);
            }
        }
    }
    sum.into()
}

/// Every triple of these.
fn triples(of: &[u64]) -> Vec<[u64; 3]> {
    let pairs = of.iter().flat_map(|&a| of.iter().map(move |&b| (a, b)));
    pairs
        .flat_map(|(a, b)| of.iter().map(move |&c| [a, b, c]))
        .collect()
}

/// From a first index, every pair of differences to 4 in both directions.
fn near_differences(first: u64) -> Vec<[u64; 3]> {
    let deltas = [0, 1, 2, 3, 4, 5, 6, 7, 8];
    let pairs = deltas.iter().flat_map(|&d| deltas.map(|e| (d, e)));
    pairs
        .map(|(d, e)| [first, first + 4 - d, first + 8 - d - e])
        .collect()
}

fn ask_selections(asker: &mut Asker) {
    asker.by_hand("indices 10 12 11 use 10 10 10", &[10, 12, 11]);
    asker.by_hand("indices 0 3 3 stay", &[0, 3, 3]);
    asker.by_hand("indices 0 2 4 become 0 0 0", &[0, 2, 4]);
    let mut edges = triples(&[0, 1, 2, 3, 4, 5]);
    edges.extend(triples(&[0, 62, 63, 255]));
    for first in [8, 31, 54, 247] {
        edges.extend(near_differences(first));
    }
    for indices in edges {
        asker.ask(true, &indices);
    }
    for at in 0..RANDOM_TRIPLES {
        let end = if at % 2 == 0 { 256 } else { LAST_INDEX + 1 };
        let indices = [0; 3].map(|_| asker.random.below(end));
        asker.ask(false, &indices);
    }
}

fn ask_differences(asker: &mut Asker) {
    let mut edges: Vec<u64> = (0..=8).chain(65_528..=65_535).collect();
    edges.extend([62, 63, 255, 256, 65_280, 65_281, 65_473, 65_474]);
    edges.extend([32_766, 32_767, 32_768, 32_769]);
    let edges = sorted(edges);
    for difference in 0..=u64::from(u16::MAX) {
        asker.ask(edges.binary_search(&difference).is_ok(), &[difference]);
    }
}
