//! Quantizer classes, the bits and signal-to-noise ratios of their samples, and the multipliers.

use crate::kind::{Asker, Kind, found, sorted};
use crate::steps;
use reference::bitalloc::{QuantClass, class_of_quantization, is_grouped};
use reference::encoder_bit_allocator::{sample_bits_for, snr_db};
use reference::tables::SCALEFACTORS;

pub const KINDS: [Kind; 6] = [
    Kind {
        number: 11,
        name: "class_of_quantization",
        form: "steps -> found Cbits Dbits grouping samples_per_codeword bits_per_codeword",
        answer: answer_class,
        halted: None,
        ask: |asker| ask_steps(asker, 0),
        one_in: 700,
    },
    Kind {
        number: 12,
        name: "is_grouped",
        form: "steps -> 0 or 1",
        answer: |a| vec![is_grouped(a[0] as u32).into()],
        halted: None,
        ask: |asker| ask_steps(asker, 0),
        one_in: 700,
    },
    Kind {
        number: 13,
        name: "bits_per_sample",
        form: "steps -> bits",
        answer: |a| vec![with_steps(a[0]).bits_per_sample().into()],
        halted: None,
        // Not 0: there a debug build halts and a release build wraps.
        ask: |asker| ask_steps(asker, 1),
        one_in: 700,
    },
    Kind {
        number: 14,
        name: "sample_bits_for",
        form: "steps -> bits",
        answer: |a| vec![sample_bits_for(a[0] as u32).into()],
        halted: None,
        ask: |asker| ask_steps(asker, 0),
        one_in: 700,
    },
    Kind {
        number: 15,
        name: "scalefactors",
        form: "index -> bits of SCALEFACTORS[index]",
        answer: |a| vec![SCALEFACTORS[a[0] as usize].to_bits()],
        halted: None,
        ask: |asker| (0..SCALEFACTORS.len() as u64).for_each(|index| asker.ask(true, &[index])),
        one_in: 1,
    },
    Kind {
        number: 25,
        name: "snr_db",
        form: "steps -> found bits",
        answer: |a| found(snr_db(a[0] as u32).map(f64::to_bits)),
        halted: None,
        ask: |asker| ask_steps(asker, 0),
        one_in: 700,
    },
];

fn answer_class(a: &[u64]) -> Vec<u64> {
    match class_of_quantization(a[0] as u32) {
        None => vec![0; 6],
        Some(class) => vec![
            1,
            class.c.to_bits(),
            class.d.to_bits(),
            class.grouping.into(),
            class.samples_per_codeword.into(),
            class.bits_per_codeword.into(),
        ],
    }
}

/// A class of any step count; the other fields are not read.
fn with_steps(count: u64) -> QuantClass {
    QuantClass {
        nb_steps: count as u32,
        c: 1.0,
        d: 0.0,
        grouping: false,
        samples_per_codeword: 1,
        bits_per_codeword: 1,
    }
}

/// From `first` on: the low step counts, the powers of 2 with their neighbours, the top hundred.
fn ask_steps(asker: &mut Asker, first: u64) {
    let top = u64::from(u32::MAX);
    let edges = sorted([steps::near_classes(), steps::near_powers()].concat());
    let high: Vec<u64> = (top - 99..=top).collect();
    for count in sorted([steps::all_low(), edges.clone(), high].concat()) {
        if count >= first {
            asker.ask(edges.binary_search(&count).is_ok(), &[count]);
        }
    }
}
