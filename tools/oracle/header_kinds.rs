//! Questions about a header, the choice of its table among them.

use crate::heads::*;
use crate::kind::{Asker, Kind, found};
use crate::table_kinds::number_of;
use reference::bitalloc::{bitrate_per_channel_kbps, select_table};

pub const KINDS: [Kind; 7] = [
    Kind {
        number: 5,
        name: "mode_channels",
        form: "mode -> channels",
        answer: |a| vec![mode_of(a[0]).channels() as u64],
        halted: None,
        ask: |asker| MODES.iter().for_each(|&mode| asker.ask(true, &[mode])),
        one_in: 1,
    },
    Kind {
        number: 6,
        name: "bound",
        form: "extension -> bound",
        answer: |a| vec![extension_of(a[0]).bound() as u64],
        halted: None,
        ask: |asker| EXTENSIONS.iter().for_each(|&e| asker.ask(true, &[e])),
        one_in: 1,
    },
    Kind {
        number: 7,
        name: "is_free_format",
        form: "H -> 0 or 1",
        answer: |a| vec![header_of(a).is_free_format().into()],
        halted: None,
        ask: ask_free_format,
        one_in: 2000,
    },
    Kind {
        number: 8,
        name: "frame_size_bytes",
        form: "H -> number bytes (2 and 0 where the Rust halts, else number 0)",
        answer: |a| vec![0, header_of(a).frame_size_bytes() as u64],
        halted: Some(&[2, 0]),
        ask: ask_frame_size,
        one_in: 400,
    },
    Kind {
        number: 9,
        name: "bitrate_per_channel_kbps",
        form: "H -> found kbps",
        answer: |a| found(bitrate_per_channel_kbps(&header_of(a))),
        halted: None,
        ask: ask_per_channel,
        one_in: 1000,
    },
    Kind {
        number: 10,
        name: "select_table",
        form: "H -> found table",
        answer: |a| found(select_table(&header_of(a)).map(number_of)),
        halted: None,
        ask: ask_select_table,
        one_in: 400,
    },
    Kind {
        number: 16,
        name: "channels",
        form: "H -> channels",
        answer: |a| vec![header_of(a).channels() as u64],
        halted: None,
        ask: ask_channels,
        one_in: 2000,
    },
];

const RANDOM_HEADERS: usize = 200_000;

/// Rates off the ladder, which these functions take: in stereo, then in single channel.
const OFF_LADDER: [Head; 2] = [
    [0, 193_000, 44_100, 0, 1, 0, 0],
    [0, 64_999, 48_000, 0, 1, 3, 0],
];

/// Asks every combination; they are edges.
fn edges(asker: &mut Asker, choice: Choice) {
    for head in choice.heads(&mut asker.random) {
        asker.ask(true, &head);
    }
}

/// Asks every combination; they are no edges.
fn others(asker: &mut Asker, choice: Choice) {
    for head in choice.heads(&mut asker.random) {
        asker.ask(false, &head);
    }
}

fn ask_random(asker: &mut Asker) {
    for head in random_heads(RANDOM_HEADERS, &mut asker.random) {
        asker.ask(false, &head);
    }
}

// Each of these goes through every combination of the fields that its function reads.

fn ask_free_format(asker: &mut Asker) {
    let choice = |bits: &[u64]| Choice::default().with(BIT_RATE, bits);
    edges(asker, choice(&edge_bit_rates()));
    others(asker, choice(&bit_rates()));
    ask_random(asker);
}

fn ask_frame_size(asker: &mut Asker) {
    let [stereo, single] = OFF_LADDER;
    asker.by_hand("44100 Hz, 193000 bit/s: 630 bytes", &stereo);
    asker.by_hand("48000 Hz, 64999 bit/s: 194 bytes", &single);
    let choice = |bits: &[u64], samples: &[u64]| {
        let padded = Choice::default().with(PADDING, &FLAGS);
        padded.with(BIT_RATE, bits).with(SAMPLE_RATE, samples)
    };
    let usual = [LOW_SAMPLE_RATES, HIGH_SAMPLE_RATES].concat();
    let few = [0, 1, 32_000, u32::MAX.into()];
    edges(asker, choice(&edge_bit_rates(), &usual));
    edges(asker, choice(&few, &sample_rates()));
    others(asker, choice(&bit_rates(), &sample_rates()));
    ask_random(asker);
}

fn ask_per_channel(asker: &mut Asker) {
    let choice = |bits: &[u64]| Choice::default().with(MODE, &MODES).with(BIT_RATE, bits);
    edges(asker, choice(&edge_bit_rates()));
    others(asker, choice(&bit_rates()));
    ask_random(asker);
}

fn ask_select_table(asker: &mut Asker) {
    let [stereo, single] = OFF_LADDER;
    asker.by_hand("44100 Hz, stereo, 193000 bit/s: none", &stereo);
    asker.by_hand("48000 Hz, single, 64999 bit/s: B2a", &single);
    let choice = |lsf: &[u64], bits: &[u64], samples: &[u64]| {
        let modes = Choice::default().with(LSF, lsf).with(MODE, &MODES);
        modes.with(BIT_RATE, bits).with(SAMPLE_RATE, samples)
    };
    let few = [0, 32_000, 193_000, u32::MAX.into()];
    edges(asker, choice(&[0], &edge_bit_rates(), &HIGH_SAMPLE_RATES));
    edges(asker, choice(&[0], &[0, 32_000, 96_000], &sample_rates()));
    edges(asker, choice(&[1], &few, &[0, 16_000, 48_000]));
    others(asker, choice(&FLAGS, &bit_rates(), &sample_rates()));
    ask_random(asker);
}

fn ask_channels(asker: &mut Asker) {
    let modes = Choice::default().with(MODE, &MODES);
    edges(asker, modes.with(LSF, &FLAGS).with(EXTENSION, &EXTENSIONS));
    ask_random(asker);
}
