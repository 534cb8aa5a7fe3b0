//! Times the reading of side information, on the bytes of the records whose writing is timed.

use crate::case::{Memories, Memory};
use crate::header_functions::call_with_head;
use crate::library::*;
use crate::side_info_bench::{by_records, written_bytes};
use crate::timing::{Row, Times, measure};
use packed::audio_data::{AudioData, parse_audio_data};
use packing::bits::BitReader;
use questions::heads::Head;
use questions::random::Random;
use questions::ratios::{SLOTS, SUBBANDS};
use questions::side_info::{GRANULES, INDICES, Record};
use std::hint::black_box;

pub fn time_reading() -> Vec<Row> {
    check_reader();
    by_records(time_slices)
}

/// The reader that is timed takes what the plain one takes, up to any end and behind a refusal.
fn check_reader() {
    let mut random = Random::new(1, 7, 0);
    for length in 0..64 {
        let bytes: Vec<u8> = (0..length).map(|_| random.next() as u8).collect();
        let mut timed = BitReader::new(&bytes);
        let mut plain = oxideav_core::bits::BitReader::new(&bytes);
        for _ in 0..2 * length {
            let width = random.below([33, 7][length % 2]) as u32;
            let same = timed.read_u32(width).ok() == plain.read_u32(width).ok();
            let at = timed.bit_position() == plain.bit_position();
            assert!(same && at, "the reader that is timed differs");
        }
    }
}

fn call_library(head: &Head, bytes: &[u8], [steps, scfsi, index, out]: &mut Memories) -> u32 {
    call_with_head!(
        folgrist_read_side_info,
        head,
        bytes.as_ptr(),
        bytes.len(),
        steps.pointer(),
        SLOTS,
        scfsi.pointer(),
        SLOTS,
        index.pointer(),
        INDICES,
        out.pointer(),
        1
    )
}

/// Whether the library wrote what the Rust returned.
fn is_same(data: &AudioData, [steps, scfsi, index, _]: &Memories) -> bool {
    (0..SLOTS).all(|slot| {
        let (ch, sb) = (slot / SUBBANDS, slot % SUBBANDS);
        let triple = data.scalefactor[ch][sb].iter().enumerate();
        steps.get(4, slot) == data.nb_steps[ch][sb].into()
            && scfsi.get(1, slot) == data.scfsi[ch][sb] as u64
            && triple
                .map(|(granule, &own)| (index.get(1, GRANULES * slot + granule), own))
                .all(|(index, own)| index == own.into())
    })
}

fn time_slices(head: &Head, records: &[Record]) -> Times {
    let (header, slices) = written_bytes(head, records);
    let mut memories = [0; 4].map(Memory::filled);
    for bytes in &slices {
        let number = call_library(head, bytes, &mut memories);
        let mut reader = BitReader::new(bytes);
        let data = parse_audio_data(&header, &mut reader).expect("what was written");
        let as_long = memories[3].get(4, 0) == reader.bit_position();
        let same = number == 0 && as_long && is_same(&data, &memories);
        assert!(same, "what is timed differs");
    }
    let rust = || {
        for bytes in &slices {
            let mut reader = BitReader::new(black_box(bytes));
            let _ = black_box(&parse_audio_data(black_box(&header), &mut reader));
        }
    };
    let library = || {
        for bytes in &slices {
            black_box(call_library(
                black_box(head),
                black_box(bytes),
                &mut memories,
            ));
            black_box(&memories);
        }
    };
    measure(records.len(), rust, library)
}
