//! Times the writing of side information, on so many different records that no branch predictor
//! learns them.

use crate::bench_inputs::{SIDE_INFO_HEADS, any_records, encoded_records};
use crate::case::Memory;
use crate::header_functions::call_with_head;
use crate::library::*;
use crate::timing::{Row, Times, measure};
use packed::audio_data::{AudioData, parse_audio_data, write_audio_data_with_section_bits};
use packed::header::FrameHeader;
use packing::bits::{BitReader, BitWriter};
use questions::heads::{Head, header_of};
use questions::served::budget_of;
use questions::side_info::{BYTES, Record, written};
use std::hint::black_box;

/// The slices of a call.
pub struct Slices {
    pub steps: Vec<u32>,
    pub scfsi: Vec<u8>,
    pub index: Vec<u8>,
}

pub fn slices_of(record: &Record) -> Slices {
    let bytes = |numbers: &[u64]| numbers.iter().map(|&number| number as u8).collect();
    Slices {
        steps: record.steps.iter().map(|&steps| steps as u32).collect(),
        scfsi: bytes(&record.scfsi),
        index: bytes(&record.index),
    }
}

pub fn time_side_info() -> Vec<Row> {
    by_records(time_records)
}

/// A row for each header: records as an encoder makes them, then any.
pub fn by_records(time: fn(&Head, &[Record]) -> Times) -> Vec<Row> {
    let row = |(label, head): &(&str, Head)| Row {
        label: label.to_string(),
        sets: [encoded_records(head), any_records(head)]
            .iter()
            .map(|records| time(head, records))
            .collect(),
    };
    SIDE_INFO_HEADS.iter().map(row).collect()
}

/// The header of the Rust that is timed, and the bytes of each record, which the other wrote.
pub fn written_bytes(head: &Head, records: &[Record]) -> (FrameHeader, Vec<Vec<u8>>) {
    let bytes = header_of(head)
        .emit_bytes()
        .expect("a header of the standards");
    let header = FrameHeader::parse(&bytes).expect("the same header");
    let budget = budget_of(head).expect("a header that is served");
    let bytes = |record: &Record| match written(head, &budget, record) {
        Ok(writer) => writer.bytes(),
        Err(number) => panic!("refused: {number}"),
    };
    (header, records.iter().map(bytes).collect())
}

/// The same header, and the records read from these bytes.
pub fn read_back(head: &Head, records: &[Record]) -> (FrameHeader, Vec<AudioData>) {
    let (header, bytes) = written_bytes(head, records);
    let data = |bytes: &Vec<u8>| {
        parse_audio_data(&header, &mut BitReader::new(bytes)).expect("what was written")
    };
    let records = bytes.iter().map(data).collect();
    (header, records)
}

fn call_library(
    writer: Writer,
    head: &Head,
    slices: &Slices,
    bytes: &mut Memory,
    out: &mut Memory,
) -> u32 {
    call_with_head!(
        writer,
        head,
        slices.steps.as_ptr(),
        slices.steps.len(),
        slices.scfsi.as_ptr(),
        slices.scfsi.len(),
        slices.index.as_ptr(),
        slices.index.len(),
        bytes.pointer(),
        BYTES,
        out.pointer(),
        1
    )
}

fn time_records(head: &Head, records: &[Record]) -> Times {
    let (header, data) = read_back(head, records);
    time_writer(folgrist_write_side_info, head, records, |at, writer| {
        write(&header, &data[at], writer)
    })
}

pub fn write(header: &FrameHeader, data: &AudioData, writer: &mut BitWriter) {
    let (header, data) = (black_box(header), black_box(data));
    let _ = black_box(write_audio_data_with_section_bits(header, data, writer));
}

/// Times a writer of the library beside one that leaves the same bytes of the record at a place.
pub fn time_writer(
    library: Writer,
    head: &Head,
    records: &[Record],
    mut rust: impl FnMut(usize, &mut BitWriter),
) -> Times {
    let slices: Vec<Slices> = records.iter().map(slices_of).collect();
    let (mut bytes, mut out) = (Memory::filled(0), Memory::filled(0));
    let mut writer = BitWriter::new();
    for (at, slices) in slices.iter().enumerate() {
        let number = call_library(library, head, slices, &mut bytes, &mut out);
        writer.clear();
        rust(at, &mut writer);
        let rust = writer.finish();
        let as_long = rust.len() as u64 == out.get(4, 0).div_ceil(8);
        let same = (0..rust.len()).all(|at| bytes.get(1, at) == rust[at].into());
        assert!(number == 0 && as_long && same, "what is timed differs");
    }
    let rust = || {
        // The writer is emptied for each record, so no memory is asked for.
        for at in 0..records.len() {
            writer.clear();
            rust(at, &mut writer);
            black_box(writer.finish());
        }
    };
    let library = || {
        for slices in &slices {
            let (head, slices) = (black_box(head), black_box(slices));
            black_box(call_library(library, head, slices, &mut bytes, &mut out));
            black_box((&bytes, &out));
        }
    };
    measure(records.len(), rust, library)
}
