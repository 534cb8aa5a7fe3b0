//! A slice of bytes, and what the Rust's readers of side information make of it.

use crate::heads::{Head, header_of};
use crate::kind::stop;
use crate::ratios::SUBBANDS;
use crate::scfsi_kinds::code_of;
use crate::side_info::*;
use oxideav_core::bits::{BitReader, BitWriter};
use reference::audio_data::{AudioData, AudioDataError, parse_audio_data};
use reference::encoder_bit_allocator::FixedBitBudget;

pub const ENDED: u32 = 9;
pub const READ_RESERVED: u32 = 10;

/// The numbers of a line that hold the bytes, and the most bytes that they hold.
const LINE_NUMBERS: usize = 22;
pub const LINE_BYTES: usize = 8 * LINE_NUMBERS;

/// The record that is read, and how many bits it takes; or the number of the refusal.
pub fn read(head: &[u64], budget: &FixedBitBudget, bytes: &[u8]) -> Result<(Record, u64), u32> {
    let mut reader = BitReader::new(bytes);
    let data = parse_audio_data(&header_of(head), &mut reader).map_err(number_of)?;
    let (record, bits) = (record_of(&data), reader.bit_position());
    if data != data_of(budget, &record) {
        stop("the Rust reads by another layout than the budget's");
    }
    match written(head, budget, &record) {
        Ok(writer) if writer.bit_position() == bits && begins(bytes, &writer) => Ok((record, bits)),
        _ => stop("the Rust's writers do not write what its readers read"),
    }
}

fn number_of(error: AudioDataError) -> u32 {
    match error {
        AudioDataError::UnexpectedEnd => ENDED,
        AudioDataError::ReservedScalefactorIndex { .. } => READ_RESERVED,
        other => stop(&format!("the table is the header's, but: {other}")),
    }
}

fn record_of(data: &AudioData) -> Record {
    let place = |slot: usize| (slot / SUBBANDS, slot % SUBBANDS);
    let mut record = Record::EMPTY;
    for (slot, steps) in record.steps.iter_mut().enumerate() {
        let (ch, sb) = place(slot);
        *steps = data.nb_steps[ch][sb].into();
    }
    for (slot, code) in record.scfsi.iter_mut().enumerate() {
        let (ch, sb) = place(slot);
        *code = code_of(data.scfsi[ch][sb]);
    }
    for (at, index) in record.index.iter_mut().enumerate() {
        let (ch, sb) = place(at / GRANULES);
        *index = data.scalefactor[ch][sb][at % GRANULES].into();
    }
    record
}

/// Whether the bytes begin with the fields of the writer.
fn begins(bytes: &[u8], writer: &BitWriter) -> bool {
    let mut reader = BitReader::new(bytes);
    let mut fields = writer.fields.iter();
    fields.all(|&(value, width)| reader.read_u32(width).is_ok_and(|read| read == value))
}

/// H and the slice, as a line has them.
pub fn slice_arguments(head: &Head, bytes: &[u8]) -> Vec<u64> {
    let mut line = [0; LINE_BYTES];
    for (at, &byte) in bytes.iter().enumerate() {
        line[at] = byte.into();
    }
    let numbers = pack(&line, BYTE_BITS);
    [&head[..], &[bytes.len() as u64], &numbers].concat()
}

/// The slice behind H in a line.
pub fn slice_of_line(a: &[u64]) -> Vec<u8> {
    let line: [u64; LINE_BYTES] = unpacked(&a[8..], BYTE_BITS);
    let bytes = line.iter().map(|&byte| byte as u8);
    bytes.take(a[7] as usize).collect()
}
