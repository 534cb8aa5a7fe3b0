//! A record of steps, scfsi and scalefactor indices, and what the Rust's writers make of it.

use crate::heads::{Head, header_of};
use crate::kind::stop;
use crate::ratios::{SLOTS, SUBBANDS};
use crate::scfsi_kinds::scfsi_of;
use oxideav_core::bits::BitWriter;
use reference::audio_data::{
    AudioData, AudioDataWriteError, write_audio_data_with_section_bits, write_side_info,
};
use reference::encoder_bit_allocator::FixedBitBudget;

pub const GRANULES: usize = 3;
pub const INDICES: usize = GRANULES * SLOTS;

/// Holds the 1388 bits that side information has at most.
pub const BYTES: usize = 174;

/// The last scalefactor index that is not reserved.
pub const LAST_INDEX: u64 = 62;

pub const APART: u32 = 6;
pub const LACKING: u32 = 7;
pub const RESERVED: u32 = 8;

/// By slot, 32 * channel + subband.
#[derive(Clone)]
pub struct Record {
    pub steps: [u64; SLOTS],
    /// Codes of two bits.
    pub scfsi: [u64; SLOTS],
    /// At 3 * slot + granule.
    pub index: [u64; INDICES],
}

impl Record {
    pub const EMPTY: Record = Record {
        steps: [0; SLOTS],
        scfsi: [0; SLOTS],
        index: [0; INDICES],
    };

    /// The three of a slot, to be changed.
    pub fn indices(&mut self, slot: usize) -> &mut [u64] {
        &mut self.index[GRANULES * slot..][..GRANULES]
    }

    /// The three of a slot.
    pub fn triple(&self, slot: usize) -> &[u64] {
        &self.index[GRANULES * slot..][..GRANULES]
    }

    /// Whether the layout carries the slot and it has steps.
    pub fn is_active(&self, budget: &FixedBitBudget, slot: usize) -> bool {
        is_carried(budget, slot) && self.steps[slot] != 0
    }
}

pub fn is_carried(budget: &FixedBitBudget, slot: usize) -> bool {
    slot / SUBBANDS < budget.channels && slot % SUBBANDS < budget.sblimit
}

/// The slots of each allocation field, in the order of the bitstream; a shared field has two.
pub fn fields_of(budget: &FixedBitBudget) -> Vec<Vec<usize>> {
    let slots = |sb: usize| (0..budget.channels).map(move |ch| SUBBANDS * ch + sb);
    let own = (0..budget.bound).flat_map(|sb| slots(sb).map(|slot| vec![slot]));
    let shared = (budget.bound..budget.sblimit).map(|sb| slots(sb).collect());
    own.chain(shared).collect()
}

/// The Rust's record, with the layout of the budget.
pub fn data_of(budget: &FixedBitBudget, record: &Record) -> AudioData {
    AudioData {
        table: budget.table,
        sblimit: budget.sblimit,
        bound: budget.bound,
        channels: budget.channels,
        nb_steps: by_slot(|slot| record.steps[slot] as u32),
        scfsi: by_slot(|slot| scfsi_of(record.scfsi[slot])),
        scalefactor: by_slot(|slot| {
            [0, 1, 2].map(|part| record.index[GRANULES * slot + part] as u8)
        }),
    }
}

fn by_slot<T>(of: impl Fn(usize) -> T) -> [[T; SUBBANDS]; 2] {
    std::array::from_fn(|ch| std::array::from_fn(|sb| of(SUBBANDS * ch + sb)))
}

/// From H, the layout of its budget and a record to calls of a writer, or the number of a refusal.
pub type Write = fn(&[u64], &FixedBitBudget, &Record) -> Result<BitWriter, u32>;

/// The calls of the Rust's private writers, or the number of their refusal.
pub fn written(head: &[u64], budget: &FixedBitBudget, record: &Record) -> Result<BitWriter, u32> {
    let data = data_of(budget, record);
    let (mut own, mut whole) = (BitWriter::new(), BitWriter::new());
    let refusal = write_side_info(&data, &mut own).err();
    let public = write_audio_data_with_section_bits(&header_of(head), &data, &mut whole);
    if public.err() != refusal || own.fields != whole.fields {
        stop("the Rust's public writer does not do as its private ones");
    }
    if own.fields.iter().any(|&(value, width)| value >> width != 0) {
        stop("the Rust writes a value that does not fit its width");
    }
    match refusal {
        None => Ok(own),
        Some(error) => Err(number_of(error)),
    }
}

fn number_of(error: AudioDataWriteError) -> u32 {
    match error {
        AudioDataWriteError::IntensityStereoAllocationMismatch { .. } => APART,
        AudioDataWriteError::UnencodableNbSteps { .. } => LACKING,
        AudioDataWriteError::ReservedScalefactorIndex { .. } => RESERVED,
        other => stop(&format!("the layout is the header's, but: {other}")),
    }
}

/// The bits of an scfsi code and of a byte in a line.
const CODE_BITS: usize = 2;
pub const BYTE_BITS: usize = 8;

/// Values of so many bits, as many in a number as it holds, the first in its lowest bits.
pub fn pack(values: &[u64], width: usize) -> Vec<u64> {
    let number = |part: &[u64]| {
        part.iter()
            .rev()
            .fold(0, |all, &value| all << width | value)
    };
    values.chunks(64 / width).map(number).collect()
}

/// The values that `pack` was given, for the length of the array.
pub fn unpacked<const COUNT: usize>(numbers: &[u64], width: usize) -> [u64; COUNT] {
    let each = 64 / width;
    std::array::from_fn(|at| numbers[at / each] >> (at % each * width) & ((1 << width) - 1))
}

/// The record, as a line has it.
pub fn packed(record: &Record) -> Vec<u64> {
    let codes = pack(&record.scfsi, CODE_BITS);
    let indices = pack(&record.index, BYTE_BITS);
    [&record.steps[..], &codes, &indices].concat()
}

/// H and the record, as a line has them.
pub fn arguments(head: &Head, record: &Record) -> Vec<u64> {
    [&head[..], &packed(record)].concat()
}

/// The record behind H in a line.
pub fn record_of_line(a: &[u64]) -> Record {
    let (steps, packed) = a[7..].split_at(SLOTS);
    Record {
        steps: std::array::from_fn(|slot| steps[slot]),
        scfsi: unpacked(&packed[..2], CODE_BITS),
        index: unpacked(&packed[2..], BYTE_BITS),
    }
}
