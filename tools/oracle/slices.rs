//! Slices of bytes that try the readers of side information in various ways.

use crate::kind::stop;
use crate::random::Random;
use crate::ratios::SUBBANDS;
use crate::records::{accepted, one_of};
use crate::served::budget_of;
use crate::side_info::{Record, fields_of, written};
use oxideav_core::bits::BitReader;
use reference::encoder_bit_allocator::FixedBitBudget;

const CODE_BITS: usize = 2;
const INDEX_BITS: usize = 6;

/// How many indices each scfsi sends.
const SENT: [usize; 4] = [3, 2, 1, 2];

/// Where an index stands among the bits.
#[derive(Clone, Copy)]
pub struct Place {
    /// 0, 1 or 2: the first of its slot, the second, the third.
    pub part: usize,
    pub start: usize,
}

impl Place {
    pub fn end(self) -> usize {
        self.start + INDEX_BITS
    }
}

/// The slots with steps, in the order of the bitstream; nothing where the slice ends before the
/// last allocation field.
fn active_slots(budget: &FixedBitBudget, reader: &mut BitReader) -> Option<Vec<usize>> {
    let mut slots = Vec::new();
    for field in fields_of(budget) {
        let width = budget.table.nbal(field[0] % SUBBANDS);
        if reader.read_u32(width).ok()? != 0 {
            slots.extend(field);
        }
    }
    slots.sort_by_key(|slot| (slot % SUBBANDS, slot / SUBBANDS));
    Some(slots)
}

/// The places of all indices that allocation and scfsi announce, though the slice may end before
/// them; nothing where it ends before the last scfsi.
pub fn places(budget: &FixedBitBudget, bytes: &[u8]) -> Option<Vec<Place>> {
    let mut reader = BitReader::new(bytes);
    let slots = active_slots(budget, &mut reader)?;
    let codes: Option<Vec<u32>> = slots
        .iter()
        .map(|_| reader.read_u32(CODE_BITS as u32).ok())
        .collect();
    let mut start = reader.bit_position() as usize;
    let mut places = Vec::new();
    for code in codes? {
        for part in 0..SENT[code as usize] {
            places.push(Place { part, start });
            start += INDEX_BITS;
        }
    }
    Some(places)
}

/// Makes the index 63, as far as the slice has it.
pub fn plant(bytes: &mut [u8], place: Place) {
    for at in place.start..place.end() {
        if let Some(byte) = bytes.get_mut(at / 8) {
            *byte |= 0x80 >> (at % 8);
        }
    }
}

/// Whether the slice has the index, and it is 63.
pub fn is_planted(bytes: &[u8], place: Place) -> bool {
    let bit = |at: usize| {
        bytes
            .get(at / 8)
            .is_some_and(|byte| byte & 0x80 >> (at % 8) != 0)
    };
    (place.start..place.end()).all(bit)
}

fn any_bytes(length: usize, random: &mut Random) -> Vec<u8> {
    (0..length).map(|_| random.next() as u8).collect()
}

/// One bit of eight is set, so that few indices are 63.
fn few_bits(length: usize, random: &mut Random) -> Vec<u8> {
    let byte = |_| (random.next() & random.next() & random.next()) as u8;
    (0..length).map(byte).collect()
}

/// The bits of an accepted record, and any bits behind them: to the end of the last byte, and
/// where these are fewer bytes, up to so many.
pub fn sent(
    head: &[u64],
    budget: &FixedBitBudget,
    record: &Record,
    length: usize,
    random: &mut Random,
) -> Vec<u8> {
    let Ok(mut writer) = written(head, budget, record) else {
        stop("an accepted record is refused");
    };
    let length = length.max(writer.bit_position().div_ceil(8) as usize);
    while writer.bit_position() < 8 * length as u64 {
        writer.write_u32(random.below(256) as u32, 8);
    }
    let mut bytes = writer.bytes();
    bytes.truncate(length);
    bytes
}

/// An index 63, half of them at the end of a byte; half of the slices end near it.
fn reserve(bytes: &mut Vec<u8>, budget: &FixedBitBudget, random: &mut Random) {
    let mut places = places(budget, bytes).unwrap_or_default();
    if random.one_in(2) {
        places.retain(|place| place.end() % 8 == 0);
    }
    if let Some(&place) = one_of(&places, random) {
        plant(bytes, place);
        bytes.truncate(match random.below(8) {
            0 => place.start / 8,
            1 => place.end() / 8,
            2 => place.end().div_ceil(8),
            3 => place.end().div_ceil(8) + 1,
            _ => bytes.len(),
        });
    }
}

fn cut(bytes: &mut Vec<u8>, random: &mut Random) {
    let length = bytes.len() as u64;
    let end = match random.below(8) {
        0 => 0,
        1..=3 => length.saturating_sub(1 + random.below(3)),
        _ => random.below(length + 1),
    };
    bytes.truncate(end as usize);
}

/// For a header that is served mostly the bits of a record, up to its last byte or with any bytes
/// behind them, else any bytes, so many at most; often with an index 63, often cut.
pub fn draw_slice(head: &[u64], most: usize, random: &mut Random) -> Vec<u8> {
    let length = random.below(most as u64 + 1) as usize;
    let Some(budget) = budget_of(head) else {
        let length = if random.one_in(4) { 0 } else { length };
        return any_bytes(length, random);
    };
    let active = random.pick(&[0, 1, 2, 3, 4, 4]);
    let record = accepted(&budget, active, random);
    let mut bytes = match random.below(8) {
        0 => any_bytes(length, random),
        1 => few_bits(length, random),
        2..=4 => sent(head, &budget, &record, 0, random),
        _ => sent(head, &budget, &record, length, random),
    };
    if random.one_in(4) {
        reserve(&mut bytes, &budget, random);
    }
    if random.one_in(5) {
        cut(&mut bytes, random);
    }
    bytes
}
