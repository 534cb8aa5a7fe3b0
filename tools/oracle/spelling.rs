//! The one form of a record of side information, which the Rust does not have. The choice of scfsi
//! is the oracle's own, and that the check is asked before the writers; how many indices an scfsi
//! sends, the bits, and the refusals behind the check's are the Rust's.

use crate::checking::{PASSED, check};
use crate::kind::stop;
use crate::ratios::SLOTS;
use crate::reading::read;
use crate::scfsi_kinds::scfsi_of;
use crate::side_info::*;
use oxideav_core::bits::BitWriter;
use reference::encoder_bit_allocator::FixedBitBudget;

/// By scfsi, the granule whose index is sent for each of the three.
pub const SENT_FOR: [[usize; GRANULES]; 4] = [[0, 1, 2], [0, 0, 2], [0, 0, 0], [0, 2, 2]];

/// Whether the receiver restores the three from what this scfsi sends of them.
pub fn carries(code: u64, triple: &[u64]) -> bool {
    SENT_FOR[code as usize].map(|granule| triple[granule]) == triple
}

/// Of the scfsi that carry the three, the one that sends the fewest.
pub fn fewest(triple: &[u64]) -> u64 {
    let carrying = || (0..4).filter(|&code| carries(code, triple));
    let sent = |code: u64| scfsi_of(code).parts_on_wire();
    let least = carrying().map(sent).min();
    let mut codes = carrying().filter(|&code| Some(sent(code)) == least);
    match (codes.next(), codes.next()) {
        (Some(code), None) => code,
        _ => stop("no scfsi carries the three, or two send equally few"),
    }
}

/// The record with the fewest in each active slot.
pub fn spelled(budget: &FixedBitBudget, record: &Record) -> Record {
    let mut other = record.clone();
    for slot in (0..SLOTS).filter(|&slot| record.is_active(budget, slot)) {
        other.scfsi[slot] = fewest(record.triple(slot));
    }
    other
}

/// Whether two records say the same of a frame: steps in all slots, indices in the active ones.
pub fn says_the_same(budget: &FixedBitBudget, one: &Record, other: &Record) -> bool {
    let mut active = (0..SLOTS).filter(|&slot| one.is_active(budget, slot));
    one.steps == other.steps && active.all(|slot| one.triple(slot) == other.triple(slot))
}

/// The Rust's calls for the record in its one form, or the number of the refusal: the check's, and
/// only then the writers'.
pub fn spell(head: &[u64], budget: &FixedBitBudget, record: &Record) -> Result<BitWriter, u32> {
    let checked = check(budget, record);
    if checked != PASSED {
        return Err(checked.number);
    }
    let writer = written(head, budget, &spelled(budget, record));
    let own = written(head, budget, record);
    if writer.as_ref().err() != own.as_ref().err() {
        stop("the Rust does not refuse both spellings of a record alike");
    }
    if let (Ok(writer), Ok(own)) = (&writer, &own) {
        if writer.bit_position() > own.bit_position() {
            stop("the chosen spelling is longer than the given one");
        }
        hold_reading(head, budget, record, writer);
    }
    writer
}

/// Stops where the Rust does not read what the record says, or where that is spelled in another way.
fn hold_reading(head: &[u64], budget: &FixedBitBudget, record: &Record, writer: &BitWriter) {
    let back = match read(head, budget, &writer.bytes()) {
        Ok((back, bits)) if bits == writer.bit_position() => back,
        _ => stop("the Rust does not read the bits that were spelled"),
    };
    if check(budget, &back) != PASSED || !says_the_same(budget, record, &back) {
        stop("the Rust does not read what was spelled");
    }
    match written(head, budget, &spelled(budget, &back)) {
        Ok(again) if again.fields == writer.fields => {}
        _ => stop("what was read is spelled in another way"),
    }
}

/// Whether two records give the same bytes, or the number of a refusal. Stops unless these are the same
/// exactly where the records say the same.
pub fn same_bytes(
    head: &[u64],
    budget: &FixedBitBudget,
    one: &Record,
    other: &Record,
) -> Result<bool, u32> {
    let bytes = |record: &Record| spell(head, budget, record).map(|writer| writer.bytes());
    let [mut one_bytes, mut other_bytes] = [bytes(one)?, bytes(other)?];
    one_bytes.resize(BYTES, 0);
    other_bytes.resize(BYTES, 0);
    let same = one_bytes == other_bytes;
    if same != says_the_same(budget, one, other) {
        stop("two records that say the same give other bytes, or two that do not the same");
    }
    Ok(same)
}
