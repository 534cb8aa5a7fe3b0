//! What holds of every accepted allocation, checked from header, ratios, steps and bits left alone.

use crate::case::{Case, Reply};
use crate::layout::{Field, Layout, layout_of};
use questions::ratios::{SLOTS, SUBBANDS};

pub const LAYOUT: &str = "outside the layout there are steps";
pub const SHARED: &str = "the channels of a shared field differ";
pub const ROW: &str = "steps that the row lacks";
pub const PART_2: &str = "part 2: charged and left are not what is offered";
pub const PART_3: &str = "part 3: a next step that is not dearer than what is left";
pub const PART_4: &str = "part 4: a step that another field should have had";

/// An accepted allocation by its fields.
pub struct Held {
    pub layout: Layout,
    /// The place of each field.
    pub places: Vec<usize>,
    pub left: u64,
}

impl Held {
    /// Nothing where the steps fit no layout.
    pub fn read(case: &Case, reply: &Reply) -> Result<Held, &'static str> {
        let [steps, out, ..] = &reply.memories;
        let steps: [u32; SLOTS] = std::array::from_fn(|slot| steps.get(4, slot) as u32);
        let layout = layout_of(&case.numbers).ok_or(PART_2)?;
        check_layout(&layout.fields, &steps)?;
        let place = |field: &Field| {
            let held = steps[field.slot];
            field
                .row
                .iter()
                .position(|place| place.steps == held)
                .ok_or(ROW)
        };
        let places = layout.fields.iter().map(place).collect::<Result<_, _>>()?;
        Ok(Held {
            layout,
            places,
            left: out.get(4, 0),
        })
    }

    fn fields(&self) -> impl Iterator<Item = (&Field, usize)> {
        self.layout.fields.iter().zip(self.places.iter().copied())
    }

    /// Charged, counted from the steps held, and left make what is offered.
    fn is_counted(&self) -> bool {
        let charged: u64 = self.fields().map(|(field, at)| field.charged(at)).sum();
        charged + self.left == self.layout.offered
    }

    /// No next step fits in what is left.
    fn is_full(&self) -> bool {
        self.fields()
            .all(|(field, at)| at == field.top() || field.price(at + 1) > self.left)
    }

    /// No field below its top was passed over for a last step that would have paid its next one.
    fn is_fair(&self, ratios: &[u64]) -> bool {
        let risen = self.fields().filter(|&(_, at)| at > 0);
        let last: Vec<(f64, u64)> = risen
            .map(|(field, at)| (field.mnr(at - 1, ratios), field.price(at)))
            .collect();
        let below = self.fields().filter(|&(field, at)| at < field.top());
        let mut next = below.map(|(field, at)| (field.mnr(at, ratios), field.price(at + 1)));
        next.all(|(worse, price)| {
            let paid = |&(before, paid): &(f64, u64)| worse >= before || paid + self.left < price;
            last.iter().all(paid)
        })
    }

    pub fn reads_nan(&self, ratios: &[u64]) -> bool {
        self.layout.fields.iter().any(|field| {
            let nan = |slot: usize| f64::from_bits(ratios[slot]).is_nan();
            nan(field.slot) || field.serves == 2 && nan(field.slot + SUBBANDS)
        })
    }
}

fn check_layout(fields: &[Field], steps: &[u32; SLOTS]) -> Result<(), &'static str> {
    let mut rest = *steps;
    for field in fields {
        rest[field.slot] = 0;
        if field.serves == 2 {
            if steps[field.slot] != steps[field.slot + SUBBANDS] {
                return Err(SHARED);
            }
            rest[field.slot + SUBBANDS] = 0;
        }
    }
    if rest == [0; SLOTS] {
        Ok(())
    } else {
        Err(LAYOUT)
    }
}

/// The rules that an accepted allocation breaks.
pub fn broken(case: &Case, reply: &Reply) -> Vec<&'static str> {
    let held = match Held::read(case, reply) {
        Ok(held) => held,
        Err(rule) => return vec![rule],
    };
    let mut rules = Vec::new();
    if !held.is_counted() {
        rules.push(PART_2);
    }
    if !held.is_full() {
        rules.push(PART_3);
    }
    if !held.reads_nan(&case.ins[0]) && !held.is_fair(&case.ins[0]) {
        rules.push(PART_4);
    }
    rules
}
