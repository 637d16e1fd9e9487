//! The shelf: eight slots, and the calls.

use super::comparing::{Comparison, compare, room};
use super::{Procedure, Refusal, SHELF, refused};

pub struct Slot {
    pub baseline: Procedure,
    pub in_force: Procedure,
    pub pending: Option<Procedure>,
    pub latest_claim: Option<u32>,
}

pub struct Shelf {
    pub number: u16,
    pub slots: [Option<Slot>; 8],
    pub claims: u32,
}

pub struct Clearance {
    shelf: u16,
    slot: usize,
    claim: u32,
}

/// A submission that is different carries the comparison's report.
pub enum SubmitRefusal {
    Row(Refusal),
    Different(Comparison),
}

impl Shelf {
    pub fn new(number: u16) -> Shelf {
        Shelf { number, slots: Default::default(), claims: 0 }
    }

    pub fn file(&mut self, slot: usize, source: &Procedure) -> Result<(), Refusal> {
        if slot > 7 {
            return Err(refused(20, SHELF));
        }
        if self.slots[slot].is_some() {
            return Err(refused(21, SHELF));
        }
        if source.size() > 512 {
            return Err(refused(24, SHELF));
        }
        self.slots[slot] =
            Some(Slot { baseline: source.clone(), in_force: source.clone(), pending: None, latest_claim: None });
        Ok(())
    }

    pub fn submit(
        &mut self,
        slot: usize,
        source: &Procedure,
        lines: usize,
        classes: usize,
    ) -> Result<Comparison, SubmitRefusal> {
        let row = |number| Err(SubmitRefusal::Row(refused(number, SHELF)));
        if slot > 7 {
            return row(20);
        }
        let Some(held) = &mut self.slots[slot] else {
            return row(22);
        };
        if held.pending.is_some() {
            return row(23);
        }
        if source.size() > 512 {
            return row(24);
        }
        if room(&held.in_force, source, lines, classes).is_some() {
            return row(25);
        }
        let report = compare(&held.in_force, source);
        if report.depth.is_some() {
            return Err(SubmitRefusal::Different(report));
        }
        held.pending = Some(source.clone());
        Ok(report)
    }

    pub fn claim(&mut self, slot: usize) -> Result<Clearance, Refusal> {
        if slot > 7 {
            return Err(refused(20, SHELF));
        }
        let Some(held) = &mut self.slots[slot] else {
            return Err(refused(22, SHELF));
        };
        if held.pending.is_none() {
            return Err(refused(27, SHELF));
        }
        if self.claims == 65_535 {
            return Err(refused(28, SHELF));
        }
        self.claims += 1;
        held.latest_claim = Some(self.claims);
        Ok(Clearance { shelf: self.number, slot, claim: self.claims })
    }

    /// The slot that a clearance is for, its claim ended.
    fn spend(&mut self, clearance: Clearance) -> Result<&mut Slot, Refusal> {
        match &mut self.slots[clearance.slot] {
            Some(held) if clearance.shelf == self.number && held.latest_claim == Some(clearance.claim) => {
                held.latest_claim = None;
                Ok(held)
            }
            _ => Err(refused(29, SHELF)),
        }
    }

    pub fn release(&mut self, clearance: Clearance) -> Result<(), Refusal> {
        let held = self.spend(clearance)?;
        held.in_force = held.pending.take().unwrap();
        Ok(())
    }

    pub fn withdraw(&mut self, clearance: Clearance) -> Result<(), Refusal> {
        self.spend(clearance)?.pending = None;
        Ok(())
    }
}
