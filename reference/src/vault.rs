//! A symbolic vault: it carries orders out on terms.

use crate::orders::{BoxNumber, Order};
use crate::public_half::{PublicHalf, SealedBox};
use crate::slot::Slot;
use crate::term::{half_of, sealed, Term, TermId, Terms};

/// An order that the vault does not carry out.
#[derive(Clone, Copy, Debug, PartialEq, Eq)]
pub enum Fault {
    NoSuchSlot(Slot),
    Empty(Slot),
    Filled(Slot),
    NoSuchBox(BoxNumber),
    WrongKey(BoxNumber),
}

/// What an order gives back.
#[derive(Clone, Copy, Debug, PartialEq, Eq)]
pub enum Answer {
    Public(PublicHalf),
    Sealed(SealedBox),
}

pub type Slots = [Option<TermId>; Slot::COUNT];

pub struct Vault {
    slots: Slots,
}

impl Default for Vault {
    fn default() -> Self {
        Vault {
            slots: [None; Slot::COUNT],
        }
    }
}

impl Vault {
    pub fn slots(&self) -> &Slots {
        &self.slots
    }

    pub fn slot(&self, slot: Slot) -> Result<TermId, Fault> {
        self.slots
            .get(usize::from(slot.0))
            .ok_or(Fault::NoSuchSlot(slot))?
            .ok_or(Fault::Empty(slot))
    }

    /// All that the vault holds, by slot.
    pub fn held(&self) -> impl Iterator<Item = TermId> + '_ {
        self.slots.iter().copied().flatten()
    }

    fn write(&mut self, slot: Slot, term: TermId) -> Result<(), Fault> {
        let place = self
            .slots
            .get_mut(usize::from(slot.0))
            .ok_or(Fault::NoSuchSlot(slot))?;
        if place.is_some() {
            return Err(Fault::Filled(slot));
        }
        *place = Some(term);
        Ok(())
    }

    fn forget(&mut self, slot: Slot) -> Result<(), Fault> {
        self.slot(slot)?;
        self.slots[usize::from(slot.0)] = None;
        Ok(())
    }

    fn make(&mut self, terms: &mut Terms, term: Term, to: Slot) -> Result<(), Fault> {
        let made = terms.make(term);
        self.write(to, made)
    }

    /// Carries out one order. `boxes` are those of the message.
    pub fn carry_out(
        &mut self,
        order: Order,
        terms: &mut Terms,
        boxes: &[SealedBox],
    ) -> Result<Option<Answer>, Fault> {
        match order {
            Order::Draw(to) => {
                let drawn = terms.draw();
                self.write(to, drawn)?;
            }
            Order::Up(from, to) => self.make(terms, Term::Up(self.slot(from)?), to)?,
            Order::Lock(from, to) => self.make(terms, Term::Lock(self.slot(from)?), to)?,
            Order::Seed(from, to) => self.make(terms, Term::Seed(self.slot(from)?), to)?,
            Order::Talk(from, to) => self.make(terms, Term::Talk(self.slot(from)?), to)?,
            Order::Mix(init, path, to) => {
                let mix = Term::Mix(self.slot(init)?, self.slot(path)?);
                self.make(terms, mix, to)?;
            }
            Order::Seal(from, half) => {
                return Ok(Some(Answer::Sealed(sealed(self.slot(from)?, half))));
            }
            Order::Open(number, key, to) => {
                let key = self.slot(key)?;
                let opened = boxes.get(number.0).ok_or(Fault::NoSuchBox(number))?;
                let content = terms.opened(opened, key).ok_or(Fault::WrongKey(number))?;
                self.write(to, content)?;
            }
            Order::Forget(slot) => self.forget(slot)?,
            Order::Public(slot) => {
                return Ok(Some(Answer::Public(half_of(self.slot(slot)?))));
            }
        }
        Ok(None)
    }
}

#[cfg(test)]
mod tests {
    use super::*;

    #[test]
    fn empty_slots_are_not_read_and_filled_ones_not_written() {
        let (a, b) = (Slot(0), Slot(63));
        let mut vault = Vault::default();
        let mut terms = Terms::default();
        let mut order = |order| vault.carry_out(order, &mut terms, &[]);
        assert_eq!(order(Order::Public(a)), Err(Fault::Empty(a)));
        assert_eq!(order(Order::Forget(a)), Err(Fault::Empty(a)));
        assert_eq!(order(Order::Draw(a)), Ok(None));
        assert_eq!(order(Order::Draw(a)), Err(Fault::Filled(a)));
        assert_eq!(order(Order::Up(a, a)), Err(Fault::Filled(a)));
        assert_eq!(order(Order::Up(a, b)), Ok(None));
        assert_eq!(
            order(Order::Mix(a, Slot(1), Slot(2))),
            Err(Fault::Empty(Slot(1)))
        );
        assert_eq!(order(Order::Forget(b)), Ok(None));
        assert_eq!(
            order(Order::Draw(Slot(64))),
            Err(Fault::NoSuchSlot(Slot(64)))
        );
        let none = BoxNumber(0);
        assert_eq!(order(Order::Open(none, a, b)), Err(Fault::NoSuchBox(none)));
    }
}
