//! Symbolic terms: a secret written as the way it came about. Equal ways are one term.

use std::collections::HashMap;

use crate::public_half::{PublicHalf, SealedBox};

/// A term's number: how many came into being before it.
#[derive(Clone, Copy, Debug, PartialEq, Eq, PartialOrd, Ord, Hash)]
pub struct TermId(pub u32);

#[derive(Clone, Copy, Debug, PartialEq, Eq, Hash)]
pub enum Term {
    /// The n-th secret that was drawn: no two draws give the same.
    Drawn(u32),
    Up(TermId),
    Lock(TermId),
    /// An init secret and a path secret.
    Mix(TermId, TermId),
    Seed(TermId),
    Talk(TermId),
}

impl Term {
    /// What the term is made from: one, two or none.
    pub fn ingredients(self) -> impl Iterator<Item = TermId> {
        let (first, second) = match self {
            Term::Drawn(_) => (None, None),
            Term::Up(from) | Term::Lock(from) | Term::Seed(from) | Term::Talk(from) => {
                (Some(from), None)
            }
            Term::Mix(init, path) => (Some(init), Some(path)),
        };
        first.into_iter().chain(second)
    }
}

/// All terms of a run.
#[derive(Default)]
pub struct Terms {
    terms: Vec<Term>,
    ids: HashMap<Term, TermId>,
    drawn: u32,
}

impl Terms {
    pub fn all(&self) -> &[Term] {
        &self.terms
    }

    pub fn draw(&mut self) -> TermId {
        let term = Term::Drawn(self.drawn);
        self.drawn += 1;
        self.make(term)
    }

    /// The number of a term, a new one if the term is new.
    pub fn make(&mut self, term: Term) -> TermId {
        let next = TermId(self.terms.len() as u32);
        let id = *self.ids.entry(term).or_insert(next);
        if id == next {
            self.terms.push(term);
        }
        id
    }

    fn id(&self, number: [u8; 8]) -> Option<TermId> {
        let number = u32::try_from(u64::from_be_bytes(number)).ok()?;
        ((number as usize) < self.terms.len()).then_some(TermId(number))
    }

    /// The term that has this public half.
    pub fn of_half(&self, half: &PublicHalf) -> Option<TermId> {
        let (number, rest) = half.0.split_first_chunk::<8>()?;
        if rest.iter().any(|&byte| byte != 0) {
            return None;
        }
        self.id(*number)
    }

    /// What a box holds, for whoever has the key with this half.
    pub fn opened(&self, sealed: &SealedBox, key: TermId) -> Option<TermId> {
        let (half, rest) = sealed.0.split_first_chunk::<{ PublicHalf::BYTES }>()?;
        let (number, _) = rest.split_first_chunk::<8>()?;
        if PublicHalf(*half) != half_of(key) {
            return None;
        }
        self.id(*number)
    }
}

/// The term's number and zeros: bytes that tell terms apart.
pub fn half_of(term: TermId) -> PublicHalf {
    let mut bytes = [0; PublicHalf::BYTES];
    bytes[..8].copy_from_slice(&u64::from(term.0).to_be_bytes());
    PublicHalf(bytes)
}

/// The half of the key, the number of the content, and zeros.
pub fn sealed(content: TermId, to: PublicHalf) -> SealedBox {
    let mut bytes = [0; SealedBox::BYTES];
    bytes[..PublicHalf::BYTES].copy_from_slice(&to.0);
    bytes[PublicHalf::BYTES..PublicHalf::BYTES + 8]
        .copy_from_slice(&u64::from(content.0).to_be_bytes());
    SealedBox(bytes)
}

#[cfg(test)]
mod tests {
    use super::*;

    #[test]
    fn equal_terms_have_one_number_and_draws_differ() {
        let mut terms = Terms::default();
        let first = terms.draw();
        let second = terms.draw();
        assert_ne!(first, second);
        let up = terms.make(Term::Up(first));
        assert_eq!(terms.make(Term::Up(first)), up);
        assert_ne!(terms.make(Term::Up(second)), up);
        assert_eq!(up, TermId(2));
    }

    #[test]
    fn a_box_opens_with_its_key_only() {
        let mut terms = Terms::default();
        let (key, other, content) = (terms.draw(), terms.draw(), terms.draw());
        let sealed = sealed(content, half_of(key));
        assert_eq!(terms.opened(&sealed, key), Some(content));
        assert_eq!(terms.opened(&sealed, other), None);
        assert_eq!(terms.of_half(&half_of(other)), Some(other));
    }
}
