//! Which epochs lie open by the rule, and which are known by what can be worked out.

use std::collections::HashMap;

use crate::member::MemberNumber;
use crate::term::{Term, TermId, Terms};

/// A reading of a handset that was seated: what it held, at the epoch where it stood.
pub struct Exposure {
    pub member: MemberNumber,
    pub epoch: usize,
    pub leaf_key: TermId,
    pub held: Vec<TermId>,
}

/// What a run leaves behind, as far as it matters here.
#[derive(Default)]
pub struct Record {
    /// By epoch.
    application_secrets: Vec<TermId>,
    /// The committer of the commit that led to each epoch; nobody's for epoch 0.
    committers: Vec<Option<MemberNumber>>,
    /// For each member, its leaf key from an epoch on; none where it is not seated.
    leaf_keys: HashMap<MemberNumber, Vec<(usize, Option<TermId>)>>,
    /// Content and key of every box of the run.
    boxes: Vec<SealedTo>,
    exposures: Vec<Exposure>,
}

#[derive(Clone, Copy)]
pub struct SealedTo {
    pub key: TermId,
    pub content: TermId,
}

impl Record {
    pub fn epochs(&self) -> usize {
        self.application_secrets.len()
    }

    /// The next epoch, and who committed it.
    pub fn push_epoch(&mut self, committer: Option<MemberNumber>, application_secret: TermId) {
        self.committers.push(committer);
        self.application_secrets.push(application_secret);
    }

    /// From this epoch on the member has this leaf key.
    pub fn set_leaf_key(&mut self, member: MemberNumber, epoch: usize, key: Option<TermId>) {
        self.leaf_keys.entry(member).or_default().push((epoch, key));
    }

    pub fn push_box(&mut self, sealed: SealedTo) {
        self.boxes.push(sealed);
    }

    pub fn expose(&mut self, exposure: Exposure) {
        self.exposures.push(exposure);
    }

    /// The member's leaf key at an epoch, if it is seated then.
    fn leaf_key_at(&self, member: MemberNumber, epoch: usize) -> Option<TermId> {
        let history = self.leaf_keys.get(&member)?;
        let later = history.partition_point(|(from, _)| *from <= epoch);
        history[..later].last().and_then(|(_, key)| *key)
    }

    /// Does this exposure give the commit that led to this epoch?
    fn gives(&self, exposure: &Exposure, epoch: usize) -> bool {
        self.committers[epoch] != Some(exposure.member)
            && self.leaf_key_at(exposure.member, epoch) == Some(exposure.leaf_key)
    }

    /// Which epochs lie open, by the rule.
    pub fn open(&self) -> Vec<bool> {
        let mut open = vec![false; self.epochs()];
        for exposure in &self.exposures {
            open[exposure.epoch] = true;
        }
        for epoch in 1..open.len() {
            let follows = || {
                self.exposures
                    .iter()
                    .any(|exposure| self.gives(exposure, epoch))
            };
            if !open[epoch] && open[epoch - 1] && follows() {
                open[epoch] = true;
            }
        }
        open
    }

    /// Of which epochs the application secret can be worked out from all boxes and exposures.
    pub fn known(&self, terms: &Terms) -> Vec<bool> {
        let worked_out = self.work_out(terms);
        self.application_secrets
            .iter()
            .map(|secret| worked_out[secret.0 as usize])
            .collect()
    }

    /// By term: can it be worked out? What is no term of the run leads to none, since everything
    /// that a term is made from is a term of the run.
    fn work_out(&self, terms: &Terms) -> Vec<bool> {
        let terms = terms.all();
        let made_with = made_with(terms);
        let opened_by = self.opened_by(terms.len());
        let mut known = vec![false; terms.len()];
        let mut work: Vec<TermId> = Vec::new();
        for exposure in &self.exposures {
            work.extend(&exposure.held);
        }
        while let Some(term) = work.pop() {
            if std::mem::replace(&mut known[term.0 as usize], true) {
                continue;
            }
            work.extend(&opened_by[term.0 as usize]);
            let ready = |made: &&TermId| {
                terms[made.0 as usize]
                    .ingredients()
                    .all(|ingredient| known[ingredient.0 as usize])
            };
            work.extend(made_with[term.0 as usize].iter().filter(ready));
        }
        known
    }

    /// By key: what the boxes sealed to it hold.
    fn opened_by(&self, terms: usize) -> Vec<Vec<TermId>> {
        let mut opened = vec![Vec::new(); terms];
        for sealed in &self.boxes {
            opened[sealed.key.0 as usize].push(sealed.content);
        }
        opened
    }
}

/// By term: the terms that are made from it.
fn made_with(terms: &[Term]) -> Vec<Vec<TermId>> {
    let mut made = vec![Vec::new(); terms.len()];
    for (number, term) in terms.iter().enumerate() {
        for ingredient in term.ingredients() {
            made[ingredient.0 as usize].push(TermId(number as u32));
        }
    }
    made
}
