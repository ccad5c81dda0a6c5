//! Configurations, and the three steps that lead from one to the next.

use crate::change::{Change, ChangeKind, Edit, merge, settle};
use crate::ids::{differ_in_many, difference, is_disjoint};
use crate::text::push_numbers;

#[derive(Default, PartialEq, Eq)]
pub struct Config {
    pub incoming: Vec<u64>,
    pub outgoing: Vec<u64>,
    pub learners: Vec<u64>,
    pub next_learners: Vec<u64>,
    pub auto_leave: bool,
}

#[derive(Clone, Copy, PartialEq, Eq)]
pub enum StepKind {
    Simple,
    EnterJoint { auto_leave: bool },
    LeaveJoint,
}

pub type Refusal = &'static str;

impl Config {
    pub fn is_joint(&self) -> bool {
        !self.outgoing.is_empty()
    }

    pub fn is_valid(&self) -> bool {
        difference(&self.next_learners, &self.outgoing).next().is_none()
            && is_disjoint(&self.next_learners, &self.incoming)
            && is_disjoint(&self.learners, &self.incoming)
            && is_disjoint(&self.learners, &self.outgoing)
            && (self.is_joint() || !self.auto_leave)
    }

    /// Fills `next` with the result of a step, and `edits` with what it makes of each id that it names. If the step is
    /// refused, their contents are unspecified.
    pub fn step(
        &self,
        kind: StepKind,
        changes: &[Change],
        edits: &mut Vec<Edit>,
        next: &mut Config,
    ) -> Result<(), Refusal> {
        match kind {
            StepKind::Simple => {
                if self.is_joint() {
                    return Err("can't apply simple config change in joint config");
                }
                next.outgoing.clear();
                next.auto_leave = false;
                self.apply(changes, edits, next)?;
                if differ_in_many(&self.incoming, &next.incoming) {
                    return Err("more than one voter changed without entering joint config");
                }
            }
            StepKind::EnterJoint { auto_leave } => {
                if self.is_joint() {
                    return Err("config is already joint");
                }
                if self.incoming.is_empty() {
                    return Err("can't make a zero-voter config joint");
                }
                next.outgoing.clone_from(&self.incoming);
                next.auto_leave = auto_leave;
                self.apply(changes, edits, next)?;
            }
            StepKind::LeaveJoint => {
                if !self.is_joint() {
                    return Err("can't leave a non-joint config");
                }
                self.leave(next);
            }
        }
        Ok(())
    }

    /// Makes the changes, where `next` has its outgoing voters already.
    fn apply(&self, changes: &[Change], edits: &mut Vec<Edit>, next: &mut Config) -> Result<(), Refusal> {
        settle(changes, &next.outgoing, edits);
        let change = |old: &[u64], new: &mut Vec<u64>, is_in: fn(&Edit) -> bool| {
            merge(old, edits, |id| *id, |edit, _| is_in(edit).then_some(edit.id), new);
        };
        change(&self.incoming, &mut next.incoming, |edit| edit.kind == ChangeKind::Voter);
        change(&self.learners, &mut next.learners, |edit| edit.kind == ChangeKind::Learner && !edit.is_outgoing);
        change(&self.next_learners, &mut next.next_learners, |edit| {
            edit.kind == ChangeKind::Learner && edit.is_outgoing
        });
        if next.incoming.is_empty() { Err("removed all voters") } else { Ok(()) }
    }

    /// Fills `next` with the configuration after this joint one.
    pub fn leave(&self, next: &mut Config) {
        next.incoming.clone_from(&self.incoming);
        next.outgoing.clear();
        next.learners.clone_from(&self.learners);
        if !self.next_learners.is_empty() {
            next.learners.extend_from_slice(&self.next_learners);
            next.learners.sort();
        }
        next.next_learners.clear();
        next.auto_leave = false;
    }

    pub fn write(&self, out: &mut Vec<u8>) {
        let mut set = |name: &str, ids: &[u64]| {
            out.extend_from_slice(name.as_bytes());
            push_numbers(out, ids);
            out.push(b')');
        };
        set("voters=(", &self.incoming);
        for (name, ids) in
            [("&&(", &self.outgoing), (" learners=(", &self.learners), (" learners_next=(", &self.next_learners)]
        {
            if !ids.is_empty() {
                set(name, ids);
            }
        }
        if self.auto_leave {
            out.extend_from_slice(b" autoleave");
        }
        out.push(b'\n');
    }
}
