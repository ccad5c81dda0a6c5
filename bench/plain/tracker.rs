//! A configuration with its members' progress.

use crate::change::{Change, ChangeKind, Edit, merge};
use crate::config::{Config, Refusal, StepKind};
use crate::ids::{lookup, union};
use crate::text::push_number;

#[derive(Clone, Copy)]
pub struct Member {
    pub id: u64,
    pub matched: u64,
    pub next: u64,
    pub is_learner: bool,
}

#[derive(Default)]
pub struct Tracker {
    pub config: Config,
    pub members: Vec<Member>,
}

impl Tracker {
    /// A tracker whose members' progress is fresh.
    pub fn fresh(config: Config, next: u64) -> Tracker {
        let ids = union(&union(&config.incoming, &config.outgoing), &config.learners);
        let members = {
            let mut is_learner = lookup(&config.learners);
            ids.iter().map(|id| Member { id: *id, matched: 0, next, is_learner: is_learner(*id) }).collect()
        };
        Tracker { config, members }
    }

    /// Fills `next` with the result of a step. If it is refused, the contents of `next` are unspecified.
    pub fn step(
        &self,
        kind: StepKind,
        changes: &[Change],
        fresh_next: u64,
        edits: &mut Vec<Edit>,
        next: &mut Tracker,
    ) -> Result<(), Refusal> {
        self.config.step(kind, changes, edits, &mut next.config)?;
        if kind == StepKind::LeaveJoint {
            let (mut is_voter, mut is_learner) = (lookup(&next.config.incoming), lookup(&next.config.learners));
            next.members.clear();
            next.members.extend(self.members.iter().filter_map(|member| {
                let is_learner = is_learner(member.id);
                (is_voter(member.id) || is_learner).then_some(Member { is_learner, ..*member })
            }));
        } else {
            let member_after = |edit: &Edit, member: Option<Member>| {
                let fresh = Member { id: edit.id, matched: 0, next: fresh_next, is_learner: false };
                let kept = member.filter(|_| edit.is_outgoing || !edit.removed).unwrap_or(fresh);
                let is_learner = edit.kind == ChangeKind::Learner && !edit.is_outgoing;
                (edit.is_outgoing || edit.kind != ChangeKind::Remove).then_some(Member { is_learner, ..kept })
            };
            merge(&self.members, edits, |member| member.id, member_after, &mut next.members);
        }
        Ok(())
    }

    pub fn write(&self, out: &mut Vec<u8>) {
        self.config.write(out);
        for member in &self.members {
            member.write(out);
        }
    }
}

impl Member {
    pub fn write(&self, out: &mut Vec<u8>) {
        push_number(out, self.id);
        out.extend_from_slice(b": StateProbe match=");
        push_number(out, self.matched);
        out.extend_from_slice(b" next=");
        push_number(out, self.next);
        out.extend_from_slice(if self.is_learner { b" learner\n" } else { b"\n" });
    }
}
