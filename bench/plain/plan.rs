//! Plans: the steps from one configuration to another.

use crate::change::{Change, ChangeKind};
use crate::config::{Config, StepKind};
use crate::ids::{differ_in_many, difference, lookup, union};
use crate::text::push_number;

pub struct Step {
    pub kind: StepKind,
    pub changes: Vec<Change>,
}

impl Step {
    /// The step as a directive's line: the command with its argument.
    pub fn head(&self) -> &'static str {
        match self.kind {
            StepKind::Simple => "simple",
            StepKind::EnterJoint { auto_leave: true } => "enter-joint autoleave=true",
            StepKind::EnterJoint { auto_leave: false } => "enter-joint autoleave=false",
            StepKind::LeaveJoint => "leave-joint",
        }
    }

    /// Appends the changes with one space between them.
    pub fn write_changes(&self, out: &mut Vec<u8>) {
        for (index, change) in self.changes.iter().enumerate() {
            if index > 0 {
                out.push(b' ');
            }
            out.push(change.kind as u8);
            push_number(out, change.id);
        }
    }
}

pub fn write(steps: &[Step], out: &mut Vec<u8>) {
    if steps.is_empty() {
        out.extend_from_slice(b"nothing to do\n");
    }
    for step in steps {
        out.extend_from_slice(step.head().as_bytes());
        if !step.changes.is_empty() {
            out.push(b' ');
            step.write_changes(out);
        }
        out.push(b'\n');
    }
}

/// The plan from one valid configuration with a voter to another.
pub fn plan(present: &Config, target: &Config) -> Vec<Step> {
    let mut steps = Vec::new();
    if present == target {
        return steps;
    }
    let mut left = Config::default();
    let mut now = present;
    if present.is_joint() {
        steps.push(Step { kind: StepKind::LeaveJoint, changes: Vec::new() });
        present.leave(&mut left);
        now = &left;
        if now == target {
            return steps;
        }
    }
    if !target.is_joint() {
        move_to(&target.incoming, &target.learners, now, &mut steps);
        return steps;
    }
    let ready;
    if now.incoming != target.outgoing {
        let learners = shared_learners(now, target);
        move_to(&target.outgoing, &learners, now, &mut steps);
        ready = Config { incoming: target.outgoing.clone(), learners, ..Config::default() };
        now = &ready;
    }
    let changes = moves(now, &target.incoming, &union(&target.learners, &target.next_learners));
    steps.push(Step { kind: StepKind::EnterJoint { auto_leave: target.auto_leave }, changes });
    steps
}

/// The ids that are members now and in the joint target, without its outgoing voters.
fn shared_learners(now: &Config, target: &Config) -> Vec<u64> {
    let mut is_target = lookup(&target.outgoing);
    let (mut is_voter, mut is_learner) = (lookup(&target.incoming), lookup(&target.learners));
    let mut ids = union(&now.incoming, &now.learners);
    ids.retain(|id| !is_target(*id) && (is_voter(*id) || is_learner(*id)));
    ids
}

/// Appends the steps to a configuration that is not joint.
fn move_to(voters: &[u64], learners: &[u64], now: &Config, steps: &mut Vec<Step>) {
    let changes = moves(now, voters, learners);
    if differ_in_many(&now.incoming, voters) {
        steps.push(Step { kind: StepKind::EnterJoint { auto_leave: false }, changes });
        steps.push(Step { kind: StepKind::LeaveJoint, changes: Vec::new() });
    } else {
        steps.push(Step { kind: StepKind::Simple, changes });
    }
}

fn moves(now: &Config, voters: &[u64], learners: &[u64]) -> Vec<Change> {
    let change = |kind| move |id| Change { kind, id };
    let mut changes: Vec<Change> = difference(voters, &now.incoming).map(change(ChangeKind::Voter)).collect();
    changes.extend(difference(learners, &now.learners).map(change(ChangeKind::Learner)));
    for members in [&now.incoming, &now.learners] {
        let mut is_learner = lookup(learners);
        changes.extend(difference(members, voters).filter(|id| !is_learner(*id)).map(change(ChangeKind::Remove)));
    }
    changes.sort_by_key(|change| change.id);
    changes
}
