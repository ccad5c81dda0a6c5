//! Plans as proposals to a raft library.
use crate::configuration::Set;
use crate::{confscript_stages, filled, step, Change, ChangeKind, Configuration, Error, Options, StepKind};
use alloc::vec::Vec;
use core::fmt;

/// What a change of a proposal does to its id. The names and the numbers are those of `raftpb`. raft-rs has the same
/// names with other numbers, and no `UpdateNode`.
#[derive(Clone, Copy, Debug, PartialEq, Eq, Hash)]
pub enum ConfChangeType {
    /// Makes it a voter.
    AddNode = 0,
    /// Removes it.
    RemoveNode = 1,
    /// Has no effect. A plan has it only to enter a joint configuration without another change.
    UpdateNode = 2,
    /// Makes it a learner.
    AddLearnerNode = 3,
}

/// A change of a proposal, with the fields of raft-rs.
#[derive(Clone, Copy, Debug, PartialEq, Eq, Hash)]
pub struct ConfChangeSingle {
    /// What it does to the id.
    pub change_type: ConfChangeType,
    /// The id.
    pub node_id: u64,
}

/// How the changes of a proposal are made. The numbers are those of `raftpb`, the names those of raft-rs.
#[derive(Clone, Copy, Debug, PartialEq, Eq, Hash)]
pub enum ConfChangeTransition {
    /// No change leaves a joint configuration, one is a simple change, and more enter a joint configuration that raft
    /// leaves by itself.
    Auto = 0,
    /// The changes enter a joint configuration that raft leaves by itself.
    Implicit = 1,
    /// The changes enter a joint configuration that another proposal has to leave.
    Explicit = 2,
}

/// A proposal, with the fields of raft-rs' `ConfChangeV2` but for its context.
#[derive(Clone, Debug, PartialEq, Eq, Hash)]
pub struct ConfChangeV2 {
    /// How the changes are made.
    pub transition: ConfChangeTransition,
    /// The changes.
    pub changes: Vec<ConfChangeSingle>,
}

/// A proposal of a plan, and the configuration that it leads to.
#[non_exhaustive]
#[derive(Clone, Debug, PartialEq, Eq, Hash)]
pub struct Stage {
    /// What to propose, once the stage before it is applied and its members have caught up. A joint configuration with
    /// `auto_leave` is left by raft itself: the stage that leaves it is not proposed, but waited for.
    pub conf_change: ConfChangeV2,
    /// The configuration once it is applied.
    pub conf_state: Configuration,
    /// The members that have to catch up there.
    pub catching_up: Vec<u64>,
    /// How many ids may be down there, whichever they are.
    pub may_be_down: Option<u64>,
    /// How many while members are catching up; `None` if nothing commits then.
    pub until_then: Option<u64>,
    /// How many besides those in [`Options::down`], while members are catching up. It is `None` if nothing commits then,
    /// and if no ids are down.
    pub may_be_down_besides: Option<u64>,
}

/// A plan as proposals.
#[non_exhaustive]
#[derive(Clone, Debug, PartialEq, Eq, Hash)]
pub struct Plan {
    /// The proposals, one after another; none if there is nothing to do.
    pub stages: Vec<Stage>,
    /// Whether nothing commits in a configuration on the way, the first one among them, with the ids that are down.
    pub stalls: bool,
}

/// The plan from a configuration to a target as the proposals that carry it out. A simple step of several changes is as
/// many stages of one change each, since raft would take them through a joint configuration. The output of the options is
/// ignored. Both configurations are checked as by [`restore`](crate::restore), and must have a voter.
///
/// ```
/// # use confscript::{stages, Configuration, Options, Strategy};
/// let voters = |ids: &[u64]| Configuration { voters: ids.to_vec(), ..Default::default() };
/// let options = Options { strategy: Strategy::LearnersFirst, ..Default::default() };
/// let plan = stages(options, &voters(&[1, 2, 3]), &voters(&[1, 2, 3, 4]))?;
/// let lines: Vec<String> = plan.stages.iter().map(|stage| stage.to_string()).collect();
/// assert_eq!(lines, [
///     "Auto AddLearnerNode(4) -> voters=(1 2 3) learners=(4), catching up (4), may be down 1, until then 1",
///     "Auto AddNode(4) -> voters=(1 2 3 4), may be down 1, until then 1",
/// ]);
/// assert_eq!(plan.stages[1].conf_state, voters(&[4, 3, 2, 1]));
/// # Ok::<(), confscript::Error>(())
/// ```
pub fn stages(options: Options<'_>, configuration: &Configuration, target: &Configuration) -> Result<Plan, Error> {
    let Options { strategy, down, .. } = options;
    let (from, to) = (configuration.numbers(), target.numbers());
    // SAFETY: each pointer is a slice's or a vector's, and so not null, and the count its length.
    let numbers = filled(|out| unsafe {
        confscript_stages(
            from.as_ptr(),
            from.len(),
            to.as_ptr(),
            to.len(),
            strategy as u32,
            down.as_ptr(),
            down.len(),
            out.as_mut_ptr(),
            out.len(),
        )
    })?;
    let mut rest = &numbers[2..];
    let mut stages = Vec::new();
    for _ in 0..numbers[1] {
        let (stage, others) = Stage::of(rest, !down.is_empty());
        stages.push(stage);
        rest = others;
    }
    Ok(Plan { stages, stalls: numbers[0] == 1 })
}

impl Stage {
    // The stage with which the numbers begin (`enum confscript_stage_part`), and the numbers after it.
    pub(crate) fn of(numbers: &[u64], are_down: bool) -> (Stage, &[u64]) {
        let count = |number| if number == u64::MAX { None } else { Some(number) };
        let (head, rest) = numbers.split_at(5);
        let (changes, rest) = rest.split_at(2 * head[4] as usize);
        let (conf_state, catching_up, rest) = Configuration::of(rest);
        let transition = [ConfChangeTransition::Auto, ConfChangeTransition::Implicit, ConfChangeTransition::Explicit][head[0] as usize];
        let types = [ConfChangeType::AddNode, ConfChangeType::RemoveNode, ConfChangeType::UpdateNode, ConfChangeType::AddLearnerNode];
        let changes =
            changes.chunks(2).map(|change| ConfChangeSingle { change_type: types[change[0] as usize], node_id: change[1] }).collect();
        let stage = Stage {
            conf_change: ConfChangeV2 { transition, changes },
            conf_state,
            catching_up,
            may_be_down: count(head[1]),
            until_then: count(head[2]),
            may_be_down_besides: if are_down { count(head[3]) } else { None },
        };
        (stage, rest)
    }
}

impl fmt::Display for Stage {
    fn fmt(&self, out: &mut fmt::Formatter<'_>) -> fmt::Result {
        write!(out, "{} -> {}", self.conf_change, self.conf_state)?;
        if !self.catching_up.is_empty() {
            write!(out, ", catching up {}", Set(&self.catching_up))?;
        }
        let counts = [("may be down", self.may_be_down), ("until then", self.until_then), ("besides", self.may_be_down_besides)];
        for (what, count) in counts {
            if let Some(count) = count {
                write!(out, ", {what} {count}")?;
            }
        }
        Ok(())
    }
}

impl fmt::Display for ConfChangeV2 {
    fn fmt(&self, out: &mut fmt::Formatter<'_>) -> fmt::Result {
        write!(out, "{:?}", self.transition)?;
        for change in &self.changes {
            write!(out, " {:?}({})", change.change_type, change.node_id)?;
        }
        Ok(())
    }
}

/// The configuration after a proposal, as raft applies it, and the members that are catching up in it, as of [`step`].
pub fn apply_conf_change(configuration: &Configuration, change: &ConfChangeV2) -> Result<(Configuration, Vec<u64>), Error> {
    let kind = [StepKind::Auto, StepKind::Implicit, StepKind::Explicit][change.transition as usize];
    let kinds = [ChangeKind::Voter, ChangeKind::Remove, ChangeKind::Update, ChangeKind::Learner];
    let changes: Vec<Change> = change.changes.iter().map(|it| Change { kind: kinds[it.change_type as usize], id: it.node_id }).collect();
    step(configuration, kind, &changes)
}
