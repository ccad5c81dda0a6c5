//! What to do next on the way of a plan.
use crate::configuration::Ids;
use crate::{
    confscript_next, filled, restore, ConfChangeTransition, ConfChangeType, ConfChangeV2, Configuration, Error, Stage, Status, Strategy,
};
use alloc::vec::Vec;
use core::fmt;

/// How [`next`] goes to a target. There is no default: by [`Strategy::Shortest`], which is refused, new voters vote with empty
/// logs.
#[derive(Clone, Copy, Debug, PartialEq, Eq, Hash)]
pub struct DriveOptions<'a> {
    /// `LearnersFirst` or `OneAtATime`.
    pub strategy: Strategy,
    /// The ids that do not come back. A member that is merely silent is not down.
    pub down: &'a [u64],
    /// How many of the committed entries a member that has caught up may lack. With 0 it must have all of them, which
    /// under load hardly any member ever has.
    pub max_lag: u64,
}

impl DriveOptions<'_> {
    /// By this strategy, with no ids down and no lag.
    pub fn by(strategy: Strategy) -> Self {
        DriveOptions { strategy, down: &[], max_lag: 0 }
    }
}

/// What is known of a member: what [`next`] looks at of raft's `Progress`.
#[derive(Clone, Copy, Debug, Default, PartialEq, Eq, Hash)]
pub struct MemberView {
    /// Its id.
    pub id: u64,
    /// The last index at which it is known to have the leader's log.
    pub matched: u64,
    /// Whether it was heard from lately; the leader itself always is. Raft resets it only with `check_quorum`, and sets that
    /// of a new leader only then.
    pub recent_active: bool,
}

/// What a leader knows of its cluster, or a tool that asks all members.
#[derive(Clone, Debug, Default, PartialEq, Eq, Hash)]
pub struct View {
    /// The configuration that the leader has applied.
    pub conf_state: Configuration,
    /// Who has this index knows that the configuration is in force. For a leader that applies a change: its last index
    /// plus one; for one that begins to lead: its last index. If `matched` is what the member has applied: the index of
    /// the change.
    pub conf_index: u64,
    /// Who leads, or 0.
    pub lead: u64,
    /// The leader's commit index.
    pub commit: u64,
    /// The index of a change in the leader's log that it has not applied, or 0.
    pub pending_conf_index: u64,
    /// The members. If one is listed twice, its first index counts.
    pub progress: Vec<MemberView>,
    /// The servers that were started, and not stopped for good, whether they are up or not.
    pub started: Vec<u64>,
    /// The servers that were stopped for good.
    pub retired: Vec<u64>,
}

/// What to do next. As text it is a line for a log.
#[derive(Clone, Debug, PartialEq, Eq, Hash)]
pub enum Action {
    /// Start these servers, each with an empty log that is created, and never opened anew.
    Start(Vec<u64>),
    /// Stop these servers for good: their ids do not come back.
    Stop(Vec<u64>),
    /// Make this member the leader.
    Transfer(u64),
    /// Propose this stage, at once, to the leader whose view this is.
    Propose(Stage),
    /// Nothing, until these ids are as the reason says.
    Wait(WaitReason, Vec<Waited>),
    /// Nothing, since the target is not reached as things are.
    Stuck(StuckReason, Vec<u64>),
    /// Nothing, since the target is reached.
    Done,
}

/// An id that is waited for.
#[non_exhaustive]
#[derive(Clone, Copy, Debug, PartialEq, Eq, Hash)]
pub struct Waited {
    /// The id.
    pub id: u64,
    /// The last index at which it is known to have the leader's log.
    pub matched: u64,
    /// The index that it has to have, if the reason is `Behind` or `Pending`, else 0.
    pub needed: u64,
}

/// Why to wait.
#[non_exhaustive]
#[derive(Clone, Copy, Debug, PartialEq, Eq, Hash)]
pub enum WaitReason {
    /// There is no leader.
    NoLeader = 1,
    /// A change is not applied yet.
    Pending = 2,
    /// They are named as down, and are heard from, or one leads.
    Heard = 3,
    /// They are neither heard from nor named as down.
    Unheard = 4,
    /// They are heard from, and have not caught up.
    Behind = 5,
    /// Raft leaves the joint configuration by itself.
    Leaving = 6,
}

/// Why the target is not reached.
#[non_exhaustive]
#[derive(Clone, Copy, Debug, PartialEq, Eq, Hash)]
pub enum StuckReason {
    /// The voters that are not down are not a quorum.
    QuorumLost = 7,
    /// With these ids down, nothing commits in a configuration on the way.
    Stalls = 8,
    /// The target adds ids that were stopped for good.
    Reused = 9,
}

/// What to do next on the way to a target. Call it on the thread that owns the raft node, with what the node knows now, do
/// what it says, and call it again. It keeps nothing. The configuration and the target are checked as by
/// [`stages`](crate::stages), but for ids that are down and that neither has, which are ignored.
///
/// ```
/// # use confscript::{next, Configuration, DriveOptions, MemberView, Strategy, View};
/// let voters = |ids: &[u64]| Configuration { voters: ids.to_vec(), ..Default::default() };
/// let member = |id| MemberView { id, matched: 60, recent_active: true };
/// let mut view = View { conf_state: voters(&[1, 2, 3]), conf_index: 57, lead: 1, commit: 60, ..Default::default() };
/// view.progress = vec![member(1), member(2), member(3)];
/// view.started = vec![1, 2, 3];
/// let options = DriveOptions::by(Strategy::LearnersFirst);
/// assert_eq!(next(options, &voters(&[1, 2, 4]), &view)?.to_string(), "start 4");
/// view.started.push(4);
/// assert_eq!(next(options, &voters(&[1, 2, 4]), &view)?.to_string(), "propose simple l4");
/// # Ok::<(), confscript::Error>(())
/// ```
pub fn next(options: DriveOptions<'_>, target: &Configuration, view: &View) -> Result<Action, Error> {
    let DriveOptions { strategy, down, max_lag } = options;
    let (from, to, known) = (view.conf_state.numbers(), target.numbers(), view.numbers(max_lag));
    // SAFETY: each pointer is a slice's or a vector's, and so not null, and the count its length.
    let numbers = filled(|out| unsafe {
        confscript_next(
            from.as_ptr(),
            from.len(),
            to.as_ptr(),
            to.len(),
            strategy as u32,
            down.as_ptr(),
            down.len(),
            known.as_ptr(),
            known.len(),
            out.as_mut_ptr(),
            out.len(),
        )
    })
    .map_err(|error| Error { part: part_of(error, options, target, view), ..error })?;
    Ok(Action::of(&numbers, options, view))
}

// The part of what is asked that an error is about; empty if its number says that, or if it is about none.
fn part_of(error: Error, options: DriveOptions<'_>, target: &Configuration, view: &View) -> &'static str {
    if error.status() == Status::NoVoter {
        return "";
    }
    let configurations = [("the configuration", &view.conf_state), ("the target", target)];
    if let Some((part, _)) = configurations.into_iter().find(|(_, each)| matches!(restore(each), Err(why) if why.code == error.code)) {
        return part;
    }
    let members: Vec<u64> = view.progress.iter().map(|member| member.id).collect();
    let lists = [("down", options.down), ("the progress", &members), ("started", &view.started), ("retired", &view.retired)];
    lists.iter().find(|(_, ids)| error.status() == Status::ZeroId && ids.contains(&0)).map_or("", |(part, _)| *part)
}

impl View {
    // The view as an array (`enum confscript_view_part`).
    fn numbers(&self, max_lag: u64) -> Vec<u64> {
        let counts = [self.progress.len() as u64, self.started.len() as u64, self.retired.len() as u64];
        let mut numbers = Vec::from([self.conf_index, self.lead, self.commit, self.pending_conf_index, max_lag]);
        numbers.extend(counts);
        numbers.extend(self.progress.iter().flat_map(|member| [member.id, member.matched, member.recent_active.into()]));
        numbers.extend(&self.started);
        numbers.extend(&self.retired);
        numbers
    }

    // Which index a member has to have to know the configuration, as far as this leader can tell: one that does not vote may not
    // add the entry after a change.
    fn known(&self) -> u64 {
        let votes = self.conf_state.voters.contains(&self.lead) || self.conf_state.voters_outgoing.contains(&self.lead);
        self.conf_index - u64::from(!votes)
    }

    // An id that is waited for until it has this index.
    fn waited(&self, id: u64, needed: u64) -> Waited {
        let matched = self.progress.iter().find(|member| member.id == id).map_or(0, |member| member.matched);
        Waited { id, matched, needed }
    }
}

impl Action {
    // The action of an array (`enum confscript_action_part`) that the library wrote.
    fn of(numbers: &[u64], options: DriveOptions<'_>, view: &View) -> Action {
        let (reason, rest) = (numbers[1], &numbers[3..]);
        match numbers[0] {
            0 => Action::Start(rest.to_vec()),
            1 => Action::Stop(rest.to_vec()),
            2 => Action::Transfer(rest[0]),
            3 => Action::Propose(Stage::of(rest, !options.down.is_empty()).0),
            4 => {
                let why = WAIT_REASONS[reason as usize - 1];
                let needed = match why {
                    WaitReason::Pending => view.pending_conf_index,
                    WaitReason::Behind => view.known().max(view.commit.saturating_sub(options.max_lag)),
                    _ => 0,
                };
                Action::Wait(why, rest.iter().map(|id| view.waited(*id, needed)).collect())
            }
            5 => Action::Stuck(STUCK_REASONS[reason as usize - 7], rest.to_vec()),
            _ => Action::Done,
        }
    }
}

const WAIT_REASONS: [WaitReason; 6] =
    [WaitReason::NoLeader, WaitReason::Pending, WaitReason::Heard, WaitReason::Unheard, WaitReason::Behind, WaitReason::Leaving];
const STUCK_REASONS: [StuckReason; 3] = [StuckReason::QuorumLost, StuckReason::Stalls, StuckReason::Reused];

impl fmt::Display for Action {
    fn fmt(&self, f: &mut fmt::Formatter<'_>) -> fmt::Result {
        match self {
            Action::Start(ids) => write!(f, "start {}", Ids(ids)),
            Action::Stop(ids) => write!(f, "stop {} for good", Ids(ids)),
            Action::Transfer(id) => write!(f, "transfer leadership to {id}"),
            Action::Propose(stage) => step_text(f, &stage.conf_change),
            Action::Wait(why, ids) => wait_text(f, *why, ids),
            Action::Stuck(StuckReason::QuorumLost, ids) => write!(f, "quorum is lost with {} down", Ids(ids)),
            Action::Stuck(StuckReason::Stalls, ids) => write!(f, "with {} down, nothing commits in a configuration on the way", Ids(ids)),
            Action::Stuck(StuckReason::Reused, ids) => write!(f, "stopped for good, and not used again: {}", Ids(ids)),
            Action::Done => f.write_str("done"),
        }
    }
}

// Names the step of the proposal, such as `propose simple l4`.
fn step_text(f: &mut fmt::Formatter<'_>, change: &ConfChangeV2) -> fmt::Result {
    f.write_str(match change.transition {
        ConfChangeTransition::Auto if change.changes.is_empty() => "propose leave-joint",
        ConfChangeTransition::Auto => "propose simple",
        ConfChangeTransition::Implicit => "propose enter-joint autoleave=true",
        ConfChangeTransition::Explicit => "propose enter-joint autoleave=false",
    })?;
    for single in &change.changes {
        let letter = match single.change_type {
            ConfChangeType::AddNode => 'v',
            ConfChangeType::RemoveNode => 'r',
            ConfChangeType::UpdateNode => 'u',
            ConfChangeType::AddLearnerNode => 'l',
        };
        write!(f, " {letter}{}", single.node_id)?;
    }
    Ok(())
}

// Names each id, and how far it is, such as `4 has not caught up: 17 of 60`.
fn wait_text(f: &mut fmt::Formatter<'_>, why: WaitReason, waited: &[Waited]) -> fmt::Result {
    let list: Vec<u64> = waited.iter().map(|each| each.id).collect();
    let ids = Ids(&list);
    match why {
        WaitReason::NoLeader => write!(f, "there is no leader: waiting for {ids}"),
        WaitReason::Pending => {
            write!(f, "the change at index {} is not applied: waiting for {ids}", waited.first().map_or(0, |each| each.needed))
        }
        WaitReason::Heard => write!(f, "{ids} named as down, but heard from"),
        WaitReason::Unheard => write!(f, "not heard from {ids}"),
        WaitReason::Leaving => write!(f, "the joint configuration is left automatically: waiting for {ids}"),
        WaitReason::Behind => {
            for (at, Waited { id, matched, needed }) in waited.iter().enumerate() {
                write!(f, "{}{id} has not caught up: {matched} of {needed}", if at == 0 { "" } else { ", " })?;
            }
            Ok(())
        }
    }
}
