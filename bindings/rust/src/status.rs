//! Why a call is refused.
use crate::{confscript_status_text, written, Answer};
use core::fmt;

/// Why a call is refused: the statuses of `confscript.h`, with their numbers. Later versions may have more.
#[non_exhaustive]
#[repr(u32)]
#[derive(Clone, Copy, Debug, PartialEq, Eq, Hash)]
pub enum Status {
    /// A status that this crate has no name for: [`Error::code`] is its number.
    Unknown = 0,
    /// Memory ran out.
    NoMemory = 2,
    /// A text is not a ConfState line, or begins as one and is none.
    BadConfState = 3,
    /// A list names an id twice.
    RepeatedId = 4,
    /// A text names no configuration that the call accepts.
    NotAConfiguration = 5,
    /// A configuration has no incoming voter.
    NoVoter = 6,
    /// A line of a plan is not a step.
    BadLine = 7,
    /// A change of the target removes an id that is not a member.
    NotAMember = 8,
    /// A joint configuration is entered from a joint one.
    AlreadyJoint = 9,
    /// A joint configuration is entered without voters.
    ZeroVoterJoint = 10,
    /// A configuration is left that is not joint.
    NotJoint = 11,
    /// A simple step in a joint configuration.
    SimpleInJoint = 12,
    /// A step leaves no voter.
    RemovedAllVoters = 13,
    /// A simple step changes more than one voter.
    MoreThanOneVoter = 14,
    /// A set has the id 0, or an id that is down is 0.
    ZeroId = 15,
    /// A next learner is not an outgoing voter.
    NextNotOutgoing = 16,
    /// A next learner is an incoming voter.
    NextAndIncoming = 17,
    /// A learner is a voter.
    LearnerAndVoter = 18,
    /// The changes of the target remove a member, and then make it a voter or a learner again.
    AddedAgain = 19,
    /// Auto-leave without outgoing voters.
    NotJointButAutoLeave = 20,
    /// An array does not have the form of a configuration; no call of this crate passes one.
    DifferentLengths = 21,
    /// A vote is neither 0, 1 nor 2; no call of this crate passes one.
    BadVote = 22,
    /// The voters that count are not a quorum even when all are up.
    NoQuorum = 23,
    /// There is no such strategy; no call of this crate passes one.
    BadStrategy = 24,
    /// No plan that changes one member at a time leads into a joint configuration.
    JointTarget = 25,
    /// There is no such step; no call of this crate passes one.
    BadStep = 26,
    /// There is no such kind of change; no call of this crate passes one.
    BadChange = 27,
    /// There is no such output; no call of this crate passes one.
    BadOutput = 28,
    /// A text begins as no form of a configuration does.
    UnknownForm = 29,
    /// A text begins with `voters`, and is not a printed configuration.
    BadPrinted = 30,
    /// A text begins with `{`, and is not the JSON of a configuration.
    BadJson = 31,
    /// The target is in no form of a configuration, and not a list of changes.
    BadChangeList = 32,
    /// An id that is down is a member of neither configuration.
    DownNotAMember = 33,
    /// By the strategy a new voter votes with an empty log, so that the cluster may stall.
    StrategyMayStall = 34,
    /// The target has auto-leave, so raft leaves it by itself.
    AutoLeaveTarget = 35,
    /// There is a leader, and `conf_index` is 0.
    NoConfIndex = 36,
    /// The leader is a member, and `progress` does not list it.
    NoLeaderProgress = 37,
}

impl Status {
    const ALL: [Status; 36] = [
        Status::NoMemory,
        Status::BadConfState,
        Status::RepeatedId,
        Status::NotAConfiguration,
        Status::NoVoter,
        Status::BadLine,
        Status::NotAMember,
        Status::AlreadyJoint,
        Status::ZeroVoterJoint,
        Status::NotJoint,
        Status::SimpleInJoint,
        Status::RemovedAllVoters,
        Status::MoreThanOneVoter,
        Status::ZeroId,
        Status::NextNotOutgoing,
        Status::NextAndIncoming,
        Status::LearnerAndVoter,
        Status::AddedAgain,
        Status::NotJointButAutoLeave,
        Status::DifferentLengths,
        Status::BadVote,
        Status::NoQuorum,
        Status::BadStrategy,
        Status::JointTarget,
        Status::BadStep,
        Status::BadChange,
        Status::BadOutput,
        Status::UnknownForm,
        Status::BadPrinted,
        Status::BadJson,
        Status::BadChangeList,
        Status::DownNotAMember,
        Status::StrategyMayStall,
        Status::AutoLeaveTarget,
        Status::NoConfIndex,
        Status::NoLeaderProgress,
    ];

    /// The status with this number in `confscript.h`.
    pub fn of(code: u32) -> Status {
        Status::ALL.into_iter().find(|it| *it as u32 == code).unwrap_or(Status::Unknown)
    }
}

/// The error of a call that is refused: its status, and the number that `confscript.h` gives with it. Its text names the
/// id, text, line, step or change that the number denotes, and of [`next`](crate::next) the part that is wrong.
#[derive(Clone, Copy, Debug, PartialEq, Eq, Hash)]
pub struct Error {
    pub(crate) code: u32,
    pub(crate) number: u64,
    pub(crate) part: &'static str,
}

impl Error {
    pub(crate) fn of(answer: &Answer) -> Error {
        Error { code: answer.status, number: answer.number, part: "" }
    }

    /// Why the call is refused.
    pub fn status(&self) -> Status {
        Status::of(self.code)
    }

    /// The number of the status in `confscript.h`.
    pub fn code(&self) -> u32 {
        self.code
    }

    /// What `confscript.h` gives with the status: an id that breaks the rule, 1 or 2 for a text that is not read, the number
    /// of a line, step or change, counted from 1, or else 0.
    pub fn number(&self) -> u64 {
        self.number
    }

    // The part, or what the number denotes, before the text of the status.
    fn write_place(&self, out: &mut fmt::Formatter<'_>) -> fmt::Result {
        use Status::*;
        if !self.part.is_empty() {
            return write!(out, "{}: ", self.part);
        }
        match (self.status(), self.number) {
            (_, 0) => Ok(()),
            (BadConfState | NotAConfiguration | NoVoter | UnknownForm | BadPrinted | BadJson | BadChangeList, 1) => {
                out.write_str("the configuration: ")
            }
            (BadConfState | NotAConfiguration | NoVoter | UnknownForm | BadPrinted | BadJson | BadChangeList, _) => {
                out.write_str("the target: ")
            }
            (BadLine, line) => write!(out, "line {line}: "),
            (AlreadyJoint | ZeroVoterJoint | NotJoint | SimpleInJoint | RemovedAllVoters | MoreThanOneVoter, step) => {
                write!(out, "step {step}: ")
            }
            (BadChange, change) => write!(out, "change {change}: "),
            _ => Ok(()),
        }
    }

    // What it denotes, after the text.
    fn write_id(&self, out: &mut fmt::Formatter<'_>) -> fmt::Result {
        use Status::*;
        match (self.status(), self.number) {
            (RepeatedId | NextNotOutgoing | NextAndIncoming | LearnerAndVoter | NotAMember | AddedAgain | DownNotAMember, id @ 1..) => {
                write!(out, " (id {id})")
            }
            (Unknown, number @ 1..) => write!(out, " ({number})"),
            _ => Ok(()),
        }
    }
}

impl fmt::Display for Error {
    fn fmt(&self, out: &mut fmt::Formatter<'_>) -> fmt::Result {
        // SAFETY: the pointer is a slice's, and the count its length.
        let text = written(|room| unsafe { confscript_status_text(self.code, room.as_mut_ptr(), room.len()) });
        self.write_place(out)?;
        out.write_str(&text.unwrap_or_default())?;
        self.write_id(out)
    }
}

#[cfg(feature = "std")]
impl std::error::Error for Error {}
