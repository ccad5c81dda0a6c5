//! Quorums: committed indexes, votes, and how many ids may be down.
use crate::{check_library, confscript_committed, confscript_may_be_down, confscript_vote, number, Error};
use alloc::vec::Vec;
use core::fmt;

/// The result of a vote.
#[derive(Clone, Copy, Debug, PartialEq, Eq, Hash)]
pub enum VoteResult {
    /// It depends on voters that have not voted.
    Pending,
    /// It is lost, however the others vote.
    Lost,
    /// It is won, however the others vote.
    Won,
}

impl fmt::Display for VoteResult {
    fn fmt(&self, out: &mut fmt::Formatter<'_>) -> fmt::Result {
        out.write_str(match self {
            VoteResult::Pending => "VotePending",
            VoteResult::Lost => "VoteLost",
            VoteResult::Won => "VoteWon",
        })
    }
}

/// The committed index of a voter set, or of a joint pair, from the index that each id has acknowledged, 0 if it is
/// unknown. It is `u64::MAX` if there are no voters. A voter that is listed twice counts once.
///
/// ```
/// let acknowledged = [(1, 9), (2, 7)].into_iter().collect::<std::collections::HashMap<u64, u64>>();
/// let index = confscript::committed(&[1, 2, 3], &[], |id| acknowledged.get(&id).copied().unwrap_or(0));
/// assert_eq!(index, 7);
/// ```
pub fn committed(incoming: &[u64], outgoing: &[u64], acknowledged: impl Fn(u64) -> u64) -> u64 {
    committed_index(&of_each(incoming, &acknowledged), &of_each(outgoing, &acknowledged))
}

/// The result of a vote by a voter set, or by a joint pair, from the vote of each id, `None` if it has not voted. The vote
/// is won if there are no voters. A voter that is listed twice counts once.
///
/// ```
/// # use confscript::{vote, VoteResult};
/// assert_eq!(vote(&[1, 2, 3], &[], |id| if id == 2 { None } else { Some(true) }), VoteResult::Won);
/// ```
pub fn vote(incoming: &[u64], outgoing: &[u64], votes: impl Fn(u64) -> Option<bool>) -> VoteResult {
    tally_votes(&of_each(incoming, &votes), &of_each(outgoing, &votes))
}

// The value of each voter, once if it is listed twice.
fn of_each<T>(voters: &[u64], value: impl Fn(u64) -> T) -> Vec<T> {
    let mut ids = voters.to_vec();
    ids.sort_unstable();
    ids.dedup();
    ids.into_iter().map(value).collect()
}

/// [`committed`] from the indexes themselves, each that of another voter.
pub fn committed_index(incoming: &[u64], outgoing: &[u64]) -> u64 {
    check_library();
    // SAFETY: each pointer is a slice's, and so not null, and the count its length.
    unsafe { confscript_committed(incoming.as_ptr(), incoming.len(), outgoing.as_ptr(), outgoing.len()) }
}

/// [`vote`] from the votes themselves, each that of another voter.
pub fn tally_votes(incoming: &[Option<bool>], outgoing: &[Option<bool>]) -> VoteResult {
    check_library();
    let [incoming, outgoing] = [incoming, outgoing].map(|votes| votes.iter().map(|vote| vote.map_or(2, u8::from)).collect::<Vec<_>>());
    // SAFETY: a vector's pointer is not null, even if the vector is empty, and the count its length.
    let answer = unsafe { confscript_vote(incoming.as_ptr(), incoming.len(), outgoing.as_ptr(), outgoing.len()) };
    [VoteResult::Pending, VoteResult::Lost, VoteResult::Won][answer.number as usize]
}

/// How many ids may be down, whichever they are, while the other voters are a quorum, for which those in `down` do
/// not count. A voter that is listed twice counts once. The status is `NoQuorum` if the voters that count are not
/// a quorum even when all are up, as if there are none.
///
/// ```
/// assert_eq!(confscript::may_be_down(&[1, 2, 3], &[], &[]), Ok(1));
/// ```
pub fn may_be_down(incoming: &[u64], outgoing: &[u64], down: &[u64]) -> Result<u64, Error> {
    check_library();
    // SAFETY: as in `committed_index`.
    number(unsafe {
        confscript_may_be_down(incoming.as_ptr(), incoming.len(), outgoing.as_ptr(), outgoing.len(), down.as_ptr(), down.len())
    })
}
