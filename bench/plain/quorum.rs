//! Committed indexes, votes and charts.

use crate::text::{digit_count, push_number};

/// What is known of each id, by ascending id.
pub type Known<T> = Vec<(u64, Option<T>)>;

fn known_of<T: Copy>(known: &Known<T>, id: u64) -> Option<T> {
    known.binary_search_by_key(&id, |entry| entry.0).ok().and_then(|index| known[index].1)
}

/// The index that a set has committed, which is 2^64-1 if it is empty.
fn committed_by(voters: &[u64], known: &Known<u64>) -> u64 {
    if voters.is_empty() {
        return u64::MAX;
    }
    let mut indexes: Vec<u64> = voters.iter().map(|id| known_of(known, *id).unwrap_or(0)).collect();
    let majority = indexes.len() / 2 + 1;
    let place = indexes.len() - majority;
    *indexes.select_nth_unstable(place).1
}

pub fn committed(incoming: &[u64], outgoing: &[u64], known: &Known<u64>) -> u64 {
    committed_by(incoming, known).min(committed_by(outgoing, known))
}

#[derive(PartialEq, Eq, PartialOrd, Ord)]
pub enum Vote {
    Lost,
    Pending,
    Won,
}

fn vote_of(voters: &[u64], votes: &Known<bool>) -> Vote {
    let (mut yes, mut missing) = (0, 0);
    for id in voters {
        match known_of(votes, *id) {
            Some(true) => yes += 1,
            Some(false) => {}
            None => missing += 1,
        }
    }
    let half = voters.len() / 2;
    if voters.is_empty() || yes > half {
        Vote::Won
    } else if yes + missing > half {
        Vote::Pending
    } else {
        Vote::Lost
    }
}

pub fn vote(incoming: &[u64], outgoing: &[u64], votes: &Known<bool>) -> Vote {
    vote_of(incoming, votes).min(vote_of(outgoing, votes))
}

/// Appends a committed index as a line.
pub fn write_index(index: u64, out: &mut Vec<u8>) {
    if index == u64::MAX {
        out.extend_from_slice("∞".as_bytes());
    } else {
        push_number(out, index);
    }
    out.push(b'\n');
}

/// Appends the chart of who has acknowledged which index.
pub fn write_chart(known: &Known<u64>, out: &mut Vec<u8>) {
    if known.is_empty() {
        out.extend_from_slice(b"<empty majority quorum>");
        return;
    }
    let mut ranks: Vec<(u64, u64)> = known.iter().map(|(id, index)| (index.unwrap_or(0), *id)).collect();
    ranks.sort_unstable();
    pad(out, known.len(), b' ');
    out.extend_from_slice(b"    idx\n");
    for (id, index) in known {
        let rank = (index.unwrap_or(0), *id);
        let place = ranks.partition_point(|other| other.0 < rank.0);
        let bar = if ranks[place] == rank { place } else { 0 };
        match index {
            None => {
                out.push(b'?');
                pad(out, known.len(), b' ');
            }
            Some(_) => {
                pad(out, bar, b'x');
                out.push(b'>');
                pad(out, known.len() - bar, b' ');
            }
        }
        out.push(b' ');
        pad(out, 5_usize.saturating_sub(digit_count(rank.0)), b' ');
        push_number(out, rank.0);
        out.extend_from_slice(b"    (id=");
        push_number(out, *id);
        out.extend_from_slice(b")\n");
    }
}

fn pad(out: &mut Vec<u8>, count: usize, byte: u8) {
    out.resize(out.len() + count, byte);
}
