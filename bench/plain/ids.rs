//! Sets of ids: ascending lists without repeats.

/// Answers for one id after another, in ascending order, whether the set has it.
pub fn lookup(set: &[u64]) -> impl FnMut(u64) -> bool {
    let mut rest = set;
    move |id| {
        while rest.first().is_some_and(|first| *first < id) {
            rest = &rest[1..];
        }
        rest.first() == Some(&id)
    }
}

/// The ids of the one set that the other does not have.
pub fn difference(set: &[u64], other: &[u64]) -> impl Iterator<Item = u64> {
    let mut in_other = lookup(other);
    set.iter().copied().filter(move |id| !in_other(*id))
}

/// Whether the sets differ in more than one id.
pub fn differ_in_many(set: &[u64], other: &[u64]) -> bool {
    difference(set, other).chain(difference(other, set)).nth(1).is_some()
}

pub fn is_disjoint(set: &[u64], other: &[u64]) -> bool {
    let mut in_other = lookup(other);
    !set.iter().any(|id| in_other(*id))
}

pub fn union(set: &[u64], other: &[u64]) -> Vec<u64> {
    let mut ids = [set, other].concat();
    ids.sort();
    ids.dedup();
    ids
}
