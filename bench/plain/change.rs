//! Changes, and what a list of them makes of each id.

use crate::text::number;

/// The kind of a change, by its letter.
#[derive(Clone, Copy, PartialEq, Eq)]
#[repr(u8)]
pub enum ChangeKind {
    Voter = b'v',
    Learner = b'l',
    Remove = b'r',
    Update = b'u',
}

#[derive(Clone, Copy)]
pub struct Change {
    pub kind: ChangeKind,
    pub id: u64,
}

/// Why a token is not a change, as the start of a message that the token ends.
pub type TokenFault = &'static str;

impl Change {
    pub fn parse(token: &[u8]) -> Result<Change, TokenFault> {
        let &[letter, ref digits @ ..] = token else { return Err("unknown token ") };
        if digits.is_empty() {
            return Err("unknown token ");
        }
        let kind = match letter {
            b'v' => ChangeKind::Voter,
            b'l' => ChangeKind::Learner,
            b'r' => ChangeKind::Remove,
            b'u' => ChangeKind::Update,
            _ => return Err("unknown input: "),
        };
        let id = number(digits).ok_or("bad number: ")?;
        Ok(Change { kind, id })
    }
}

/// What a list makes of one id: its last effective change decides.
pub struct Edit {
    pub id: u64,
    pub kind: ChangeKind,
    pub removed: bool,
    pub is_outgoing: bool,
}

/// Fills `edits` with what the list makes of each id that it names, in ascending order.
pub fn settle(changes: &[Change], outgoing: &[u64], edits: &mut Vec<Edit>) {
    edits.clear();
    edits.extend(changes.iter().filter(|change| change.id != 0 && change.kind != ChangeKind::Update).map(|change| {
        Edit {
            id: change.id,
            kind: change.kind,
            removed: change.kind == ChangeKind::Remove,
            is_outgoing: outgoing.binary_search(&change.id).is_ok(),
        }
    }));
    edits.sort_by_key(|edit| edit.id);
    edits.dedup_by(|later, edit| {
        let is_same = later.id == edit.id;
        if is_same {
            edit.kind = later.kind;
            edit.removed |= later.removed;
        }
        is_same
    });
}

/// Fills `new` with the items of `old`, but has `entry` decide what each edited id has.
pub fn merge<T: Copy>(
    old: &[T],
    edits: &[Edit],
    id_of: impl Fn(&T) -> u64,
    entry: impl Fn(&Edit, Option<T>) -> Option<T>,
    new: &mut Vec<T>,
) {
    new.clear();
    let mut rest = old;
    for edit in edits {
        let (before, after) = rest.split_at(rest.partition_point(|item| id_of(item) < edit.id));
        let found = after.first().copied().filter(|item| id_of(item) == edit.id);
        new.extend_from_slice(before);
        new.extend(entry(edit, found));
        rest = &after[usize::from(found.is_some())..];
    }
    new.extend_from_slice(rest);
}
