//! Configurations.
use crate::{Error, Status};
use alloc::vec::Vec;
use core::fmt;
use core::hash::{Hash, Hasher};
use core::str::FromStr;

/// A configuration: etcd's `ConfState`. The ids of a list may be in any order; a call returns them ascending. Two are equal
/// if their sets are.
///
/// It is printed as the program prints it, and read from such a text, as [`plan`](crate::plan) reads it too:
///
/// ```
/// # use confscript::Configuration;
/// let joint = Configuration { voters: vec![1, 2], voters_outgoing: vec![1, 2, 3], learners_next: vec![3], ..Default::default() };
/// assert_eq!(joint.to_string(), "voters=(1 2)&&(1 2 3) learners_next=(3)");
/// assert_eq!("voters=(1 2)&&(1 2 3) learners_next=(3)".parse(), Ok(joint));
/// ```
#[derive(Clone, Debug, Default)]
pub struct Configuration {
    /// The voters, or in a joint configuration the incoming ones.
    pub voters: Vec<u64>,
    /// The outgoing voters, none if the configuration is not joint.
    pub voters_outgoing: Vec<u64>,
    /// The learners.
    pub learners: Vec<u64>,
    /// The outgoing voters that become learners when the joint configuration is left.
    pub learners_next: Vec<u64>,
    /// Whether the joint configuration is left automatically.
    pub auto_leave: bool,
}

impl Configuration {
    fn parts(&self) -> [&Vec<u64>; 4] {
        [&self.voters, &self.voters_outgoing, &self.learners, &self.learners_next]
    }

    // The array of the configuration (`enum confscript_part`).
    pub(crate) fn numbers(&self) -> Vec<u64> {
        let counts = self.parts().map(|part| part.len() as u64);
        let ids = self.parts().into_iter().flatten();
        [u64::from(self.auto_leave)].iter().chain(&counts).chain(&[0]).chain(ids).copied().collect()
    }

    // The configuration of an array that a call wrote, the members that are catching up in it, and the numbers after it.
    pub(crate) fn of(numbers: &[u64]) -> (Configuration, Vec<u64>, &[u64]) {
        let (head, mut rest) = numbers.split_at(6);
        let mut part = |count: u64| {
            let (part, others) = rest.split_at(count as usize);
            rest = others;
            part.to_vec()
        };
        let configuration = Configuration {
            auto_leave: head[0] == 1,
            voters: part(head[1]),
            voters_outgoing: part(head[2]),
            learners: part(head[3]),
            learners_next: part(head[4]),
        };
        let catching_up = part(head[5]);
        (configuration, catching_up, rest)
    }
}

impl Configuration {
    fn sorted(&self) -> ([Vec<u64>; 4], bool) {
        (self.parts().map(|part| sorted(part)), self.auto_leave)
    }
}

impl PartialEq for Configuration {
    fn eq(&self, other: &Configuration) -> bool {
        self.sorted() == other.sorted()
    }
}

impl Eq for Configuration {}

impl Hash for Configuration {
    fn hash<H: Hasher>(&self, state: &mut H) {
        self.sorted().hash(state);
    }
}

impl fmt::Display for Configuration {
    fn fmt(&self, out: &mut fmt::Formatter<'_>) -> fmt::Result {
        write!(out, "voters={}", Set(&self.voters))?;
        for (name, ids) in [("&&", &self.voters_outgoing), (" learners=", &self.learners), (" learners_next=", &self.learners_next)] {
            if !ids.is_empty() {
                write!(out, "{name}{}", Set(ids))?;
            }
        }
        out.write_str(if self.auto_leave { " autoleave" } else { "" })
    }
}

/// Reads a printed configuration, as the program does. Another text is refused as [`Status::BadPrinted`]. Whether it is valid
/// is checked by the calls that take it.
impl FromStr for Configuration {
    type Err = Error;

    fn from_str(text: &str) -> Result<Configuration, Error> {
        let spaced = text.replace('(', " ( ").replace(')', " ) ").replace('=', " = ");
        let tokens: Vec<&str> = spaced.split_ascii_whitespace().collect();
        printed(&tokens).ok_or(Error { code: Status::BadPrinted as u32, number: 0, part: "" })
    }
}

// The configuration of the tokens of a printed one, of which those of `voters=(1 2)` are `voters`, `=`, `(`, `1`, `2` and `)`.
fn printed(tokens: &[&str]) -> Option<Configuration> {
    let (voters, rest) = set(tokens.strip_prefix(&["voters", "="])?)?;
    let (voters_outgoing, rest) = part(&["&&"], rest)?;
    let (learners, rest) = part(&["learners", "="], rest)?;
    let (learners_next, rest) = part(&["learners_next", "="], rest)?;
    let auto_leave = rest == ["autoleave"];
    (auto_leave || rest.is_empty()).then_some(Configuration { voters, voters_outgoing, learners, learners_next, auto_leave })
}

// The ids of a part that begins with these tokens, and the tokens after it. An empty part is left out.
fn part<'a, 'b>(begin: &[&'b str], tokens: &'a [&'b str]) -> Option<(Vec<u64>, &'a [&'b str])> {
    match tokens.strip_prefix(begin) {
        None => Some((Vec::new(), tokens)),
        Some(rest) => set(rest).filter(|(ids, _)| !ids.is_empty()),
    }
}

// The ids between parentheses, and the tokens after these.
fn set<'a, 'b>(tokens: &'a [&'b str]) -> Option<(Vec<u64>, &'a [&'b str])> {
    let tokens = tokens.strip_prefix(&["("])?;
    let end = tokens.iter().position(|token| *token == ")")?;
    let ids = tokens[..end].iter().map(|token| if token.starts_with('+') { None } else { token.parse().ok() });
    Some((ids.collect::<Option<_>>()?, &tokens[end + 1..]))
}

fn sorted(ids: &[u64]) -> Vec<u64> {
    let mut ids = ids.to_vec();
    ids.sort_unstable();
    ids
}

// Ids that are printed ascending, in parentheses.
pub(crate) struct Set<'a>(pub(crate) &'a [u64]);

impl fmt::Display for Set<'_> {
    fn fmt(&self, out: &mut fmt::Formatter<'_>) -> fmt::Result {
        write!(out, "({})", Ids(&sorted(self.0)))
    }
}

// Ids with a space between them.
pub(crate) struct Ids<'a>(pub(crate) &'a [u64]);

impl fmt::Display for Ids<'_> {
    fn fmt(&self, out: &mut fmt::Formatter<'_>) -> fmt::Result {
        for (at, id) in self.0.iter().enumerate() {
            write!(out, "{}{id}", if at == 0 { "" } else { " " })?;
        }
        Ok(())
    }
}
