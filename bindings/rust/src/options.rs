//! How a plan is made and written.
use core::fmt;
use core::str::FromStr;

/// How a plan goes from one configuration to another. It is printed and read with the program's names:
///
/// ```
/// # use confscript::Strategy;
/// assert_eq!("one-at-a-time".parse(), Ok(Strategy::OneAtATime));
/// assert_eq!(Strategy::LearnersFirst.to_string(), "learners-first");
/// ```
#[non_exhaustive]
#[derive(Clone, Copy, Debug, Default, PartialEq, Eq, Hash)]
pub enum Strategy {
    /// By as few steps as possible.
    #[default]
    Shortest = 0,
    /// New voters are learners first, so that they can catch up before they vote.
    LearnersFirst = 1,
    /// One member changes a step, once a joint configuration is left; no plan leads into one.
    OneAtATime = 2,
}

/// What is written of a plan. It is printed and read with the program's names.
#[non_exhaustive]
#[derive(Clone, Copy, Debug, Default, PartialEq, Eq, Hash)]
pub enum Output {
    /// A line for each step. If the plan stalls with the ids that are down, a line such as `# stalls with 4 5 down` or
    /// `# no quorum with 4 5 down: no step can be made` comes before them.
    #[default]
    Steps = 0,
    /// Who votes on the way, and how many failures the cluster tolerates there.
    Table = 1,
    /// An object on a line for each proposal to etcd's raft.
    Json = 2,
}

/// How a plan is made and written. The default is the shortest plan, as steps, with no ids down.
#[derive(Clone, Copy, Debug, Default, PartialEq, Eq, Hash)]
pub struct Options<'a> {
    /// How the plan goes from the configuration to the target.
    pub strategy: Strategy,
    /// What is written of it.
    pub output: Output,
    /// The ids that are down, in any order.
    pub down: &'a [u64],
}

/// A text is not the name of a strategy, or of an output.
#[derive(Clone, Copy, Debug, PartialEq, Eq, Hash)]
pub struct UnknownName;

impl fmt::Display for UnknownName {
    fn fmt(&self, out: &mut fmt::Formatter<'_>) -> fmt::Result {
        out.write_str("unknown name")
    }
}

#[cfg(feature = "std")]
impl std::error::Error for UnknownName {}

const STRATEGIES: [(Strategy, &str); 3] =
    [(Strategy::Shortest, "shortest"), (Strategy::LearnersFirst, "learners-first"), (Strategy::OneAtATime, "one-at-a-time")];
const OUTPUTS: [(Output, &str); 3] = [(Output::Steps, "steps"), (Output::Table, "table"), (Output::Json, "json")];

fn name_in<T: Copy + PartialEq>(names: &[(T, &'static str)], value: T) -> &'static str {
    names.iter().find(|it| it.0 == value).map_or("", |it| it.1)
}

fn named_in<T: Copy>(names: &[(T, &str)], name: &str) -> Result<T, UnknownName> {
    names.iter().find(|it| it.1 == name).map(|it| it.0).ok_or(UnknownName)
}

impl fmt::Display for Strategy {
    fn fmt(&self, out: &mut fmt::Formatter<'_>) -> fmt::Result {
        out.pad(name_in(&STRATEGIES, *self))
    }
}

impl FromStr for Strategy {
    type Err = UnknownName;

    fn from_str(name: &str) -> Result<Strategy, UnknownName> {
        named_in(&STRATEGIES, name)
    }
}

impl fmt::Display for Output {
    fn fmt(&self, out: &mut fmt::Formatter<'_>) -> fmt::Result {
        out.pad(name_in(&OUTPUTS, *self))
    }
}

impl FromStr for Output {
    type Err = UnknownName;

    fn from_str(name: &str) -> Result<Output, UnknownName> {
        named_in(&OUTPUTS, name)
    }
}
