//! confscript plans the membership changes of an etcd or Raft cluster and shows how many servers may fail at each step,
//! with code that is proved correct. This is its library for Rust: a thin layer over that compiled code, which is part of
//! this crate for Linux on x86-64 and arm64. `confscript.h` says what each call returns.
//!
//! A plan leads from a configuration to a target, both of which are texts in one of the forms of `confscript.h`, such as
//! `voters=(1 2 3)`; the target may also be a list of changes, such as `r1 v4`. [`apply`] and [`check`] take a ConfState
//! line. A program that embeds the library keeps a [`Configuration`], makes its steps by [`step`], and counts by
//! [`committed`] and [`vote`], without texts; [`stages`] gives it a plan as proposals to a raft library, and
//! [`next`] what to do next on the way.
//!
//! Any thread may call, also at the same time as others: a call keeps no state, and only reads its arguments.
//!
//! # Features
//!
//! - `std`, on by default: [`Error`] is a `std::error::Error`. Without it the crate needs `alloc`, and the `malloc`,
//!   `realloc` and `free` of a C library.
//! - `system`: links an installed `libconfscript.a` in place of the compiled code in this crate. It is in the folder that
//!   the variable `CONFSCRIPT_LIB` names, or where pkg-config finds it. If it has another major or minor version than
//!   this crate, the first call panics.
#![no_std]
#![warn(missing_docs)]

extern crate alloc;
#[cfg(feature = "std")]
extern crate std;

use alloc::{string::String, vec, vec::Vec};
use core::sync::atomic::{AtomicBool, Ordering};

mod configuration;
mod next;
mod options;
mod quorums;
mod stages;
mod status;

pub use configuration::Configuration;
pub use next::{next, Action, DriveOptions, MemberView, StuckReason, View, WaitReason, Waited};
pub use options::{Options, Output, Strategy, UnknownName};
pub use quorums::{committed, committed_index, may_be_down, tally_votes, vote, VoteResult};
pub use stages::{apply_conf_change, stages, ConfChangeSingle, ConfChangeTransition, ConfChangeType, ConfChangeV2, Plan, Stage};
pub use status::{Error, Status};

// The compiled code, which has the calls as global names.
#[cfg(all(not(feature = "system"), target_os = "linux", target_arch = "x86_64"))]
core::arch::global_asm!(include_str!("../confscript_linux_amd64.s"), options(att_syntax, raw));
#[cfg(all(not(feature = "system"), target_os = "linux", target_arch = "aarch64"))]
core::arch::global_asm!(include_str!("../confscript_linux_arm64.s"), options(raw));
#[cfg(not(any(feature = "system", all(target_os = "linux", any(target_arch = "x86_64", target_arch = "aarch64")))))]
compile_error!("confscript has compiled code for Linux on x86-64 and arm64 alone; the feature `system` links an installed library");

#[repr(C)]
struct Answer {
    status: u32,
    number: u64,
}

extern "C" {
    fn confscript_version() -> u32;
    fn confscript_status_text(status: u32, out: *mut u8, out_len: usize) -> Answer;
    fn confscript_plan(
        configuration: *const u8,
        configuration_len: usize,
        target: *const u8,
        target_len: usize,
        strategy: u32,
        output: u32,
        down: *const u64,
        down_len: usize,
        out: *mut u8,
        out_len: usize,
    ) -> Answer;
    fn confscript_apply(
        configuration: *const u8,
        configuration_len: usize,
        plan: *const u8,
        plan_len: usize,
        out: *mut u8,
        out_len: usize,
    ) -> Answer;
    fn confscript_check(configuration: *const u8, configuration_len: usize) -> Answer;
    fn confscript_committed(incoming: *const u64, incoming_len: usize, outgoing: *const u64, outgoing_len: usize) -> u64;
    fn confscript_vote(incoming: *const u8, incoming_len: usize, outgoing: *const u8, outgoing_len: usize) -> Answer;
    fn confscript_restore(configuration: *const u64, configuration_len: usize, out: *mut u64, out_len: usize) -> Answer;
    fn confscript_step(
        configuration: *const u64,
        configuration_len: usize,
        step: u32,
        changes: *const Change,
        changes_len: usize,
        out: *mut u64,
        out_len: usize,
    ) -> Answer;
    fn confscript_stages(
        configuration: *const u64,
        configuration_len: usize,
        target: *const u64,
        target_len: usize,
        strategy: u32,
        down: *const u64,
        down_len: usize,
        out: *mut u64,
        out_len: usize,
    ) -> Answer;
    fn confscript_next(
        configuration: *const u64,
        configuration_len: usize,
        target: *const u64,
        target_len: usize,
        strategy: u32,
        down: *const u64,
        down_len: usize,
        view: *const u64,
        view_len: usize,
        out: *mut u64,
        out_len: usize,
    ) -> Answer;
    fn confscript_may_be_down(
        incoming: *const u64,
        incoming_len: usize,
        outgoing: *const u64,
        outgoing_len: usize,
        down: *const u64,
        down_len: usize,
    ) -> Answer;
}

// Panics if an installed library has another major or minor version than this crate: its calls may have other parameters.
fn check_library() {
    const EXPECTED: &str = concat!(env!("CARGO_PKG_VERSION_MAJOR"), ".", env!("CARGO_PKG_VERSION_MINOR"));
    static IS_CHECKED: AtomicBool = AtomicBool::new(false);
    if cfg!(feature = "system") && !IS_CHECKED.load(Ordering::Relaxed) {
        let (major, minor, patch) = (version() / 10000, version() / 100 % 100, version() % 100);
        assert!(
            alloc::format!("{major}.{minor}") == EXPECTED,
            "confscript: the library has version {major}.{minor}.{patch}, and this crate is for version {EXPECTED}"
        );
        IS_CHECKED.store(true, Ordering::Relaxed);
    }
}

const DONE: u32 = 0;
const TOO_SMALL: u32 = 1;

/// What a change does to its id. The numbers are those of `raftpb.ConfChangeType`.
#[repr(u32)]
#[derive(Clone, Copy, Debug, PartialEq, Eq, Hash)]
pub enum ChangeKind {
    /// Makes it a voter.
    Voter = 0,
    /// Removes it.
    Remove = 1,
    /// Has no effect.
    Update = 2,
    /// Makes it a learner.
    Learner = 3,
}

/// A change of an id. A change of the id 0 has no effect.
#[repr(C)]
#[derive(Clone, Copy, Debug, PartialEq, Eq, Hash)]
pub struct Change {
    /// What it does to the id.
    pub kind: ChangeKind,
    /// The id of a member, or of one to be.
    pub id: u64,
}

/// How the changes of a step are made.
#[derive(Clone, Copy, Debug, PartialEq, Eq, Hash)]
pub enum StepKind {
    /// As etcd does: no change leaves a joint configuration, one is a simple step, and more enter a joint configuration,
    /// which is left automatically.
    Auto = 0,
    /// They enter a joint configuration, which is left automatically.
    Implicit = 1,
    /// They enter a joint configuration, which a later step has to leave.
    Explicit = 2,
    /// They change at most one voter, and any number of learners.
    Simple = 3,
    /// A joint configuration is left, and the changes are ignored.
    LeaveJoint = 4,
}

fn number(answer: Answer) -> Result<u64, Error> {
    if answer.status == DONE {
        Ok(answer.number)
    } else {
        Err(Error::of(&answer))
    }
}

// What a call writes to a buffer. If that is too small, the call is made again with a larger one.
fn filled<T: Copy + Default>(call: impl Fn(&mut [T]) -> Answer) -> Result<Vec<T>, Error> {
    check_library();
    let mut out = vec![T::default(); 256];
    loop {
        let answer = call(&mut out);
        if answer.status == TOO_SMALL {
            out = vec![T::default(); answer.number as usize];
            continue;
        }
        out.truncate(number(answer)? as usize);
        return Ok(out);
    }
}

// The text that a call writes.
fn written(call: impl Fn(&mut [u8]) -> Answer) -> Result<String, Error> {
    Ok(String::from_utf8_lossy(&filled(call)?).into_owned())
}

// The configuration that a call writes, from a configuration and this number of changes, and the members that are catching up in
// it. The buffer has the length of the macro CONFSCRIPT_STEP_ROOM of confscript.h.
fn configured(
    from: &Configuration,
    changes: usize,
    call: impl Fn(&[u64], &mut [u64]) -> Answer,
) -> Result<(Configuration, Vec<u64>), Error> {
    check_library();
    let numbers = from.numbers();
    let mut out = vec![0; 6 + 2 * (numbers.len() - 6 + changes)];
    let length = number(call(&numbers, &mut out))?;
    let (configuration, catching_up, _) = Configuration::of(&out[..length as usize]);
    Ok((configuration, catching_up))
}

/// The steps of the shortest plan from a configuration to a target.
///
/// ```
/// assert_eq!(confscript::plan("voters=(1 2 3)", "r1 v4")?, "enter-joint autoleave=false r1 v4\nleave-joint\n");
/// # Ok::<(), confscript::Error>(())
/// ```
pub fn plan(configuration: &str, target: &str) -> Result<String, Error> {
    plan_by(Options::default(), configuration, target)
}

/// The plan by these options from a configuration to a target, as the program prints it.
pub fn plan_by(options: Options<'_>, configuration: &str, target: &str) -> Result<String, Error> {
    let Options { strategy, output, down } = options;
    // SAFETY: each pointer is a slice's, and so not null, and the count its length.
    written(|out| unsafe {
        confscript_plan(
            configuration.as_ptr(),
            configuration.len(),
            target.as_ptr(),
            target.len(),
            strategy as u32,
            output as u32,
            down.as_ptr(),
            down.len(),
            out.as_mut_ptr(),
            out.len(),
        )
    })
}

/// The ConfState line of the configuration after the steps of a plan. A single step is a plan of one line.
pub fn apply(configuration: &str, steps: &str) -> Result<String, Error> {
    // SAFETY: as in `plan_by`.
    written(|out| unsafe {
        confscript_apply(configuration.as_ptr(), configuration.len(), steps.as_ptr(), steps.len(), out.as_mut_ptr(), out.len())
    })
}

/// What is wrong with the configuration of a ConfState line, if anything is.
pub fn check(configuration: &str) -> Result<(), Error> {
    check_library();
    // SAFETY: as in `plan_by`.
    number(unsafe { confscript_check(configuration.as_ptr(), configuration.len()) }).map(|_| ())
}

/// Checks a saved configuration, and returns it with its ids in ascending order, and all its members, which are catching up, as
/// when a server restarts (etcd's `confchange.Restore`).
pub fn restore(configuration: &Configuration) -> Result<(Configuration, Vec<u64>), Error> {
    // SAFETY: a vector's pointer is not null, even if the vector is empty, and the count its length.
    configured(configuration, 0, |numbers, out| unsafe { confscript_restore(numbers.as_ptr(), numbers.len(), out.as_mut_ptr(), out.len()) })
}

/// The configuration after one step, and the members that are catching up in it: those that were none before, and those that
/// the changes remove and add again, unless they are outgoing voters. The others keep their progress.
///
/// ```
/// # use confscript::{step, Change, ChangeKind, Configuration, StepKind};
/// let now = Configuration { voters: vec![1, 2, 3], ..Default::default() };
/// let (next, catching_up) = step(&now, StepKind::Simple, &[Change { kind: ChangeKind::Learner, id: 4 }])?;
/// assert_eq!((next.to_string().as_str(), catching_up), ("voters=(1 2 3) learners=(4)", vec![4]));
/// # Ok::<(), confscript::Error>(())
/// ```
pub fn step(configuration: &Configuration, kind: StepKind, changes: &[Change]) -> Result<(Configuration, Vec<u64>), Error> {
    // SAFETY: as in `restore`; a `Change` has the layout of a `struct confscript_change`.
    configured(configuration, changes.len(), |numbers, out| unsafe {
        confscript_step(numbers.as_ptr(), numbers.len(), kind as u32, changes.as_ptr(), changes.len(), out.as_mut_ptr(), out.len())
    })
}

/// The version of the library: 10,000 for each major version, 100 for each minor one, and the patch.
pub fn version() -> u32 {
    // SAFETY: the call takes no arguments.
    unsafe { confscript_version() }
}
