//! The yardstick of `bench/run`: the modes of docs/SPECIFICATION.md as a plain Rust program.
//!
//! It has what the inputs of the bench use. Left out are the options, the commands `conf-change`, `ack` and
//! `commit-index`, expected lines between double separators, configurations without a voter in `plan`, the limit of an
//! input, and answers that go out before all of a block is there.

mod arguments;
mod change;
mod conf_state;
mod config;
mod ids;
mod modes;
mod plan;
mod quorum;
mod script;
mod session;
mod text;
mod tracker;

use script::Fault;
use std::fs::File;
use std::io::stdout;
use std::process::ExitCode;

fn main() -> ExitCode {
    let arguments: Vec<String> = std::env::args().skip(1).collect();
    let [mode, path] = &arguments[..] else { return fail(2, "plain: MODE FILE expected") };
    let Ok(input) = File::open(path) else { return fail(3, &format!("plain: cannot open {path}")) };
    let to = &mut stdout().lock();
    let result = match mode.as_str() {
        "lines" => modes::lines(input, to),
        "check" => modes::check(input, to),
        "rewrite" => modes::rewrite(input, to),
        "undo" => modes::undo(input, to),
        "plan" => modes::plan(input, to),
        _ => return fail(2, "plain: unknown mode"),
    };
    match result {
        Ok(true) => ExitCode::SUCCESS,
        Ok(false) => ExitCode::from(1),
        Err(Fault::Input(line, fault)) => fail(2, &format!("plain: line {line}: {fault}")),
        Err(Fault::Read) => fail(3, "plain: cannot read"),
        Err(Fault::Write) => fail(3, "plain: cannot write"),
    }
}

fn fail(status: u8, message: &str) -> ExitCode {
    eprintln!("{message}");
    ExitCode::from(status)
}
