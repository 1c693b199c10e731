//! The command `cogthunder`: litmus tests in, verdicts of the proved library out. Reading isn't proved; `show` says what was
//! understood.

mod advise;
mod arguments;
mod case;
mod choices;
mod convert;
mod decide;
mod decider;
mod dot;
mod drawing;
mod error;
mod explain;
mod fencing;
mod flow;
mod graph;
mod help;
mod herd;
mod input;
mod layout;
mod listing;
mod litmus;
mod outcomes;
mod output;
mod page;
mod picture;
mod progress;
#[cfg(test)]
mod random;
mod reasons;
mod record;
mod report;
mod routes;
mod run;
mod show;
mod source;
mod step;
mod svg;
mod text;
mod text_condition;
mod text_written;
mod value;
mod ways;
mod written;

use arguments::{Options, Request, Subcommand};
use output::{complain, Output};
use std::process::ExitCode;

/// How the program ends.
#[derive(Clone, Copy, PartialEq, Eq, Debug)]
pub enum Status {
    Good = 0,
    /// A verdict isn't the expected one, or no fences are found that forbid an outcome.
    Unexpected = 1,
    /// Something couldn't be read or written.
    Unusable = 2,
}

fn main() -> ExitCode {
    let mut out = Output::new();
    let status = arguments::read(std::env::args_os().skip(1)).and_then(|request| match request {
        Request::Help(text) => out.bytes(text.as_bytes()).map(|()| Status::Good),
        Request::Run(options) => run(&options, &mut out),
    });
    let status = status.unwrap_or_else(|sentence| {
        complain(&sentence);
        Status::Unusable
    });
    ExitCode::from(status as u8)
}

fn run(options: &Options, out: &mut Output) -> Result<Status, String> {
    match options.subcommand {
        Subcommand::Decide => decide::run(options, out),
        Subcommand::Show => show::run(options, out),
        Subcommand::Explain => explain::run(options, out),
        Subcommand::Convert => convert::run(options, out),
        Subcommand::Step => step::run(options, out),
        Subcommand::Outcomes => outcomes::run(options, out),
        Subcommand::Advise => advise::run(options, out),
        Subcommand::Report => report::run(options, out),
    }
}
