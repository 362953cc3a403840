//! `crondelith`: a relay for remote support, a peer to try it with, what its answers mean, what its journal is worth, a
//! demonstration and a benchmark.

mod bench;
mod demo;
mod explain;
mod journal;
mod output;
mod peer;
mod serve;
mod signals;
mod words;

use std::ffi::OsString;
use std::process::ExitCode;

use clap::{Parser, Subcommand};

use output::{note, say, tell};

/// A relay for remote support that eight device makers (partners) share
#[derive(Parser)]
#[command(
    version,
    arg_required_else_help = false,
    after_help = "'crondelith help COMMAND' tells more about a command, and what its exit statuses mean."
)]
struct Cli {
    #[command(subcommand)]
    command: Command,
}

#[derive(Subcommand)]
enum Command {
    Serve(serve::Arguments),
    Peer(peer::Arguments),
    Explain(explain::Arguments),
    Journal(journal::Arguments),
    Demo(demo::Arguments),
    Bench(bench::Arguments),
    /// A process of the benchmark's own
    #[command(hide = true, name = bench::peers::WORD)]
    BenchRelay {
        #[arg(trailing_var_arg = true, allow_hyphen_values = true)]
        words: Vec<OsString>,
    },
}

/// Why a command ended without doing what it was asked for.
pub enum Failure {
    /// The arguments are wrong, or a file is in the way or isn't what it has to be: exit status 2.
    Usage(String),
    /// It was tried and didn't succeed: exit status 1.
    Failed(String),
}

type Outcome = Result<(), Failure>;

fn main() -> ExitCode {
    // Ends the program by itself after help and wrong arguments, with status 0 and 2.
    let outcome = match Cli::parse().command {
        Command::Serve(arguments) => serve::run(arguments),
        Command::Peer(arguments) => peer::run(arguments),
        Command::Explain(arguments) => explain::run(arguments),
        Command::Journal(arguments) => journal::run(arguments),
        Command::Demo(arguments) => demo::run(arguments),
        Command::Bench(arguments) => bench::run(arguments),
        Command::BenchRelay { words } => bench::peers::run_child(&words),
    };
    match outcome {
        Ok(()) => ExitCode::SUCCESS,
        Err(Failure::Failed(why)) => end(&why, 1),
        Err(Failure::Usage(why)) => end(&why, 2),
    }
}

fn end(why: &str, status: u8) -> ExitCode {
    note(why);
    ExitCode::from(status)
}
