//! What the process does that the benchmark starts for a relay: it is our relay, or guards another one.

use std::ffi::{OsStr, OsString};
use std::process::{Command, Stdio};
use std::{fs, io};

use rustix::process::{getpgrp, getpid, kill_current_process_group, Signal};
use server::{bind_free, Clock, JumpingClock, Log, LogFormat, Server, Settings, SystemClock};

use crate::{say, Failure, Outcome};

pub const WORD: &str = "bench-relay";
pub const SERVE: &str = "serve";
pub const GUARD: &str = "guard";
/// No allowance is ever used up.
pub const JUMPING: &str = "jumping";
/// As in production.
pub const SYSTEM: &str = "system";

/// Goes on until its input ends.
pub fn run(words: &[OsString]) -> Outcome {
    let outcome = match words {
        [role, clock] if role == SERVE && clock == JUMPING => serve(JumpingClock::default()),
        [role, clock] if role == SERVE && clock == SYSTEM => serve(SystemClock::new()),
        [role, folder, program, arguments @ ..] if role == GUARD => guard(folder, program, arguments),
        _ => return Err(Failure::Usage(format!("'{WORD}' is for the benchmark's own use"))),
    };
    outcome.map_err(|error| Failure::Failed(error.to_string()))
}

/// Runs our relay on free ports, which it prints. It isn't stopped in order: nobody waits for its last words.
fn serve(clock: impl Clock + 'static) -> io::Result<()> {
    let settings = Settings::new(clock, Log::new(LogFormat::Text, |_| ()));
    let server = Server::start(bind_free()?, settings)?;
    server.addresses().iter().for_each(say);
    await_end_of_input()
}

/// Runs a program, and ends it with all that it has started, its folder, and itself with them.
fn guard(folder: &OsStr, program: &OsStr, arguments: &[OsString]) -> io::Result<()> {
    if getpgrp() != getpid() {
        return Err(io::Error::other("others would end as well: this process doesn't lead its group"));
    }
    Command::new(program).args(arguments).stdin(Stdio::null()).spawn()?;
    await_end_of_input()?;
    // The benchmark may have removed it already.
    let _ = fs::remove_dir_all(folder);
    kill_current_process_group(Signal::Kill)?;
    Ok(())
}

fn await_end_of_input() -> io::Result<()> {
    io::copy(&mut io::stdin(), &mut io::sink()).map(|_| ())
}
