//! `crondelith explain`: what a relay would answer to a call and why, from its state file.

mod call;
mod explanation;
mod hex;
mod json;
mod message;
mod options;
#[cfg(test)]
mod tests;
mod text;
mod words;

use std::io;
use std::path::{Path, PathBuf};

use clap::{Args, Subcommand};
use server::Tables;

use crate::signals::Watch;
use crate::{tell, Failure, Outcome};
use call::Call;
use explanation::Explanation;
use options::Options;

pub use call::{partner_of, CONNECTIONS};
pub use words::type_name;

const ABOUT: &str = "\
Tells what a relay would answer to a call, and why, from the state file that 'serve --state' keeps.
Nothing is changed, neither the file nor a relay that uses it.";

const OPEN_ABOUT: &str = "\
Tells whether a connection would be opened, and why not.";

const MESSAGE_ABOUT: &str = "\
Tells what would become of a message, and why. Its bytes are those within a frame, from its type on:
without the frame's own length and type.";

const CLOSE_ABOUT: &str = "\
Tells whether a connection would be closed, and why not.";

const KEEPALIVE_ABOUT: &str = "\
Tells whether the peer of a connection would be asked if it is there, or its connection closed, as
the relay finds out every second; or why not. A Keepalive that a peer sends is a message.";

const DETAILS: &str = "\
It says which check stops the call, or that it would be done; whether a lease would be accepted, and
until when, or which of the four conditions fails first; whether a session would be established, or
the status why not; whether a peer would be sent a Keepalive, or has left one unanswered for too
long; what the call costs and what the partner has; and what is left, or how much is missing and
after how many seconds it can be paid. For instance, a lease request from connection 9, now:

  crondelith explain relay.state message --connection 9 --hex 0200 --time $(date +%s)

A call costs 32, the bytes received and the bytes that are sent for it, with these tables and at
that time: a lease costs 72 if it is accepted and else 36, a session 140 if it is established and
else 43. When leases have ended or others have been given out, it may be the other of the two.

A request with a cookie is 24 bytes longer, and costs 24 units more. Which cookie it is changes
nothing of what is told, so zeros stand for any: 0201 and 48 times 0. A real one is a secret, and
others can see the words of a command.

The file's clock is the time of the last call that was done when it was saved, or of the relay's
start if none was. Later the allowances have refilled, and leases may have ended. What is told is
the answer to a call that has its turn: while a message of the partner waits for the refill, its
others wait behind it.

STATE can be read at any time, by the relay's user only. A relay that runs saves it twice a second
when more than the clock has changed, with its connections as they are then. It closes them all when
it ends: from then on every message is answered with 4. The file of one that was killed still has
them, until it starts again.

With '--json' the same is one object. It has what applies of these: call, connection, partner, time,
clock, message_length, message_type; check, done, reason, meaning, follows, request, condition,
status, decision, expiration; free, cost, level, headroom, left, shortfall, payable_at,
payable_after.

The exit status is 0 if all this could be told, also of a call that would be refused; 1 if a file
can't be read or the answer can't be written, also when interrupted before (Ctrl-C); and 2 if the
arguments are wrong, STATE isn't a state file, or a message has more than 1 MiB.";

/// Tell what a relay would answer to a call, and why
#[derive(Args)]
#[command(long_about = ABOUT, after_long_help = DETAILS, arg_required_else_help = false)]
pub struct Arguments {
    /// The relay's state file
    state: PathBuf,
    #[command(subcommand)]
    call: Kind,
    #[command(flatten)]
    options: Options,
}

#[derive(Clone, Copy, PartialEq, Eq, Subcommand)]
enum Kind {
    /// A connection is opened
    #[command(long_about = OPEN_ABOUT, after_long_help = DETAILS)]
    Open,
    /// A message comes from a connection
    #[command(long_about = MESSAGE_ABOUT, after_long_help = DETAILS)]
    Message,
    /// A connection is closed
    #[command(long_about = CLOSE_ABOUT, after_long_help = DETAILS)]
    Close,
    /// A connection is checked for a peer that doesn't answer
    #[command(long_about = KEEPALIVE_ABOUT, after_long_help = DETAILS)]
    Keepalive,
}

pub fn run(arguments: Arguments) -> Outcome {
    let Arguments { state, call, options } = arguments;
    let connection = options.checked_for(call)?;
    // A message from stdin may take long to come.
    Watch::start("interrupted")?;
    let tables = load(&state)?;
    let call = Call { connection, time: options.time.unwrap_or(tables.clock()), action: options.action(call)? };
    let explanation = Explanation::new(call, &tables);
    let told = match options.json {
        true => tell(explanation.to_json()),
        false => tell(explanation),
    };
    told.map_err(|error| Failure::Failed(format!("the explanation can't be printed: {error}")))
}

fn load(path: &Path) -> Result<Tables, Failure> {
    Tables::load(path).map_err(|error| match error.kind() {
        io::ErrorKind::InvalidData => Failure::Usage(error.to_string()),
        _ => Failure::Failed(error.to_string()),
    })
}
