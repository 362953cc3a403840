//! `crondelith journal`: judges the journal that a relay keeps, or shows its records.

mod beginning;
mod entry;
mod figures;
mod file;
mod json;
mod judgement;
mod rule;
mod show;
#[cfg(test)]
mod tests;
mod text;

use std::io::{self, stderr, IsTerminal};
use std::path::{Path, PathBuf};

use clap::{value_parser, Args, Subcommand};
use engine::relay::RECORD;
use peer::Meter;
use server::{LeaseTerm, Refusal, CLOCK_LIMIT, PARTNERS};

use crate::words::counted;
use crate::{note, tell, Failure, Outcome};
use beginning::Beginning;
use file::Source;
use judgement::{Judgement, Unjudged};
use show::{Form, Unshown};
use text::Told;

const ABOUT: &str = "\
Judges a journal, the file of calls that 'serve --journal' keeps: whether its records agree with the
rules of the allowances, and what each partner was charged by them; or the first record that
contradicts the rules, and which of them. Nothing is changed.";

const USAGE: &str = "\
crondelith journal [OPTIONS] <FILE>
       crondelith journal [OPTIONS] show <FILE>";

const SHOW_ABOUT: &str = "\
Prints the records of a journal, each on a line: the byte at which it begins, the time, the call,
its answer and its charge. They aren't judged.";

const DETAILS: &str = "\
A record has 16 bytes: the time, the connection, the call, the message's type, the answer and the
charge. The proved engine replays them from a fresh relay's start. FILE.start, which the relay keeps
beside the journal, has the time of that start and its leases' term; '--start' and '--lease-term'
say it instead. The term changes nothing of what is told.

A record contradicts the rules exactly if

  connection      its connection is above 63
  call            its call isn't open (0), message (1), close (2) or keepalive check (3)
  answer          its answer is 1 to 3, or above 9
  time_limit      its time is 2^40 or more
  time_back       its time is below that of the latest done record, at first the start's
  free_call       it has a charge, and is a close, a keepalive check or a session's end
  refused_charge  it has a charge, and its answer is neither 0 nor 9
  above_level     its answer is 0, and its charge is above what its partner has at that time
  within_level    its answer is 9, and its charge isn't

and the journal is contradicted too if less than a record is left at its end (short_tail). Of a
relay that runs, the last record may be half there: ask again. Of several rules that a record
contradicts, the first is told, with the figures of the records before it.

Of each partner it is told how many calls were done and how many units they were charged; how many
were refused with 9, since the allowance was used up, and how many units they would have cost (a
message that waits is tried again, and counts each time); how many were refused otherwise; and how
many units are left at the time of the latest done record.

With '--json' the same is one object: file, start, lease_term, ended, plain, agrees, contradiction,
bytes, records, latest, partners. A partner has partner, done, charged, refused_with_9,
refused_units, refused_otherwise, left; a contradiction what applies of place, record, short_tail,
rule, why, level. A record, also a line of 'show --json', has what applies of place, time,
connection, partner, call, call_number, type_byte, type, answer, done, reason, charge; the last line
of 'show', if less than a record is left, place and short_tail. 'records' are those that agree;
'ended' says that calls after the last record have none, by FILE.start.

FILE may be a pipe, and is read into memory to be judged, up to 4 GiB. Above a million records it is
shown on a terminal how far reading is; replaying doesn't tell it. A file named 'show' is './show'.

The exit status is 0 if the journal agrees, or is shown; 1 if it is contradicted; and 2 if the
arguments are wrong, a file can't be read, no relay starts so, or the answer can't be written.";

/// Judge a relay's journal, or show its records
#[derive(Args)]
#[command(
    long_about = ABOUT,
    after_long_help = DETAILS,
    override_usage = USAGE,
    subcommand_negates_reqs = true,
    arg_required_else_help = false
)]
pub struct Arguments {
    /// The journal
    #[arg(required = true)]
    file: Option<PathBuf>,
    #[command(subcommand)]
    action: Option<Action>,
    #[command(flatten)]
    options: Options,
}

#[derive(Subcommand)]
enum Action {
    /// Print the records, each on a line
    #[command(long_about = SHOW_ABOUT, after_long_help = DETAILS)]
    Show {
        /// The journal
        file: PathBuf,
    },
}

/// All of them global, so that they may stand anywhere after 'journal'.
#[derive(Args)]
struct Options {
    /// Print a JSON object; of 'show', one for each record
    #[arg(long, global = true)]
    json: bool,

    /// Tell the figures, or show the records, of this partner alone, 0 to 7
    #[arg(long, global = true, value_name = "N", value_parser = value_parser!(u64).range(0..PARTNERS as u64))]
    partner: Option<u64>,

    /// When the relay was started afresh, in whole seconds since 1970
    /// [default: as FILE.start says]
    #[arg(long, global = true, verbatim_doc_comment, value_name = "SECONDS", help_heading = "Options of judging")]
    start: Option<u64>,

    /// How long its leases last; 0 means 600
    /// [default: as FILE.start says, or 600]
    #[arg(long, global = true, verbatim_doc_comment, value_name = "SECONDS", help_heading = "Options of judging")]
    lease_term: Option<u64>,

    /// Judge by the plain replay, which fills every level once for each
    /// second, and tell whether the usual one says the same
    #[arg(long, global = true, verbatim_doc_comment, help_heading = "Options of judging")]
    plain: bool,
}

pub fn run(arguments: Arguments) -> Outcome {
    let Arguments { file, action, options } = arguments;
    match (file, action) {
        (None, Some(Action::Show { file })) => show(&file, &options),
        (Some(file), None) => judge(&file, &options),
        _ => Err(Failure::Usage("either a FILE is judged, or 'show' shows one".into())),
    }
}

fn judge(path: &Path, options: &Options) -> Outcome {
    let source = Source::open(path).map_err(|error| unread(path, &error))?;
    let beginning = Beginning::of(path, options.start, options.lease_term).map_err(no_beginning)?;
    let is_shown = |length| file::is_shown(length, stderr().is_terminal());
    let meter = is_shown(source.length()).then(Meter::stderr);
    let journal = source.read(meter).map_err(|error| unread(path, &error))?;
    if is_shown(journal.len() as u64) {
        note(&format!("replaying {}", counted((journal.len() / RECORD) as u64, "record")));
    }
    let judgement = Judgement::new(&journal, beginning, options.plain).map_err(|why| unjudged(path, &why))?;
    let told = Told { path, judgement: &judgement, partner: options.partner.map(|partner| partner as usize) };
    let printed = if options.json { tell(told.to_json()) } else { tell(&told) };
    printed.map_err(unprinted)?;
    match &judgement.contradiction {
        None => Ok(()),
        Some(_) => Err(Failure::Failed(format!("the journal '{}' is contradicted", path.display()))),
    }
}

fn show(path: &Path, options: &Options) -> Outcome {
    options.check_show()?;
    let form = Form { json: options.json, partner: options.partner };
    show::show(path, form).map_err(|why| match why {
        Unshown::Unread(error) => unread(path, &error),
        Unshown::Unprinted(error) => unprinted(error),
    })
}

impl Options {
    /// Finds options that 'show' hasn't got.
    fn check_show(&self) -> Outcome {
        let unsuited =
            [("--start", self.start.is_some()), ("--lease-term", self.lease_term.is_some()), ("--plain", self.plain)];
        match unsuited.iter().find(|(_, given)| *given) {
            Some((option, _)) => Err(Failure::Usage(format!("'{option}' isn't an option of 'show'"))),
            None => Ok(()),
        }
    }
}

/// 1 is for a contradicted journal alone, so that all else is 2.
fn unread(path: &Path, error: &io::Error) -> Failure {
    Failure::Usage(format!("the journal '{}': {error}", path.display()))
}

fn unprinted(error: io::Error) -> Failure {
    Failure::Usage(format!("the answer can't be printed: {error}"))
}

fn no_beginning(error: io::Error) -> Failure {
    Failure::Usage(format!("{error}; '--start' and '--lease-term' can say it instead"))
}

fn unjudged(path: &Path, why: &Unjudged) -> Failure {
    let limit = CLOCK_LIMIT;
    let [least, most] = [LeaseTerm::USUAL, LeaseTerm::LONGEST].map(LeaseTerm::seconds);
    Failure::Usage(match why {
        Unjudged::Refused(Refusal(2)) => format!("no relay starts at that time: times are below {limit}"),
        Unjudged::Refused(Refusal(6)) => format!("no relay starts with that term: it is 0, or {least} to {most}"),
        Unjudged::Refused(Refusal(number)) => format!("no relay starts so: it is refused with {number}"),
        Unjudged::Inconsistent(what) => format!("the journal '{}' can't be judged: {what}", path.display()),
    })
}
