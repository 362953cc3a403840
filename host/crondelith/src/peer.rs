//! `crondelith peer`: receives or sends a file through a relay.

mod receiver_id;

use std::fs::File;
use std::path::{Path, PathBuf};
use std::time::Duration;

use clap::{value_parser, Args, Subcommand};
use codec::DATA_LIMIT;
use peer::{
    confirm, receive_contents, send_contents, CookieFile, Error, Fingerprint, Meter, PartFile, Patience, Peer,
    Progress, RelayAddress, SourceFile, SystemDisk, MESSAGE_SIZE, SILENCE,
};
use server::PARTNERS;

use crate::serve::{DEFAULT_BASE_PORT, HIGHEST_BASE_PORT};
use crate::signals::Watch;
use crate::{note, Failure, Outcome};
use receiver_id::ReceiverId;

const ABOUT: &str = "\
Receives or sends a file through a relay: 'receive' leases an id, prints it on stdout and waits;
'send' sends a file to the peer that has the id.";

const RECEIVE_ABOUT: &str = "\
Leases an id, prints it on stdout, waits for a sender and receives its file.";

const SEND_ABOUT: &str = "\
Sends a file to the peer that has the id.";

const DETAILS: &str = "\
With a port in '--relay', '--port' and '--partner' may not be given.

The receiver writes to a file beside FILE, of the same name with some letters and '.part' after it.
Once that is complete and has the sender's digest it gets its name; otherwise it is removed. The
receiver extends its lease every 5 minutes from when it waits until the file is kept, which is in
time whatever term the relay has. If the relay neither extends nor renews it while the receiver
waits, it leases another id and prints that one too. The sender is done when the receiver has
confirmed the file, with its digest. A relay hands on about 32 KB a second for a partner whose
allowance is used up, and may let a message wait for seconds then, so '--timeout' shouldn't be
short. A transfer in which nothing moves for 60 seconds says so. Either side tells the relay that it
is there when it is asked; one that is suspended for a minute or more, by Ctrl-Z say, may find its
connection closed.

With '--cookie' the receiver keeps its lease's cookie in a file, a line of 48 hex digits, and asks
for its id with it the next time, also after a power cut. Then 'kept' or 'new' follows the id on its
line. It is 'new' the first time, when there is no such file; and else, if the relay has lost its
leases, has given the id to another since, or takes the last connection for open, as it does for a
minute and a half after a power cut; or if it is another relay or partner than before. Those who
send have to be told a new id; the file has its cookie by then, and the old one is in a file of the
same name with '.old' after it, until the next is replaced. Moved back, it is asked with again.
Who has the cookie can have the id, so both files are for their owner only (mode 0600). They are for
one receiver at a time, which locks a file of the same name with '.lock' after it.

The exit status is 0 if the whole file has come, 1 if not, also when interrupted before (Ctrl-C),
and 2 if the arguments are wrong, FILE is in the way at the start, or the file of '--cookie' holds
something else. A second Ctrl-C a second later ends the program at once, and may leave the '.part'
file.";

/// Receive or send a file through a relay
#[derive(Args)]
#[command(long_about = ABOUT, after_long_help = DETAILS, arg_required_else_help = false)]
pub struct Arguments {
    #[command(subcommand)]
    direction: Direction,
    #[command(flatten)]
    options: Options,
}

#[derive(Subcommand)]
enum Direction {
    /// Lease an id, print it and receive a file
    #[command(long_about = RECEIVE_ABOUT, after_long_help = DETAILS)]
    Receive {
        /// Where the file goes
        file: PathBuf,
    },
    /// Send a file to the peer that has the id
    #[command(long_about = SEND_ABOUT, after_long_help = DETAILS)]
    Send {
        /// The id, a number as 'receive' prints it
        id: u32,
        /// The file to send
        file: PathBuf,
    },
}

/// All of them global, so that they may stand anywhere after 'peer'.
#[derive(Args)]
struct Options {
    /// Where the relay runs: a name, an IPv4 or an IPv6 address, which may
    /// have the partner's port: NAME:PORT, [IPv6]:PORT
    #[arg(long, global = true, verbatim_doc_comment, value_name = "ADDRESS", default_value = "127.0.0.1")]
    relay: RelayAddress,

    /// The relay's port for partner 0, 1 to 65528
    /// [default: 7700]
    #[arg(long, global = true, verbatim_doc_comment, visible_alias = "base-port", value_name = "N",
        value_parser = value_parser!(u16).range(1..=i64::from(HIGHEST_BASE_PORT)))]
    port: Option<u16>,

    /// The partner, 0 to 7, that both peers belong to [default: 0]
    #[arg(long, global = true, value_name = "N",
        value_parser = value_parser!(u16).range(0..PARTNERS as i64))]
    partner: Option<u16>,

    /// Give up a transfer that stands still for so long; for the sender the
    /// time counts in which the receiver writes to its disk [default: never]
    #[arg(long, global = true, verbatim_doc_comment, value_name = "SECONDS",
        value_parser = value_parser!(u32).range(1..))]
    timeout: Option<u32>,

    /// Replace FILE if it exists
    #[arg(long, global = true, help_heading = "Options of 'receive'")]
    force: bool,

    /// A file that keeps the id from one run to the next
    #[arg(long, global = true, help_heading = "Options of 'receive'", value_name = "FILE")]
    cookie: Option<PathBuf>,

    /// Bytes of the file in each message, 1 to 65533 [default: 16384]
    #[arg(long, global = true, help_heading = "Options of 'send'", value_name = "N",
        value_parser = value_parser!(u16).range(1..=DATA_LIMIT as i64))]
    message_size: Option<u16>,
}

pub fn run(arguments: Arguments) -> Outcome {
    let Arguments { direction, options } = arguments;
    match direction {
        Direction::Receive { .. } if options.message_size.is_some() => {
            Err(Failure::Usage("'--message-size' is an option of 'send'".into()))
        }
        Direction::Receive { file } => receive(&file, &options),
        Direction::Send { .. } if options.force => Err(Failure::Usage("'--force' is an option of 'receive'".into())),
        Direction::Send { .. } if options.cookie.is_some() => {
            Err(Failure::Usage("'--cookie' is an option of 'receive'".into()))
        }
        Direction::Send { id, file } => send(id, &file, &options),
    }
}

fn receive(file: &Path, options: &Options) -> Outcome {
    let port = options.partner_port()?;
    PartFile::check(file, options.force).map_err(|error| in_the_way(file, error))?;
    options.cookie.as_deref().map_or(Ok(()), |cookie| check_apart(file, cookie))?;
    let watch = Watch::start("interrupted before the whole file had come")?;
    // The cookie file is this receiver's until it ends.
    let mut id = ReceiverId::new(options.cookie.as_deref())?;
    let peer = options.connect(port, &watch)?;
    let received = receive_at(peer, &mut id, file, options, &watch);
    let (peer, kept) = received.map_err(|failure| watch.explain(failure))?;
    part_with(peer, file, &kept, &watch);
    Ok(())
}

/// Waits for a sender and keeps its file. The sender isn't told yet.
fn receive_at(
    mut peer: Peer,
    id: &mut ReceiverId,
    file: &Path,
    options: &Options,
    watch: &Watch,
) -> Result<(Peer, Fingerprint), Failure> {
    let at_file = |error| failed_at(file, error);
    let mut part = PartFile::create(file, options.force).map_err(at_file)?;
    id.lease(&mut peer)?;
    id.await_session(&mut peer)?;
    let sent =
        show(|progress| receive_contents(&mut peer, &mut part, options.patience(), progress)).map_err(at_file)?;
    let kept = part.keep_on(&SystemDisk, &sent, || watch.interrupted()).map_err(at_file)?;
    Ok((peer, kept))
}

/// Tells the sender which file is kept, and parts. The file is there, so an error in this is only told.
fn part_with(mut peer: Peer, file: &Path, kept: &Fingerprint, watch: &Watch) {
    let complete = format!("'{}' is complete", file.display());
    match confirm(&mut peer, kept) {
        Ok(()) => {
            note(&complete);
            finish(peer);
        }
        Err(error) => {
            let why = if watch.interrupted() { "interrupted".into() } else { error.to_string() };
            note(&format!("{complete}, but the sender may not know: {why}"));
        }
    }
}

fn send(id: u32, path: &Path, options: &Options) -> Outcome {
    let port = options.partner_port()?;
    let size = options.message_size.map_or(MESSAGE_SIZE, usize::from);
    let file = open(path).map_err(|error| failed_at(path, error))?;
    let length = file.length();
    let watch = Watch::start("interrupted")?;
    let mut peer = options.connect(port, &watch)?;
    let sent = peer
        .establish(id)
        .and_then(|()| show(|progress| send_contents(&mut peer, file, length, size, options.patience(), progress)));
    sent.map_err(|error| watch.explain(failed_at(path, error)))?;
    note("the receiver has confirmed the whole file");
    finish(peer);
    Ok(())
}

/// The received file mustn't replace the cookie file, nor what that has beside it.
fn check_apart(file: &Path, cookie: &Path) -> Outcome {
    let (Some(file), Some(cookie)) = (place(file), place(cookie)) else { return Ok(()) };
    let why = match file {
        file if file == cookie => "FILE and the cookie file are the same",
        file if file == CookieFile::lock_path_of(&cookie) => "FILE has the name of the cookie file's lock",
        file if file == CookieFile::old_path_of(&cookie) => "FILE has the name under which an old cookie is kept",
        _ => return Ok(()),
    };
    Err(Failure::Usage(why.into()))
}

/// Where a file is or will be, whichever way it is told. None if there is no such folder.
fn place(path: &Path) -> Option<PathBuf> {
    let folder = path.parent().filter(|folder| !folder.as_os_str().is_empty()).unwrap_or(Path::new("."));
    path.canonicalize().ok().or_else(|| Some(folder.canonicalize().ok()?.join(path.file_name()?)))
}

/// A file to send.
fn open(path: &Path) -> Result<SourceFile, Error> {
    // What else a name can stand for has no length, and a pipe could make opening wait.
    if !path.metadata().map_err(Error::Read)?.is_file() {
        return Err(Error::NotPlain(path.to_owned()));
    }
    File::open(path).and_then(SourceFile::new).map_err(Error::Read)
}

impl Options {
    /// The port of the partner: told with the relay's address, or counted from that of partner 0.
    fn partner_port(&self) -> Result<u16, Failure> {
        match self.relay.port() {
            Some(_) if self.port.is_some() || self.partner.is_some() => Err(Failure::Usage(
                "with a port in '--relay', which is the partner's, '--port' and '--partner' may not be given".into(),
            )),
            Some(port) => Ok(port),
            None => Ok(self.port.unwrap_or(DEFAULT_BASE_PORT) + self.partner.unwrap_or(0)),
        }
    }

    /// Connects to the relay. From then on a signal closes the connection.
    fn connect(&self, port: u16, watch: &Watch) -> Result<Peer, Failure> {
        let host = self.relay.host();
        let peer = Peer::connect((host, port));
        let mut peer = peer.map_err(|error| Failure::Failed(format!("{host} port {port}: {error}")))?;
        watch.connected(peer.closer());
        // A disk or a terminal may make it wait.
        peer.keep_alive(SILENCE).map_err(failed)?;
        Ok(peer)
    }

    /// How long a transfer may stand still.
    fn patience(&self) -> Patience {
        let limit = self.timeout.map(|seconds| Duration::from_secs(seconds.into()));
        Patience { limit, ..Patience::default() }
    }
}

/// Shows how far a transfer in an established session is.
fn show<T>(transfer: impl FnOnce(&mut dyn FnMut(Progress)) -> Result<T, Error>) -> Result<T, Error> {
    note("the session is established");
    let mut meter = Meter::stderr();
    let outcome = transfer(&mut |progress| meter.update(progress));
    meter.end();
    outcome
}

/// The transfer is complete, so an error in parting changes nothing.
fn finish(peer: Peer) {
    let _ = peer.finish();
}

fn failed(error: Error) -> Failure {
    Failure::Failed(error.to_string())
}

fn failed_at(path: &Path, error: Error) -> Failure {
    Failure::Failed(named(path, &error))
}

fn in_the_way(path: &Path, error: Error) -> Failure {
    match error {
        Error::Exists(_) => Failure::Usage(format!("{error}; '--force' replaces it")),
        _ => Failure::Usage(named(path, &error)),
    }
}

/// The error, with the file's name if it is about the file.
fn named(path: &Path, error: &Error) -> String {
    match error.lacks_name() {
        true => format!("'{}': {error}", path.display()),
        false => error.to_string(),
    }
}
