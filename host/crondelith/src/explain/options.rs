//! The options of `crondelith explain`, and the call that they tell.

use std::path::PathBuf;

use clap::Args;
use engine::relay::RANDOM;
use server::calls::{relay_length, REPLY_LENGTH};

use super::call::Action;
use super::hex::Hex;
use super::{message, Kind};
use crate::{Failure, Outcome};

/// All of them global, so that they may stand anywhere after 'explain'.
#[derive(Args)]
pub struct Options {
    /// The connection's number; it has to be given
    #[arg(long, global = true, value_name = "N")]
    connection: Option<u64>,

    /// When the call comes, in whole seconds since 1970
    /// [default: the file's clock]
    #[arg(long, global = true, verbatim_doc_comment, value_name = "SECONDS")]
    pub time: Option<u64>,

    /// Print a JSON object
    #[arg(long, global = true)]
    pub json: bool,

    /// The message: two hex digits for each byte,
    /// with blanks or colons between bytes or without
    #[arg(long, global = true, verbatim_doc_comment, help_heading = "Options of 'message'")]
    hex: Option<Hex>,

    /// The file that holds the message; '-' is stdin
    #[arg(long, global = true, help_heading = "Options of 'message'")]
    file: Option<PathBuf>,

    /// The random bytes that it comes with
    /// [default: 80 fresh ones]
    #[arg(long, global = true, verbatim_doc_comment, value_name = "HEX", help_heading = "Options of 'message'")]
    random: Option<Hex>,

    /// Bytes that there is room for in the reply;
    /// of 'open', 'message' and 'keepalive' [default: 64]
    #[arg(long, global = true, verbatim_doc_comment, value_name = "N", help_heading = "Buffers")]
    reply_length: Option<u64>,

    /// Likewise in what is relayed; of 'message', 'close' and 'keepalive'
    /// [default: the message's length, or 64 if that is more]
    #[arg(long, global = true, verbatim_doc_comment, value_name = "N", help_heading = "Buffers")]
    relay_length: Option<u64>,
}

impl Options {
    /// Finds options that don't suit the call before anything is read. Gives the connection, which every call has.
    pub fn checked_for(&self, call: Kind) -> Result<u64, Failure> {
        self.check_suited(call)?;
        if call == Kind::Message {
            self.check_message()?;
        }
        self.connection.ok_or_else(|| Failure::Usage("'--connection' has to be given".into()))
    }

    fn check_suited(&self, call: Kind) -> Outcome {
        let is_message = call == Kind::Message;
        let unsuited = [
            ("'--hex' is an option of 'message'", self.hex.is_some() && !is_message),
            ("'--file' is an option of 'message'", self.file.is_some() && !is_message),
            ("'--random' is an option of 'message'", self.random.is_some() && !is_message),
            (
                "'--reply-length' is an option of 'open', 'message' and 'keepalive'",
                self.reply_length.is_some() && call == Kind::Close,
            ),
            (
                "'--relay-length' is an option of 'message', 'close' and 'keepalive'",
                self.relay_length.is_some() && call == Kind::Open,
            ),
        ];
        match unsuited.iter().find(|(_, unsuited)| *unsuited) {
            Some((why, _)) => Err(Failure::Usage((*why).into())),
            None => Ok(()),
        }
    }

    fn check_message(&self) -> Outcome {
        match (&self.hex, &self.file) {
            (Some(_), Some(_)) => Err(Failure::Usage("'--hex' and '--file' can't both be given".into())),
            (None, None) => Err(Failure::Usage("the message has to be given, by '--hex' or '--file'".into())),
            _ => Ok(()),
        }
    }

    /// What the call does, with what it brings.
    pub fn action(&self, call: Kind) -> Result<Action, Failure> {
        let reply_length = self.reply_length.unwrap_or(REPLY_LENGTH as u64);
        let relay_length = |message| self.relay_length.unwrap_or(relay_length(message) as u64);
        Ok(match call {
            Kind::Open => Action::Open { reply_length },
            Kind::Close => Action::Close { relay_length: relay_length(0) },
            Kind::Keepalive => Action::Keepalive { reply_length, relay_length: relay_length(0) },
            Kind::Message => {
                let (message, random) = (self.message()?, self.random()?);
                Action::Message { relay_length: relay_length(message.len()), message, random, reply_length }
            }
        })
    }

    fn message(&self) -> Result<Vec<u8>, Failure> {
        match (&self.hex, &self.file) {
            (None, Some(file)) => message::read(file),
            (hex, _) => Ok(hex.clone().map_or_else(Vec::new, |Hex(bytes)| bytes)),
        }
    }

    fn random(&self) -> Result<Vec<u8>, Failure> {
        if let Some(Hex(bytes)) = &self.random {
            return Ok(bytes.clone());
        }
        let mut bytes = vec![0; RANDOM];
        let failed = |error| Failure::Failed(format!("there are no random bytes: {error}"));
        getrandom::getrandom(&mut bytes).map_err(failed)?;
        Ok(bytes)
    }
}
