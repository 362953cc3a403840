//! Lines on stdout and stderr. That nobody reads them any more is no reason to fail.

use std::fmt::Display;
use std::io::{self, stderr, stdout, BufWriter, Write};

use serde_json::Value;

pub fn say(line: impl Display) {
    let _ = writeln!(stdout(), "{line}");
}

/// What a command is asked for, on stdout. That it can't be kept, on a full disk say, is a reason to fail.
pub fn tell(text: impl Display) -> io::Result<()> {
    tell_all([text])
}

/// Likewise in many lines. The rest isn't asked for when nobody reads them any more.
pub fn tell_all(lines: impl IntoIterator<Item = impl Display>) -> io::Result<()> {
    let mut out = BufWriter::new(stdout().lock());
    let told = lines.into_iter().try_for_each(|line| writeln!(out, "{line}")).and_then(|()| out.flush());
    match told {
        Err(error) if error.kind() != io::ErrorKind::BrokenPipe => Err(error),
        _ => Ok(()),
    }
}

/// A JSON object of the fields that apply.
pub fn known<'a>(fields: impl IntoIterator<Item = (&'a str, Value)>) -> Value {
    let fields = fields.into_iter().filter(|(_, value)| !value.is_null());
    Value::Object(fields.map(|(name, value)| (name.to_owned(), value)).collect())
}

pub fn note(line: &str) {
    write_line(&format!("crondelith: {line}"));
}

/// A line on stderr as it is, in one write, so that lines of several threads or programs don't mix.
pub fn write_line(line: &str) {
    let _ = stderr().write_all(format!("{line}\n").as_bytes());
}
