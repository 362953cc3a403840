//! The limit of file descriptors, looked at before a connection could meet it.

use std::io;

use rustix::process::{getrlimit, setrlimit, Resource, Rlimit};

/// Descriptors beside sockets: the standard three, the poll's, the log's, the state file's and some for libraries.
const OTHERS: u64 = 32;

/// Makes sure that the process may have so many sockets; raises its limit where that is allowed.
pub fn ensure(sockets: usize) -> io::Result<()> {
    let needed = sockets as u64 + OTHERS;
    let Rlimit { current, maximum } = getrlimit(Resource::Nofile);
    if current.is_none_or(|current| current >= needed) {
        return Ok(());
    }
    if maximum.is_some_and(|maximum| maximum < needed) {
        return Err(too_few(needed, maximum.unwrap_or_default()));
    }
    setrlimit(Resource::Nofile, Rlimit { current: Some(needed), maximum })
        .map_err(|_| too_few(needed, current.unwrap_or_default()))
}

fn too_few(needed: u64, limit: u64) -> io::Error {
    io::Error::other(format!("the relay needs {needed} file descriptors, and the limit is {limit} (ulimit -n)"))
}
