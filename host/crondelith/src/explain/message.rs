//! The bytes of a message from a file or from stdin.

use std::fs::File;
use std::io::{self, stdin, Read};
use std::path::Path;

use peer::grouped;

use crate::Failure;

/// Bytes that are read at most: many more than a message can have, so that one which is too long can be asked about.
const LIMIT: u64 = 1 << 20;

/// What the file holds; '-' is stdin.
pub fn read(path: &Path) -> Result<Vec<u8>, Failure> {
    let bytes = match path.to_str() {
        Some("-") => read_some(stdin().lock()),
        _ => File::open(path).and_then(read_some),
    };
    let named = |why: String| format!("the message of '{}': {why}", path.display());
    let bytes = bytes.map_err(|error| Failure::Failed(named(error.to_string())))?;
    if bytes.len() as u64 > LIMIT {
        let limit = grouped(LIMIT);
        return Err(Failure::Usage(named(format!("it has more than {limit} bytes, which is too much to ask about"))));
    }
    Ok(bytes)
}

/// Not much more than the limit, since a file may have no end.
fn read_some(source: impl Read) -> io::Result<Vec<u8>> {
    let mut bytes = Vec::new();
    source.take(LIMIT + 1).read_to_end(&mut bytes).map(|_| bytes)
}
