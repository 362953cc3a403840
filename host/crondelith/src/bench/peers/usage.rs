//! What processes use, from /proc.

use std::{fs, io};

/// Of a second: the unit of times there.
const TICKS: f64 = 100.0;

/// Places in `stat`, counted from the field after the program's name.
const STATE: usize = 0;
const GROUP: usize = 2;
/// The user's and the system's time, and those of children that have ended.
const TIMES: std::ops::Range<usize> = 11..15;

/// An ended process, which its parent hasn't noticed yet and which has no memory any more.
const ENDED: &str = "Z";

/// The system's errors for a process that isn't there.
const NO_ENTRY: i32 = 2;
const NO_PROCESS: i32 = 3;

/// The processes of a group.
pub fn group(leader: u32) -> io::Result<Vec<u32>> {
    let leader = leader.to_string();
    let number = |entry: io::Result<fs::DirEntry>| entry.ok()?.file_name().to_str()?.parse().ok();
    let is_member =
        |id: &u32| stat(*id).is_ok_and(|fields| fields.get(GROUP) == Some(&leader) && fields[STATE] != ENDED);
    Ok(fs::read_dir("/proc")?.filter_map(number).filter(is_member).collect())
}

/// A process may end between two looks, and uses nothing then.
pub fn unless_ended(used: io::Result<f64>) -> io::Result<f64> {
    used.or_else(|error| match error.raw_os_error() {
        Some(NO_ENTRY | NO_PROCESS) => Ok(0.0),
        _ => Err(error),
    })
}

/// Of all its threads.
pub fn cpu_seconds(process: u32) -> io::Result<f64> {
    let fields = stat(process)?;
    let times = fields.get(TIMES).ok_or(io::ErrorKind::InvalidData)?;
    let ticks = times.iter().map(|field| field.parse::<f64>().map_err(io::Error::other)).sum::<io::Result<f64>>()?;
    Ok(ticks / TICKS)
}

/// Pages that processes share count for each of them.
pub fn resident_kib(process: u32) -> io::Result<f64> {
    let text = fs::read_to_string(format!("/proc/{process}/smaps_rollup"))?;
    let line = text.lines().find_map(|line| line.strip_prefix("Rss:"));
    let number = line.and_then(|line| line.split_whitespace().next()?.parse().ok());
    number.ok_or(io::ErrorKind::InvalidData.into())
}

/// The fields after the name, which is in brackets and may hold anything.
fn stat(process: u32) -> io::Result<Vec<String>> {
    let text = fs::read_to_string(format!("/proc/{process}/stat"))?;
    let (_, fields) = text.rsplit_once(')').ok_or(io::ErrorKind::InvalidData)?;
    Ok(fields.split_whitespace().map(str::to_owned).collect())
}
