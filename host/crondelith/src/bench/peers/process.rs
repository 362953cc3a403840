//! A relay's process, from the benchmark's side. It ends with the benchmark, however that ends.
//!
//! The program is started again by a word that its help doesn't tell, and is the relay or starts it. Its input is a
//! pipe that closes with the process that holds the other end. It leads a process group, to which a proxy's workers and
//! forks belong as well: they end together, and what they use is added up.

use std::ffi::OsString;
use std::fs::File;
use std::io::{self, BufRead, BufReader};
use std::net::SocketAddr;
use std::os::unix::process::CommandExt;
use std::path::Path;
use std::process::{Child, Command, Stdio};

use rustix::process::{kill_process_group, Pid, Signal};
use server::PARTNERS;

use super::child::{GUARD, SERVE, WORD};
use super::usage;

/// A process that is killed when it is dropped.
pub struct Process {
    leader: Child,
    /// The leader is no part of a proxy.
    leader_counts: bool,
}

impl Process {
    /// Our relay, and its address for each partner.
    pub fn serve(clock: &str) -> io::Result<(Self, Vec<SocketAddr>)> {
        let leader = command(SERVE)?.arg(clock).stdout(Stdio::piped()).stderr(Stdio::null()).spawn()?;
        let mut process = Self { leader, leader_counts: true };
        let addresses = process.addresses()?;
        Ok((process, addresses))
    }

    fn addresses(&mut self) -> io::Result<Vec<SocketAddr>> {
        let output = self.leader.stdout.take().ok_or(io::ErrorKind::BrokenPipe)?;
        let parsed = |line: io::Result<String>| line?.parse().map_err(io::Error::other);
        let lines = BufReader::new(output).lines().take(PARTNERS);
        let addresses = lines.map(parsed).collect::<io::Result<Vec<_>>>()?;
        (addresses.len() == PARTNERS).then_some(addresses).ok_or_else(|| io::Error::other("not started"))
    }

    /// Another program. The folder is its own; what it has to say goes to the log.
    pub fn guard(folder: &Path, program: &Path, arguments: &[OsString], log: File) -> io::Result<Self> {
        let mut command = command(GUARD)?;
        let leader = command.args([folder, program]).args(arguments).stdout(Stdio::null()).stderr(log).spawn()?;
        Ok(Self { leader, leader_counts: false })
    }

    pub fn cpu_seconds(&self) -> io::Result<f64> {
        self.total(usage::cpu_seconds)
    }

    pub fn resident_kib(&self) -> io::Result<f64> {
        self.total(usage::resident_kib)
    }

    fn total(&self, of_one: fn(u32) -> io::Result<f64>) -> io::Result<f64> {
        let leader = self.leader.id();
        let mut members = usage::group(leader)?;
        members.retain(|member| self.leader_counts || *member != leader);
        if members.is_empty() {
            return Err(io::Error::other("the relay has ended"));
        }
        members.into_iter().map(|member| usage::unless_ended(of_one(member))).sum()
    }
}

impl Drop for Process {
    fn drop(&mut self) {
        // All of them may have ended by themselves.
        let _ = kill_process_group(Pid::from_child(&self.leader), Signal::Kill);
        let _ = self.leader.wait();
    }
}

fn command(role: &str) -> io::Result<Command> {
    let mut command = Command::new(std::env::current_exe()?);
    command.arg(WORD).arg(role).stdin(Stdio::piped()).process_group(0);
    Ok(command)
}
