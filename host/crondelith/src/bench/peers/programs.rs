//! The programs that are measured: ours, and those of the proxies that are installed.

use std::env;
use std::path::{Path, PathBuf};

use super::child::JUMPING;
use super::proxies::{self, Proxy};
use crate::say;

/// Where a program for administrators is that the user's path doesn't hold.
const SYSTEM_PROGRAMS: &str = "/usr/sbin";

#[derive(Clone)]
pub enum Program {
    /// Our relay, with this clock.
    Crondelith(&'static str),
    Proxy(&'static Proxy, PathBuf),
}

impl Program {
    pub fn name(&self) -> &'static str {
        match self {
            Self::Crondelith(_) => "crondelith",
            Self::Proxy(proxy, _) => proxy.name,
        }
    }
}

/// Ours first, then the proxies. Says which are left out.
pub fn installed() -> Vec<Program> {
    let (found, missing): (Vec<_>, Vec<_>) =
        proxies::ALL.iter().map(|proxy| (proxy, find(proxy.name))).partition(|(_, path)| path.is_some());
    let missing = missing.iter().map(|(proxy, _)| proxy.name).collect::<Vec<_>>();
    if !missing.is_empty() {
        say(format_args!("Left out, since not installed: {}.\n", missing.join(", ")));
    }
    let found = found.into_iter().filter_map(|(proxy, path)| Some(Program::Proxy(proxy, path?)));
    [Program::Crondelith(JUMPING)].into_iter().chain(found).collect()
}

fn find(name: &str) -> Option<PathBuf> {
    let path = env::var_os("PATH").unwrap_or_default();
    let folders = env::split_paths(&path).chain([Path::new(SYSTEM_PROGRAMS).into()]);
    folders.map(|folder| folder.join(name)).find(|file| file.is_file())
}
