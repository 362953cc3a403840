//! The peer against a relay of the tests' own, its progress line and its files.

mod address;
mod connection;
mod cookie_file;
mod digest;
mod extensions;
mod keepalives;
mod part_file;
mod patience;
mod progress;
mod support;
mod transfer;
