//! The program as its users see it: what it prints, its exit statuses, a file through a relay, the signals.

mod arguments;
mod bad_days;
mod cookies;
mod demo;
mod explain;
mod journal;
mod lease_term;
mod outputs;
mod serve;
mod serve_journal;
mod signals;
mod support;
mod transfer;
