//! The benchmark against other relays, briefly: all is measured and printed, and no process is left.

use std::io::{BufRead, BufReader, Read};
use std::os::unix::process::CommandExt;
use std::path::Path;
use std::process::{Child, Command, Stdio};
use std::time::{Duration, Instant};
use std::{fs, thread};

const PROGRAM: &str = env!("CARGO_BIN_EXE_crondelith");
const WAIT: Duration = Duration::from_secs(20);

/// The cells of each row that begins with a bar.
fn rows(printed: &str) -> Vec<Vec<&str>> {
    let lines = printed.lines().filter_map(|line| line.strip_prefix("| ")?.strip_suffix(" |"));
    lines.map(|line| line.split(" | ").collect()).collect()
}

#[test]
fn every_figure_of_ours_is_measured_and_every_aim_judged() {
    let output = Command::new(PROGRAM).args(["bench", "--peers", "--brief"]).output().expect("the program runs");
    let (printed, told) = (String::from_utf8_lossy(&output.stdout), String::from_utf8_lossy(&output.stderr));
    assert_eq!(output.status.code(), Some(0), "{told}");
    let rows = rows(&printed);
    let ours = rows.iter().filter(|row| row[0].starts_with("crondelith ")).count();
    assert_eq!(ours, 3, "{printed}");
    let measured = rows.iter().filter(|row| row[1].parse::<f64>().is_ok()).count();
    assert!(measured >= 13, "{printed}\n{told}");
    let aims: Vec<_> = printed.lines().filter(|line| line.starts_with("- ")).collect();
    assert_eq!(aims.len(), 11, "{printed}");
    assert!(aims.iter().all(|aim| aim.contains("met (") || aim.ends_with("not measured (-)")), "{printed}");
}

/// A process of the benchmark, which leads a group as it does there.
fn start(words: &[&str]) -> Child {
    let mut command = Command::new(PROGRAM);
    command.arg("bench-relay").args(words).stdin(Stdio::piped()).stdout(Stdio::piped()).process_group(0);
    command.spawn().expect("the program runs")
}

/// Whether a process with this argument runs.
fn runs(argument: &str) -> bool {
    let processes = fs::read_dir("/proc").expect("the processes");
    let lines = processes.filter_map(|process| fs::read(process.ok()?.path().join("cmdline")).ok());
    lines.into_iter().any(|line| line.split(|byte| *byte == 0).any(|word| word == argument.as_bytes()))
}

fn await_end(argument: &str) {
    let end = Instant::now() + WAIT;
    while runs(argument) {
        assert!(Instant::now() < end, "'{argument}' runs on");
        thread::sleep(Duration::from_millis(10));
    }
}

#[test]
fn a_relay_ends_with_its_input() {
    let mut relay = start(&["serve", "jumping"]);
    let output = BufReader::new(relay.stdout.take().expect("its output"));
    assert_eq!(output.lines().take(8).filter(|line| line.is_ok()).count(), 8, "an address for each partner");
    drop(relay.stdin.take());
    assert!(relay.wait().expect("an end").success());
}

#[test]
fn a_guarded_program_ends_with_the_input_of_its_guard() {
    // A time that no other process sleeps.
    let time = "86399.125";
    let folder = Path::new(env!("CARGO_TARGET_TMPDIR")).join("guarded");
    fs::create_dir_all(&folder).expect("a folder for the test");
    let path = folder.to_str().expect("a path");
    let mut guard = start(&["guard", path, "sh", "-c", &format!("echo begun; sleep {time}")]);
    let mut begun = [0; 6];
    guard.stdout.take().expect("its output").read_exact(&mut begun).expect("its first line");
    drop(guard.stdin.take());
    guard.wait().expect("an end");
    await_end(time);
    assert!(!folder.exists(), "its folder is left");
}
