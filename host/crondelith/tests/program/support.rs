//! The program run as a user runs it.

use std::fs;
use std::io::{self, BufRead, BufReader, Read, Write};
use std::net::{TcpListener, TcpStream};
use std::path::{Path, PathBuf};
use std::process::{Child, ChildStderr, ChildStdout, Command, Stdio};
use std::sync::mpsc;
use std::thread;
use std::time::{Duration, Instant};

pub const PROGRAM: &str = env!("CARGO_BIN_EXE_crondelith");

/// How long the program may take to end.
const LIMIT: Duration = Duration::from_secs(10);
/// How long a line may take to come.
const LINE_LIMIT: Duration = Duration::from_secs(60);
/// How long a program is watched that shouldn't end.
pub const WHILE: Duration = Duration::from_millis(300);
const POLL: Duration = Duration::from_millis(10);
/// The bytes that a pipe holds.
const PIPE_SIZE: usize = 65_536;

/// The program, with SIGHUP as a terminal leaves it even if the tests run under nohup.
pub fn program(arguments: &[&str]) -> Command {
    program_as("--default-signal=HUP", arguments)
}

/// The program, with an option of env about signals.
pub fn program_as(signals: &str, arguments: &[&str]) -> Command {
    let mut command = Command::new("env");
    command.args([signals, PROGRAM]).args(arguments);
    command.stdin(Stdio::null()).stdout(Stdio::piped()).stderr(Stdio::piped());
    command
}

/// Runs the program to its end.
pub fn run(arguments: &[&str]) -> Ended {
    Running::start(&mut program(arguments)).end()
}

/// What is left of a run.
pub struct Ended {
    pub status: Option<i32>,
    /// What wasn't read before.
    pub stdout: String,
    pub stderr: String,
}

impl Ended {
    /// The last line of stderr.
    pub fn last_line(&self) -> &str {
        self.stderr.lines().last().unwrap_or_default()
    }
}

/// The program while it runs; it ends with the test.
pub struct Running {
    child: Child,
    stdout: Option<BufReader<ChildStdout>>,
    stderr: Option<BufReader<ChildStderr>>,
}

impl Running {
    pub fn start(command: &mut Command) -> Self {
        let mut child = command.spawn().expect("the program runs");
        let (stdout, stderr) = (child.stdout.take().map(BufReader::new), child.stderr.take().map(BufReader::new));
        Self { child, stdout, stderr }
    }

    /// Sends a signal, as a user does.
    pub fn signal(&self, name: &str) {
        self.shell(&format!("kill -{name}"));
    }

    pub fn id(&self) -> u32 {
        self.child.id()
    }

    /// From now on it may have so many file descriptors; those that it has it keeps.
    pub fn allow_descriptors(&self, count: u32) {
        self.shell(&format!("prlimit --nofile={count}: --pid"));
    }

    /// From now on its files may not become longer.
    pub fn allow_file_size(&self, bytes: u64) {
        self.shell(&format!("prlimit --fsize={bytes}: --pid"));
    }

    /// From now on it may have so many bytes of memory.
    pub fn allow_memory(&self, bytes: u64) {
        self.shell(&format!("prlimit --as={bytes}: --pid"));
    }

    /// Runs a command of the shell on the program's process.
    fn shell(&self, command: &str) {
        let done = Command::new("sh").args(["-c", &format!("{command} {}", self.child.id())]).status();
        assert!(done.expect("a shell").success(), "{command}");
    }

    /// The next line of stdout.
    pub fn line(&mut self) -> String {
        let line = next_line(&mut self.stdout, Instant::now() + LINE_LIMIT, "").expect("a line");
        line.trim().to_owned()
    }

    /// Waits for a line of stderr with this text. Gives the lines up to it, or None at the end.
    pub fn await_line(&mut self, text: &str) -> Option<String> {
        self.await_line_until(Instant::now() + LINE_LIMIT, text)
    }

    fn await_line_until(&mut self, deadline: Instant, text: &str) -> Option<String> {
        let (mut lines, mut last) = (String::new(), 0);
        while !lines[last..].contains(text) {
            last = lines.len();
            lines += &next_line(&mut self.stderr, deadline, &lines).ok().filter(|line| !line.is_empty())?;
        }
        Some(lines)
    }

    /// Whether it ends within the time.
    pub fn ends_within(&mut self, time: Duration) -> bool {
        becomes_true(time, || self.child.try_wait().expect("a child").is_some())
    }

    pub fn end(self) -> Ended {
        self.end_within(LIMIT)
    }

    pub fn end_within(mut self, limit: Duration) -> Ended {
        assert!(self.ends_within(limit), "the program goes on");
        let status = self.child.wait().expect("a child").code();
        Ended { status, stdout: rest(self.stdout.take()), stderr: rest(self.stderr.take()) }
    }
}

impl Drop for Running {
    fn drop(&mut self) {
        let _ = self.child.kill();
        let _ = self.child.wait();
    }
}

/// The next line of a stream, which is empty at its end. A test that waits in vain fails, and tells what came before.
fn next_line<T: BufRead + Send + 'static>(
    stream: &mut Option<T>,
    deadline: Instant,
    before: &str,
) -> io::Result<String> {
    let mut reader = stream.take().expect("a stream of the program");
    let (sender, receiver) = mpsc::channel();
    // Only a thread can be left waiting; it ends with the program.
    thread::spawn(move || {
        let mut line = String::new();
        let read = reader.read_line(&mut line).map(|_| line);
        let _ = sender.send((read, reader));
    });
    let received = receiver.recv_timeout(deadline.saturating_duration_since(Instant::now()));
    let (line, reader) = received.unwrap_or_else(|_| panic!("no further line came in time; before:\n{before}"));
    *stream = Some(reader);
    line
}

fn rest(stream: Option<impl Read>) -> String {
    let mut text = String::new();
    stream.map(|mut stream| stream.read_to_string(&mut text).expect("text"));
    text
}

/// Whether the condition comes to hold within the time.
pub fn becomes_true(time: Duration, mut condition: impl FnMut() -> bool) -> bool {
    let end = Instant::now() + time;
    while !condition() {
        if Instant::now() > end {
            return false;
        }
        thread::sleep(POLL);
    }
    true
}

/// A relay that serves.
pub struct Relay {
    pub program: Running,
    pub base_port: u16,
    /// What it has written to stderr at its start.
    pub first_lines: String,
}

impl Relay {
    pub fn start(options: &[&str]) -> Self {
        Self::start_as("--default-signal=HUP", options)
    }

    /// Likewise, with an option of env about signals.
    pub fn start_as(signals: &str, options: &[&str]) -> Self {
        at_free_ports(|base_port| {
            let port = base_port.to_string();
            let arguments = [&["serve", "--port", &port], options].concat();
            let mut program = Running::start(&mut program_as(signals, &arguments));
            let first_lines = program.await_line("run")?;
            Some(Self { program, base_port, first_lines })
        })
    }

    /// A peer of partner 3.
    pub fn peer(&self, arguments: &[&str]) -> Command {
        let mut command = program(&["peer"]);
        command.args(arguments).args(["--partner", "3", "--port", &self.base_port.to_string()]);
        command
    }

    /// A receiver that waits for a sender, and its id.
    pub fn receiver(&self, file: &Path, options: &[&str]) -> (Running, String) {
        let arguments = [&["receive", text(file)], options].concat();
        let mut receiver = Running::start(&mut self.peer(&arguments));
        let id = receiver.line();
        (receiver, id)
    }
}

/// A relay whose lines nobody takes from the pipe, and its first port. What comes with the pipe is kept.
pub fn start_unheard<T>(pipe: impl Fn() -> (Stdio, T)) -> (Running, u16, T) {
    at_free_ports(|port| {
        let (pipe, kept) = pipe();
        let mut relay = Running::start(program(&["serve", "--port", &port.to_string()]).stderr(pipe));
        let connects = || TcpStream::connect(("127.0.0.1", port + 7)).is_ok();
        // Another relay may have the port; then this one ends.
        let serves = becomes_true(Duration::from_secs(2), connects) && !relay.ends_within(WHILE);
        serves.then_some((relay, port, kept))
    })
}

/// Looks for eight ports in a row that are free.
fn at_free_ports<T>(start: impl Fn(u16) -> Option<T>) -> T {
    let free = || TcpListener::bind("127.0.0.1:0").and_then(|listener| listener.local_addr()).expect("a free port");
    let below = |port: &u16| *port <= u16::MAX - 7;
    (0..50).map(|_| free().port()).filter(below).find_map(start).expect("eight free ports in a row")
}

/// A folder of its own for a test.
pub fn folder(name: &str) -> PathBuf {
    let folder = Path::new(env!("CARGO_TARGET_TMPDIR")).join(name);
    let _ = fs::remove_dir_all(&folder);
    fs::create_dir_all(&folder).expect("a folder for the test");
    folder
}

/// How many files a folder has.
pub fn files(folder: &Path) -> usize {
    fs::read_dir(folder).expect("the folder").count()
}

/// A path as an argument.
pub fn text(path: &Path) -> &str {
    path.to_str().expect("a path of UTF-8")
}

/// A file of so many bytes, which don't repeat soon.
pub fn write_file(path: &Path, length: u64) -> Vec<u8> {
    let contents: Vec<u8> = (0..length).map(|place| (place * place / 7) as u8).collect();
    fs::write(path, &contents).expect("a file");
    contents
}

/// A pipe that nobody reads any more.
pub fn broken_pipe() -> Stdio {
    let mut reader = Command::new("true").stdin(Stdio::piped()).spawn().expect("true");
    let pipe = reader.stdin.take().expect("a pipe");
    reader.wait().expect("its end");
    pipe.into()
}

/// A pipe that takes nothing, while what comes with it lives.
pub fn full_pipe() -> (Stdio, Running) {
    let mut reader = Running::start(Command::new("sleep").arg("60").stdin(Stdio::piped()));
    let mut pipe = reader.child.stdin.take().expect("a pipe");
    pipe.write_all(&[0; PIPE_SIZE]).expect("room for as much as a pipe holds");
    (pipe.into(), reader)
}

#[test]
#[should_panic(expected = "no further line came in time; before:\nfirst\nsecond\n")]
fn a_test_that_waits_for_a_line_in_vain_fails() {
    let mut shell = Command::new("sh");
    shell.args(["-c", "echo first >&2; echo second >&2; exec sleep 60"]).stderr(Stdio::piped());
    Running::start(&mut shell).await_line_until(Instant::now() + Duration::from_secs(2), "third");
}
