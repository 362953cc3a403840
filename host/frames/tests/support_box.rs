//! examples/support_box.c, compiled as its first lines say and run: what it prints, and its exit statuses.

use std::fs::File;
use std::io::Write;
use std::path::{Path, PathBuf};
use std::process::{Child, Command, Stdio};
use std::sync::OnceLock;
use std::thread;

/// Where the program is.
fn program() -> &'static Path {
    static PROGRAM: OnceLock<PathBuf> = OnceLock::new();
    PROGRAM.get_or_init(compile)
}

fn compile() -> PathBuf {
    let repository = Path::new(env!("CARGO_MANIFEST_DIR")).join("../..");
    let program = Path::new(env!("CARGO_TARGET_TMPDIR")).join("support_box");
    let compiler = std::env::var("CC").unwrap_or("cc".into());
    let status = Command::new(compiler)
        .args(["-std=c11", "-Wall", "-Wextra", "-Werror", "-pedantic", "-I"])
        .arg(repository.join("include"))
        .arg("-o")
        .args([&program, &repository.join("examples/support_box.c")])
        .args([engine::frames::ARCHIVE, engine::svsc::ARCHIVE])
        .status();
    assert!(status.expect("a C compiler is needed").success());
    program
}

/// How a run ended.
#[derive(Debug, PartialEq)]
struct Run {
    status: Option<i32>,
    printed: String,
    told: String,
}

fn start(arguments: &[&str], output: Stdio) -> Child {
    let mut command = Command::new(program());
    command.args(arguments).stdin(Stdio::piped()).stdout(output).stderr(Stdio::piped());
    command.spawn().expect("the program runs")
}

fn finish(child: Child) -> Run {
    let output = child.wait_with_output().expect("an end");
    let text = |bytes| String::from_utf8(bytes).expect("text");
    Run { status: output.status.code(), printed: text(output.stdout), told: text(output.stderr) }
}

/// Feeds it a stream, so many bytes at a time.
fn run(stream: &[u8], at_a_time: usize) -> Run {
    let mut child = start(&[], Stdio::piped());
    let mut input = child.stdin.take().expect("its input");
    let pieces = stream.chunks(at_a_time).map(<[u8]>::to_vec).collect::<Vec<_>>();
    let feeding = thread::spawn(move || {
        // It reads nothing more of a stream that it has refused.
        let _ = pieces.iter().try_for_each(|piece| input.write_all(piece));
    });
    let run = finish(child);
    feeding.join().expect("all is fed");
    run
}

/// A message's frame, by section 3.1.
fn frame(message: &[u8]) -> Vec<u8> {
    let [high, low] = (message.len() as u16 + 1).to_be_bytes();
    [&[high, low, 1], message].concat()
}

/// Every form of every message, and some that are none, with their lines. Fields of bytes are of letters.
fn messages() -> Vec<(Vec<u8>, &'static str)> {
    let (id, expiration) = (12_345_678_u32.to_be_bytes(), 1_794_813_466_u64.to_be_bytes());
    let (cookie, session) = ([b'C'; 24], [b'K'; 48]);
    vec![
        (b"\0SVSC 001.000".to_vec(), "ProtocolVersion: version 1.0"),
        (b"\0SVSC 012.999".to_vec(), "ProtocolVersion: version 12.999"),
        (vec![1, 1], "VersionAnswer: ok"),
        (vec![1, 0], "VersionAnswer: not ok"),
        (vec![2, 0], "LeaseRequest: without a cookie"),
        ([&[2, 1][..], &cookie].concat(), "LeaseRequest: with a cookie"),
        (
            [&[3, 1][..], &id, &cookie, &expiration].concat(),
            "LeaseResponse: accepted, id 12345678, expires at 1794813466",
        ),
        (vec![3, 0], "LeaseResponse: refused"),
        ([&[4][..], &cookie].concat(), "LeaseExtensionRequest"),
        ([&[5, 1][..], &expiration].concat(), "LeaseExtensionResponse: extended, expires at 1794813466"),
        ([&[5, 1][..], &[255; 8]].concat(), "LeaseExtensionResponse: extended, expires at 18446744073709551615"),
        (vec![5, 0], "LeaseExtensionResponse: refused"),
        ([&[6][..], &id].concat(), "EstablishSessionRequest: id 12345678"),
        (vec![6, 255, 255, 255, 255], "EstablishSessionRequest: id 4294967295"),
        ([&[7][..], &id, &[0], &session].concat(), "EstablishSessionResponse: status 0, id 12345678"),
        ([&[7][..], &id, &[4]].concat(), "EstablishSessionResponse: status 4, id 12345678"),
        ([&[8][..], &session].concat(), "EstablishSessionNotification"),
        (vec![9], "SessionEnd"),
        (vec![10], "SessionEndNotification"),
        (b"\x0bhi".to_vec(), "SessionDataSend: 2 bytes of data"),
        (vec![11; 65_534], "SessionDataSend: 65533 bytes of data"),
        (vec![12], "SessionDataReceive: 0 bytes of data"),
        (vec![13], "Keepalive"),
        (vec![], "not a message: 0 bytes"),
        (vec![14], "not a message: 1 bytes"),
        (vec![13; 65_534], "not a message: 65534 bytes"),
    ]
}

/// The stream of these messages, and their lines.
fn stream() -> (Vec<u8>, String) {
    let messages = messages();
    let bytes = messages.iter().flat_map(|(message, _)| frame(message)).collect();
    (bytes, messages.iter().map(|(_, line)| format!("{line}\n")).collect())
}

#[test]
fn every_message_is_a_line_however_the_stream_is_cut() {
    let (bytes, printed) = stream();
    for at_a_time in [1, 3, 4_096, 100_000] {
        let expected = Run { status: Some(0), printed: printed.clone(), told: String::new() };
        assert_eq!(run(&bytes, at_a_time), expected, "{at_a_time} at a time");
    }
}

#[test]
fn cookies_and_keys_are_not_printed() {
    let (bytes, _) = stream();
    let printed = run(&bytes, 4_096).printed;
    assert!(!["CC", "KK", "4343", "4b4b", "4B4B"].iter().any(|secret| printed.contains(secret)), "{printed}");
}

#[test]
fn an_empty_stream_has_no_lines() {
    assert_eq!(run(&[], 1), Run { status: Some(0), printed: String::new(), told: String::new() });
}

#[test]
fn a_line_comes_as_soon_as_its_message() {
    let mut child = start(&[], Stdio::piped());
    let mut input = child.stdin.take().expect("its input");
    let mut output = std::io::BufReader::new(child.stdout.take().expect("its output"));
    for (message, expected) in [(&[9][..], "SessionEnd\n"), (&[13], "Keepalive\n")] {
        input.write_all(&frame(message)).expect("it reads");
        let mut line = String::new();
        std::io::BufRead::read_line(&mut output, &mut line).expect("a line");
        assert_eq!(line, expected);
    }
    drop(input);
    assert_eq!(finish(child).status, Some(0));
}

/// What comes after a keepalive, and what is told of it.
const DAMAGED: [(&[u8], &str); 7] = [
    (&[0, 0], "no frame, as byte 6 shows: its length is 0, or its type isn't 1"),
    (&[0, 0, 1, 0, 2, 1, 13], "no frame, as byte 6 shows: its length is 0, or its type isn't 1"),
    (&[0, 2, 2, 13], "no frame, as byte 7 shows: its length is 0, or its type isn't 1"),
    (&[0], "the stream ends within a frame, after byte 5"),
    (&[0, 2], "the stream ends within a frame, after byte 6"),
    (&[0, 3, 1], "the stream ends within a frame, after byte 7"),
    (&[0, 3, 1, 13], "the stream ends within a frame, after byte 8"),
];

#[test]
fn a_damaged_or_cut_stream_is_told_with_its_place_after_the_lines_before() {
    for (bytes, told) in DAMAGED {
        for at_a_time in [1, 2, 100] {
            let expected =
                Run { status: Some(1), printed: "Keepalive\n".into(), told: format!("support_box: {told}\n") };
            assert_eq!(run(&[&[0, 2, 1, 13], bytes].concat(), at_a_time), expected, "{bytes:?}");
        }
    }
}

/// Beyond the first chunk that is read, and within the longest message.
#[test]
fn a_place_is_counted_over_all_that_was_read() {
    let longest = frame(&vec![12; 65_534]);
    let cut = run(&[&longest[..], &longest[..65_000]].concat(), 5_000);
    assert_eq!(cut.printed, "SessionDataReceive: 65533 bytes of data\n");
    assert_eq!(cut.told, "support_box: the stream ends within a frame, after byte 130537\n");
    let damaged = run(&[&longest[..], &longest, &[0, 9, 0]].concat(), 5_000);
    assert!(damaged.status == Some(1) && damaged.told.contains("byte 131077 shows"), "{damaged:?}");
}

#[test]
fn help_is_printed_and_other_arguments_are_wrong() {
    let help = finish(start(&["--help"], Stdio::piped()));
    assert!(help.status == Some(0) && help.printed.starts_with("Usage: support_box") && help.told.is_empty());
    for arguments in [&["-h"][..], &["file"], &["--help", "--help"], &[""]] {
        let wrong = finish(start(arguments, Stdio::piped()));
        assert!(wrong.status == Some(2) && wrong.printed.is_empty() && wrong.told.contains("--help"), "{wrong:?}");
    }
}

#[test]
fn what_cannot_be_printed_or_read_is_told() {
    for arguments in [&[][..], &["--help"]] {
        let mut child = start(arguments, File::create("/dev/full").expect("a full disk").into());
        // Who only asks for help reads nothing.
        let _ = child.stdin.take().expect("its input").write_all(&frame(&[13]));
        let full = finish(child);
        assert!(full.status == Some(1) && full.told.starts_with("support_box: standard output: "), "{full:?}");
    }
    let folder = File::open("/").expect("a folder");
    let mut command = Command::new(program());
    let output = command.stdin(folder).stderr(Stdio::piped()).stdout(Stdio::piped()).spawn();
    let unread = finish(output.expect("the program runs"));
    assert!(
        unread.status == Some(1) && unread.told.starts_with("support_box: standard input, after byte 0: "),
        "{unread:?}"
    );
}
