//! Help, and what the command line takes and refuses.

use std::fs;
use std::net::TcpListener;

use crate::support::{folder, run, text, PROGRAM};

/// The words that lead to a command, and one of its help.
const COMMANDS: [(&[&str], &str); 14] = [
    (&[], "crondelith <COMMAND>"),
    (&["serve"], "crondelith serve [OPTIONS]"),
    (&["peer"], "crondelith peer [OPTIONS] <COMMAND>"),
    (&["peer", "receive"], "crondelith peer receive [OPTIONS] <FILE>"),
    (&["peer", "send"], "crondelith peer send [OPTIONS] <ID> <FILE>"),
    (&["explain"], "crondelith explain [OPTIONS] <STATE> <COMMAND>"),
    (&["explain", "open"], "crondelith explain <STATE> open [OPTIONS]"),
    (&["explain", "message"], "crondelith explain <STATE> message [OPTIONS]"),
    (&["explain", "close"], "crondelith explain <STATE> close [OPTIONS]"),
    (&["explain", "keepalive"], "crondelith explain <STATE> keepalive [OPTIONS]"),
    (&["journal"], "crondelith journal [OPTIONS] <FILE>"),
    (&["journal", "show"], "crondelith journal show [OPTIONS] <FILE>"),
    (&["demo"], "crondelith demo"),
    (&["bench"], "crondelith bench [OPTIONS]"),
];
const COLUMNS: usize = 100;

fn help(arguments: &[&str], usage: &str) -> String {
    let ended = run(arguments);
    assert_eq!(ended.status, Some(0), "{arguments:?}");
    assert!(ended.stdout.lines().any(|line| line == format!("Usage: {usage}")), "{arguments:?}: {}", ended.stdout);
    assert!(ended.stdout.lines().all(|line| line.len() <= COLUMNS), "{arguments:?}: {}", ended.stdout);
    assert_eq!(ended.stderr, "", "{arguments:?}");
    ended.stdout
}

#[test]
fn every_command_has_help() {
    for (command, usage) in COMMANDS {
        let long = help(&[command, &["--help"]].concat(), usage);
        assert_eq!(help(&[&["help"], command].concat(), usage), long);
        help(&[command, &["-h"]].concat(), usage);
        assert!(long.contains("exit status"), "{command:?}: {long}");
    }
}

#[test]
fn the_help_shows_every_default() {
    let defaults: [(&str, &[&str]); 4] = [
        ("serve", &["127.0.0.1", "7700", "none", "none", "600", "text"]),
        ("peer", &["127.0.0.1", "7700", "0", "never", "16384"]),
        ("explain", &["the file's clock", "80 fresh ones", "64", "the message's length, or 64 if that is more"]),
        ("journal", &["as FILE.start says", "as FILE.start says, or 600"]),
    ];
    for (command, defaults) in defaults {
        let help = run(&["help", command]).stdout;
        let shown: Vec<_> = help.split("[default: ").skip(1).filter_map(|rest| rest.split(']').next()).collect();
        assert_eq!(shown, defaults, "{help}");
    }
}

#[test]
fn the_version_is_printed() {
    let ended = run(&["--version"]);
    assert_eq!(ended.status, Some(0));
    assert_eq!(ended.stdout, concat!("crondelith ", env!("CARGO_PKG_VERSION"), "\n"));
}

/// Arguments, and the reason why they are wrong.
const WRONG: [(&[&str], &str); 72] = [
    (&[], "'crondelith' requires a subcommand"),
    (&["dance"], "'dance' wasn't recognized"),
    (&["help", "dance"], "'dance' wasn't recognized"),
    (&["serve", "surplus"], "'surplus' which wasn't expected"),
    (&["serve", "--partner", "1"], "'--partner' which wasn't expected"),
    (&["serve", "--port"], "'--port <N>' requires a value"),
    (&["serve", "--base-port", "x"], "'x' for '--port <N>'"),
    (&["serve", "--port=65529"], "65529 is not in 1..=65528"),
    (&["serve", "--port", "0"], "0 is not in 1..=65528"),
    (&["serve", "--port", "1", "--base-port", "2"], "more than once"),
    (&["serve", "--listen", "localhost"], "'localhost' for '--listen <ADDRESS>'"),
    (&["serve", "--lease-term"], "'--lease-term <SECONDS>' requires a value"),
    (&["serve", "--lease-term", "599"], "a lease's term is 600 to 86400 seconds"),
    (&["serve", "--lease-term", "600", "--lease-term", "600"], "more than once"),
    (&["serve", "--log", "xml"], "'xml' isn't a valid value for '--log <FORMAT>'"),
    (&["demo", "--fast"], "'--fast' which wasn't expected"),
    (&["bench", "all"], "'all' which wasn't expected"),
    (&["peer"], "'crondelith peer' requires a subcommand"),
    (&["peer", "dance"], "'dance' wasn't recognized"),
    (&["peer", "receive"], "<FILE>"),
    (&["peer", "send", "5"], "<FILE>"),
    (&["peer", "send"], "<ID>"),
    (&["peer", "send", "five", "file"], "'five' for '<ID>'"),
    // After two dashes nothing is an option.
    (&["peer", "send", "six", "--", "--help"], "'six' for '<ID>'"),
    (&["peer", "send", "5", "file", "--partner", "8"], "'8' for '--partner <N>'"),
    (&["peer", "send", "5", "file", "--message-size", "65534"], "65534 is not in 1..=65533"),
    (&["peer", "send", "5", "file", "--timeout", "0"], "'0' for '--timeout <SECONDS>'"),
    (&["peer", "receive", "file", "surplus"], "'surplus' which wasn't expected"),
    (&["peer", "receive", "file", "--relay", "here:0"], "'here:0' for '--relay <ADDRESS>'"),
    (&["peer", "receive", "file", "--relay", "::1:x"], "'::1:x' for '--relay <ADDRESS>'"),
    (&["peer", "receive", "file", "--relay", "[::1]:7700", "--partner", "1"], "a port in '--relay'"),
    (&["peer", "--port", "7", "receive", "file", "--relay=localhost:7700"], "a port in '--relay'"),
    (&["peer", "receive", "file", "--message-size", "9"], "'--message-size' is an option of 'send'"),
    (&["peer", "--force", "send", "5", "file"], "'--force' is an option of 'receive'"),
    (&["peer", "send", "5", "file", "--cookie", "c"], "'--cookie' is an option of 'receive'"),
    (&["peer", "receive", "file", "--cookie"], "'--cookie <FILE>' requires a value"),
    (&["peer", "receive", "file", "--cookie", "c", "--cookie", "d"], "more than once"),
    (&["peer", "receive", "file", "--cookie", "./file"], "FILE and the cookie file are the same"),
    (&["peer", "receive", "file", "--cookie", "/"], "the cookie file '/': it has to be the name of a file"),
    (&["explain"], "'crondelith explain' requires a subcommand"),
    (&["explain", "state"], "'crondelith explain' requires a subcommand"),
    (&["explain", "open", "--connection", "1"], "<STATE>"),
    (&["explain", "state", "dance"], "'dance' which wasn't expected"),
    (&["explain", "state", "open"], "'--connection' has to be given"),
    (&["explain", "state", "open", "--connection", "one"], "'one' for '--connection <N>'"),
    (&["explain", "state", "open", "--connection", "18446744073709551616"], "number too large"),
    (&["explain", "state", "close", "--connection", "1", "--time", "now"], "'now' for '--time <SECONDS>'"),
    (&["explain", "state", "open", "--connection", "1", "--hex", "02"], "'--hex' is an option of 'message'"),
    (
        &["explain", "state", "open", "--connection", "1", "--relay-length", "9"],
        "'--relay-length' is an option of 'message', 'close' and 'keepalive'",
    ),
    (&["explain", "state", "open", "--connection", "1", "--file", "f"], "'--file' is an option of 'message'"),
    (&["explain", "state", "open", "--connection", "1", "--random", ""], "'--random' is an option of 'message'"),
    (&["explain", "state", "close", "--connection", "1", "--hex", ""], "'--hex' is an option of 'message'"),
    (&["explain", "state", "close", "--connection", "1", "--file", "f"], "'--file' is an option of 'message'"),
    (&["explain", "state", "close", "--connection", "1", "--random", "00"], "'--random' is an option of 'message'"),
    (
        &["explain", "state", "close", "--connection", "1", "--reply-length", "9"],
        "'--reply-length' is an option of 'open', 'message' and 'keepalive'",
    ),
    (&["explain", "state", "keepalive", "--connection", "1", "--hex", "0d"], "'--hex' is an option of 'message'"),
    (&["explain", "state", "keepalive"], "'--connection' has to be given"),
    (&["explain", "state", "message", "--connection", "1"], "the message has to be given, by '--hex' or '--file'"),
    (&["explain", "state", "message", "--hex", "020"], "'020' has an odd number of digits"),
    (&["explain", "state", "message", "--random", "0g"], "'g' isn't a hex digit"),
    (&["explain", "state", "--hex", "02", "message", "--file", "f"], "'--hex' and '--file' can't both be given"),
    (&["explain", "state", "message", "--hex", "0200"], "'--connection' has to be given"),
    (&["journal"], "<FILE>"),
    (&["journal", "show"], "<FILE>"),
    (&["journal", "a", "b"], "'b' which wasn't expected"),
    (&["journal", "a", "show", "b"], "either a FILE is judged, or 'show' shows one"),
    (&["journal", "a", "--partner", "8"], "8 is not in 0..8"),
    (&["journal", "a", "--start", "now"], "'now' for '--start <SECONDS>'"),
    (&["journal", "a", "--lease-term", "x"], "'x' for '--lease-term <SECONDS>'"),
    (&["journal", "show", "a", "--start", "1"], "'--start' isn't an option of 'show'"),
    (&["journal", "--lease-term", "600", "show", "a"], "'--lease-term' isn't an option of 'show'"),
    (&["journal", "show", "--plain", "a"], "'--plain' isn't an option of 'show'"),
];

#[test]
fn wrong_arguments_have_a_reason_and_status_2() {
    for (arguments, reason) in WRONG {
        let ended = run(arguments);
        assert_eq!(ended.status, Some(2), "{arguments:?}: {}", ended.stderr);
        assert!(ended.stderr.contains(reason), "{arguments:?}: {}", ended.stderr);
        assert_eq!(ended.stdout, "", "{arguments:?}");
    }
}

#[test]
fn options_may_stand_anywhere() {
    // A port that nothing listens on, which the reason names if the options were understood.
    let (port, partner) = (["--port", "1"], ["--partner", "2"]);
    let (peer, send, id, file) = (&["peer"][..], &["send"][..], &["5"][..], &[PROGRAM][..]);
    let lines = [
        [peer, &port, &partner, send, id, file].concat(),
        [peer, &port, send, &partner, id, file].concat(),
        [peer, send, &partner, id, &port, file].concat(),
        [peer, send, id, file, &port, &partner].concat(),
        [peer, &["--message-size", "9"], send, id, file, &partner, &["--base-port=1"]].concat(),
    ];
    for arguments in lines {
        let ended = run(&arguments);
        assert_eq!(ended.status, Some(1), "{arguments:?}: {}", ended.stderr);
        assert!(ended.stderr.starts_with("crondelith: 127.0.0.1 port 3: "), "{arguments:?}: {}", ended.stderr);
        assert_eq!(ended.stderr.lines().count(), 1, "{arguments:?}: {}", ended.stderr);
    }
}

#[test]
fn options_of_an_explanation_may_stand_anywhere() {
    let state = folder("anywhere").join("missing");
    let (explain, state, hex) = (&["explain"][..], &[text(&state)][..], &["--hex", "0200"][..]);
    let (message, connection) = (&["message"][..], &["--connection", "1"][..]);
    for arguments in [
        [explain, state, message, connection, hex],
        [explain, connection, state, message, hex],
        [explain, hex, state, connection, message],
        [explain, state, hex, message, connection],
    ] {
        // All is understood, and the file is looked for.
        let ended = run(&arguments.concat());
        assert_eq!(ended.status, Some(1), "{arguments:?}: {}", ended.stderr);
        assert!(ended.stderr.contains("No such file"), "{arguments:?}: {}", ended.stderr);
    }
}

#[test]
fn a_relay_is_named_in_every_form() {
    for (address, place) in [
        ("localhost", "localhost port 1:"),
        ("127.0.0.2", "127.0.0.2 port 1:"),
        ("::1", "::1 port 1:"),
        ("[::1]", "::1 port 1:"),
    ] {
        let ended = run(&["peer", "send", "5", PROGRAM, "--port", "1", "--relay", address]);
        assert_eq!(ended.status, Some(1), "{address}: {}", ended.stderr);
        assert!(ended.stderr.starts_with(&format!("crondelith: {place}")), "{address}: {}", ended.stderr);
    }
    for address in ["localhost:2", "127.0.0.2:2", "[::1]:2"] {
        let ended = run(&["peer", "send", "5", PROGRAM, "--relay", address]);
        assert_eq!(ended.status, Some(1), "{address}: {}", ended.stderr);
        assert!(ended.stderr.contains(" port 2: "), "{address}: {}", ended.stderr);
    }
}

#[test]
fn a_file_that_is_there_is_not_replaced() {
    // Nothing may be asked of a relay then.
    let relay = TcpListener::bind("127.0.0.1:0").expect("a port");
    let address = relay.local_addr().expect("its address").to_string();
    let file = folder("not_replaced").join("there");
    fs::write(&file, "kept").expect("a file");
    let ended = run(&["peer", "receive", text(&file), "--relay", &address]);
    assert_eq!(ended.status, Some(2), "{}", ended.stderr);
    assert!(ended.stderr.starts_with("crondelith: ") && ended.stderr.contains("--force"), "{}", ended.stderr);
    assert_eq!(fs::read(&file).expect("the file"), b"kept");
}
