//! Where the relay is: each form of the text, and what is none.

use peer::RelayAddress;

#[track_caller]
fn check(text: &str, host: &str, port: Option<u16>) {
    let address: RelayAddress = text.parse().expect("an address");
    assert_eq!((address.host(), address.port()), (host, port));
    assert_eq!(address.to_string().parse(), Ok(address), "written and parsed again");
}

#[track_caller]
fn check_wrong(text: &str, words: &str) {
    let error = text.parse::<RelayAddress>().expect_err("no address").to_string();
    assert!(error.contains(words), "'{words}' isn't in '{error}'");
    assert_eq!(error.lines().count(), 1);
}

#[test]
fn without_a_port() {
    check("relay.example", "relay.example", None);
    check("localhost", "localhost", None);
    check("127.0.0.1", "127.0.0.1", None);
    check("::1", "::1", None);
    check("2001:db8::7703", "2001:db8::7703", None);
    check("[::1]", "::1", None);
    check("fe80::1%eth0", "fe80::1%eth0", None);
}

#[test]
fn with_a_port() {
    check("relay.example:7703", "relay.example", Some(7_703));
    check("127.0.0.1:7703", "127.0.0.1", Some(7_703));
    check("[::1]:7703", "::1", Some(7_703));
    check("[fe80::1%eth0]:1", "fe80::1%eth0", Some(1));
    check("relay.example:65535", "relay.example", Some(65_535));
}

#[test]
fn no_host() {
    check_wrong("", "is missing");
    check_wrong(":7703", "is missing");
}

#[test]
fn a_wrong_port() {
    for port in ["0", "65536", "-1", "+7703", "", "http", "77 03"] {
        let words = format!("from 1 to 65535, not '{port}'");
        check_wrong(&format!("relay.example:{port}"), &words);
        check_wrong(&format!("[::1]:{port}"), &words);
    }
}

#[test]
fn a_wrong_host() {
    check_wrong("a:b:c", "'a:b:c' is neither a name nor an IP address");
    check_wrong("::1:7703:x", "neither a name");
    check_wrong("two words", "'two words' is neither");
    check_wrong("relay.example/path", "neither a name");
    check_wrong("::1]", "neither a name");
}

#[test]
fn wrong_brackets() {
    for text in ["[::1", "[]", "[]:7703", "[::1]7703", "[127.0.0.1]:7703", "[relay.example]", "[[::1]]"] {
        check_wrong(text, &format!("'{text}' isn't an IPv6 address in brackets"));
    }
}

#[test]
fn a_url() {
    for text in ["http://relay.example", "http://relay.example:7703/", "svsc://[::1]:7703"] {
        check_wrong(text, &format!("'{text}' is a URL"));
    }
}
