//! Whether the id is kept, and what the file holds then.

use std::fs;
use std::time::Duration;

use codec::Message;
use peer::Peer;

use super::{kill, line, receiver, Scene, Scripted};
use crate::support::{becomes_true, full_pipe, program, text, Relay, Running};

const FIRST: [u8; 24] = [7; 24];
const SECOND: [u8; 24] = [0xe8; 24];
/// An expiration that isn't near.
const LATER: u64 = 1 << 39;
const LIMIT: Duration = Duration::from_secs(10);

#[test]
fn a_killed_receiver_has_its_id_again() {
    let relay = Relay::start(&[]);
    let scene = Scene::new("cookie_killed");
    let (first, id, word) = scene.receiver(&relay);
    assert_eq!(word, "new");
    let cookie = scene.kept();
    kill(first);
    let (mut second, again, word) = scene.receiver(&relay);
    assert_eq!((&again, &*word), (&id, "kept"));
    assert!(second.await_line("the id is the one of before").is_some());
    assert_eq!(scene.kept(), cookie);
    assert!(!scene.old().exists(), "no cookie was replaced");
    scene.transfer(&relay, &id, second);
}

/// One after the other, each from a run of its own.
#[test]
fn several_files_come_under_one_id() {
    let relay = Relay::start(&[]);
    let scene = Scene::new("cookie_several");
    let (receiver, id, _) = scene.receiver(&relay);
    scene.transfer(&relay, &id, receiver);
    for _ in 0..3 {
        let (receiver, again, word) = scene.receiver(&relay);
        assert_eq!((&again, &*word), (&id, "kept"));
        scene.transfer(&relay, &id, receiver);
    }
}

#[test]
fn another_connection_has_the_id_as_well() {
    let relay = Relay::start(&[]);
    let scene = Scene::new("cookie_other_connection");
    let (first, id, _) = scene.receiver(&relay);
    kill(first);
    // It takes the number that the receiver's connection had.
    let _other = Peer::connect(("127.0.0.1", relay.base_port + 3)).expect("a handshake");
    let (second, again, word) = scene.receiver(&relay);
    assert_eq!((&again, &*word), (&id, "kept"));
    scene.transfer(&relay, &id, second);
}

#[test]
fn the_id_outlasts_a_relay_that_keeps_its_state_only() {
    let scene = Scene::new("cookie_restart");
    let state = scene.folder.join("state");
    let options = ["--state", text(&state)];
    let relay = Relay::start(&options);
    let (receiver, id, _) = scene.receiver(&relay);
    relay.program.signal("TERM");
    relay.program.end();
    receiver.end();
    let relay = Relay::start(&options);
    let (receiver, again, word) = scene.receiver(&relay);
    assert_eq!((&again, &*word), (&id, "kept"));
    drop((relay, receiver));
    let cookie = scene.kept();
    // This one has lost its tables.
    let relay = Relay::start(&[]);
    let (mut receiver, id, word) = scene.receiver(&relay);
    assert_eq!(word, "new");
    assert!(receiver.await_line("this is a new one: tell it to those who send").is_some());
    assert_ne!(scene.kept(), cookie);
    scene.transfer(&relay, &id, receiver);
}

#[test]
fn an_id_whose_connection_is_open_stays_with_it() {
    let relay = Relay::start(&[]);
    let scene = Scene::new("cookie_held");
    let (first, id, _) = scene.receiver(&relay);
    let (cookie, copied) = (scene.kept(), scene.folder.join("copied"));
    fs::copy(&scene.cookie, &copied).expect("a copy");
    let (mut second, other, word) = receiver(&relay, &scene.folder.join("copy2"), &copied);
    assert!(other != id && word == "new", "{other} {word}");
    assert!(second.await_line("whose last connection it takes for open still").is_some());
    assert_ne!(fs::read_to_string(&copied).expect("a cookie file"), cookie);
    scene.transfer(&relay, &id, first);
    scene.transfer(&relay, &other, second);
    assert_eq!(scene.kept(), cookie);
    // Each has its own from now on.
    for (file, own) in [(&copied, &other), (&scene.cookie, &id)] {
        let (_receiver, again, word) = receiver(&relay, &scene.folder.join("copy"), file);
        assert_eq!((&again, &*word), (own, "kept"));
    }
}

/// Asked at another partner by mistake, or too soon after a power cut.
#[test]
fn the_old_cookie_leads_to_the_old_id_again() {
    let relay = Relay::start(&[]);
    let scene = Scene::new("cookie_old");
    let (first, id, _) = scene.receiver(&relay);
    let cookie = scene.kept();
    kill(first);
    let port = (relay.base_port + 5).to_string();
    let copy = scene.folder.join("copy");
    let wrong =
        ["peer", "receive", text(&copy), "--relay", &format!("127.0.0.1:{port}"), "--cookie", text(&scene.cookie)];
    let mut second = Running::start(&mut program(&wrong));
    assert!(second.line().ends_with(" new"));
    let said = format!(
        "The old cookie is in '{}'; to ask with it, move it back",
        scene.old().canonicalize().expect("a file").display()
    );
    let lines = second.await_line("tell it to those who send").expect("a line");
    assert!(lines.contains(&said), "{lines}");
    assert_eq!(fs::read_to_string(scene.old()).expect("a file"), cookie);
    kill(second);
    fs::rename(scene.old(), &scene.cookie).expect("the old cookie in place");
    let (third, again, word) = scene.receiver(&relay);
    assert_eq!((&again, &*word), (&id, "kept"));
    assert!(!scene.old().exists(), "no cookie was replaced");
    scene.transfer(&relay, &id, third);
}

#[test]
fn it_is_asked_with_the_cookie_of_the_file_and_at_first_without() {
    let (relay, scene) = (Scripted::new(), Scene::new("cookie_asked"));
    let mut receiver = relay.receiver(&scene);
    let mut connection = relay.accept();
    connection.expect(Message::LeaseRequest);
    connection.grant(5, &FIRST, LATER);
    assert_eq!(receiver.line(), "5 new");
    assert_eq!(scene.kept(), line(&FIRST));
    assert!(!scene.old().exists(), "there was no cookie before");
    drop(receiver);
    for (id, granted, said) in [(5, FIRST, "5 kept"), (6, SECOND, "6 new"), (6, SECOND, "6 kept")] {
        let kept = scene.kept();
        let mut receiver = relay.receiver(&scene);
        let mut connection = relay.accept();
        let asked = if kept == line(&FIRST) { FIRST } else { SECOND };
        connection.expect(Message::LeaseRequestWithCookie { cookie: &asked });
        connection.grant(id, &granted, LATER);
        assert_eq!(receiver.line(), said);
        assert_eq!(scene.kept(), line(&granted));
    }
}

/// The receiver is stuck in printing the id, since nobody takes it.
#[test]
fn the_cookie_is_kept_before_the_id_is_printed() {
    let (relay, scene) = (Scripted::new(), Scene::new("cookie_first"));
    let (pipe, _reader) = full_pipe();
    let copy = scene.folder.join("copy");
    let _receiver = Running::start(program(&relay.arguments(&copy, &scene.cookie)).stdout(pipe));
    let mut connection = relay.accept();
    connection.grant(5, &FIRST, LATER);
    assert!(becomes_true(LIMIT, || scene.cookie.exists()), "it isn't kept");
    assert_eq!(scene.kept(), line(&FIRST));
}

#[test]
fn a_refused_lease_changes_nothing() {
    let (relay, scene) = (Scripted::new(), Scene::new("cookie_refused"));
    for kept in [None, Some(line(&FIRST))] {
        kept.iter().for_each(|line| fs::write(&scene.cookie, line).expect("a file"));
        let receiver = relay.receiver(&scene);
        relay.accept().send(Message::LeaseRefused);
        let ended = receiver.end();
        assert_eq!((ended.status, &*ended.stdout), (Some(1), ""), "{}", ended.stderr);
        assert!(ended.last_line().contains("granted no id"), "{}", ended.stderr);
        let told = ended.last_line().contains("The cookie file is as it was");
        assert_eq!(told, kept.is_some(), "{}", ended.stderr);
        assert_eq!(fs::read_to_string(&scene.cookie).ok(), kept);
    }
}

/// The refusals come unasked: the receiver asks for more time after minutes.
#[test]
fn an_id_that_replaces_one_while_waiting_is_kept_too() {
    let (relay, scene) = (Scripted::new(), Scene::new("cookie_not_extended"));
    let mut receiver = relay.receiver(&scene);
    let mut connection = relay.accept();
    connection.expect(Message::LeaseRequest);
    connection.grant(5, &FIRST, LATER);
    assert_eq!(receiver.line(), "5 new");
    // Renewed, the id needs no other line.
    for (id, cookie) in [(5, FIRST), (6, SECOND)] {
        connection.send(Message::ExtensionRefused);
        connection.expect(Message::LeaseRequestWithCookie { cookie: &FIRST });
        connection.grant(id, &cookie, LATER);
    }
    assert_eq!(receiver.line(), "6 new");
    assert_eq!(scene.kept(), line(&SECOND));
    assert_eq!(fs::read_to_string(scene.old()).expect("a file"), line(&FIRST));
    let lines = receiver.await_line("the relay hasn't extended the lease").expect("a line");
    assert!(lines.contains("The old cookie is in '"), "{lines}");
}
