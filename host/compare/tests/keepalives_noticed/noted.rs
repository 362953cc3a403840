//! What a relay could overlook that notes when a connection was sent something, and that it has answered.

use model::Due;

use crate::finding::{Clear, Made, Stamp};
use crate::Overlooked;

/// A reply or a relayed message that is not noted.
pub const FORGOTTEN: [Overlooked<Stamp>; 16] = [
    ("replies", true, |made| made.relayed_to().into_iter().collect()),
    ("what is relayed", true, |made| made.replied_to().into_iter().collect()),
    ("the reply to an open", true, |made| unless_replied(made, made.reply[0] == 0)),
    ("the reply to a lease", true, |made| unless_replied(made, made.reply[0] == 3)),
    ("the reply to an accepted lease", true, |made| unless_replied(made, made.reply[..2] == [3, 1])),
    ("the reply to a refused lease", true, |made| unless_replied(made, made.reply[..2] == [3, 0])),
    ("the reply to an extension", true, |made| unless_replied(made, made.reply[..2] == [5, 1])),
    ("the reply to a refused extension", true, |made| unless_replied(made, made.reply[..2] == [5, 0])),
    ("the reply to an established session", true, |made| {
        unless_replied(made, made.reply[0] == 7 && made.reply[5] == 0)
    }),
    ("the reply to a refused session", true, |made| unless_replied(made, made.reply[0] == 7 && made.reply[5] > 0)),
    ("the keepalive", true, |made| unless_replied(made, made.due == Some(Due::Ask))),
    ("that a holder is told of its session", true, |made| unless_relayed(made, made.relay[0] == 8)),
    ("that a peer is told of the session's end", true, |made| unless_relayed(made, made.is_done(9))),
    ("that a peer is told of a close", true, |made| unless_relayed(made, made.due.is_none() && !made.is_message())),
    ("that a peer is told of a dead one", true, |made| unless_relayed(made, made.due == Some(Due::Close))),
    ("data", true, |made| unless_relayed(made, made.is_done(11))),
];

fn unless_replied(made: &Made, applies: bool) -> Vec<usize> {
    let replied_to = made.replied_to().filter(|_| !applies);
    replied_to.into_iter().chain(made.relayed_to()).collect()
}

fn unless_relayed(made: &Made, applies: bool) -> Vec<usize> {
    let relayed_to = made.relayed_to().filter(|_| !applies);
    made.replied_to().into_iter().chain(relayed_to).collect()
}

/// A message noted for somebody to whom it isn't sent.
pub const MISTAKEN: [Overlooked<Stamp>; 10] = [
    ("that data is sent to the other", true, |made| made.receivers().iter().map(|_| made.caller).collect()),
    ("that data isn't sent to its sender", true, |made| also_caller(made, made.is_done(11))),
    ("that the end isn't sent to who ends", true, |made| also_caller(made, made.is_done(9))),
    ("that a version's answer has no reply", true, |made| also_caller(made, made.is_done(1))),
    ("that a peer's keepalive has no reply", true, |made| also_caller(made, made.is_done(13))),
    ("that a quiet call sends nothing", true, |made| also_caller(made, made.due == Some(Due::Nothing))),
    ("that a dead one is sent nothing", true, |made| also_caller(made, made.due == Some(Due::Close))),
    ("that a closed one is sent nothing", true, |made| also_caller(made, made.due.is_none() && !made.is_message())),
    ("that a reply isn't sent to the other", true, |made| {
        made.receivers().into_iter().chain(made.before.in_session_with(made.caller)).collect()
    }),
    ("that the other is asked by itself", true, |made| match made.due {
        Some(Due::Ask) => [made.caller].into_iter().chain(made.before.in_session_with(made.caller)).collect(),
        _ => made.receivers(),
    }),
];

fn also_caller(made: &Made, applies: bool) -> Vec<usize> {
    made.receivers().into_iter().chain(applies.then_some(made.caller)).collect()
}

pub const WRONG_ANSWERS: [Overlooked<Clear>; 12] = [
    ("that messages answer", true, |_| false),
    ("that version answers do", true, |made| made.is_message() && !made.is_done(1)),
    ("that lease requests do", true, |made| made.is_message() && !made.is_done(2)),
    ("that extension requests do", true, |made| made.is_message() && !made.is_done(4)),
    ("that establish requests do", true, |made| made.is_message() && !made.is_done(6)),
    ("that session ends do", true, |made| made.is_message() && !made.is_done(9)),
    ("that data does", true, |made| made.is_message() && !made.is_done(11)),
    ("that keepalives do", true, |made| made.is_message() && !made.is_done(13)),
    ("that others than keepalives do", true, |made| made.is_done(13)),
    ("that byte 2 other than 1 is cleared too", false, |made| made.is_message() && made.is_unanswered()),
    ("that byte 2 of 2 and more is cleared too", false, |made| made.is_message() && made.record().unanswered < 2),
    ("that the call itself is no answer", true, |made| made.is_message() || made.due == Some(Due::Nothing)),
];
