//! The scope's worked examples that concern the codec, by their numbers there.

use codec::{decode, encode, Message};

#[test]
fn case_1_an_empty_message_is_none() {
    assert_eq!(decode(&[]), None);
}

#[test]
fn case_2_has_cookie_0_with_a_cookie_behind_it_is_none() {
    let mut bytes = [0; 26];
    bytes[0] = 2;
    assert_eq!(decode(&bytes), None);
}

#[test]
fn case_3_has_cookie_2_is_none() {
    for length in [2, 26] {
        let bytes = [2; 26];
        assert_eq!(decode(&bytes[..length]), None);
    }
}

#[test]
fn case_10_the_version_message_that_a_relay_opens_with() {
    let opening = Message::ProtocolVersion { major: 1, minor: 0 };
    let bytes = [0, 83, 86, 83, 67, 32, 48, 48, 49, 46, 48, 48, 48];
    assert_eq!(encode(&opening), Some(bytes.to_vec()));
    assert_eq!(decode(&bytes), Some(opening));
}

#[test]
fn case_11_an_id_that_nobody_has() {
    let refused = Message::EstablishRefused { id: 5, status: 1 };
    assert_eq!(encode(&refused), Some(vec![7, 0, 0, 0, 5, 1]));
    assert_eq!(decode(&[7, 0, 0, 0, 5, 1]), Some(refused));
}
