//! The range of each field: written up to its ends, and beyond them neither read nor written.

use codec::{decode, encode, write, Message, Refusal, Session, DATA_LIMIT};

/// Asserts that exactly the values in range are written, and that each is read again.
fn assert_range<'a, V: Copy>(values: &[(V, bool)], make: impl Fn(V) -> Message<'a>) {
    for &(value, in_range) in values {
        let message = make(value);
        let bytes = encode(&message);
        assert_eq!(bytes.is_some(), in_range, "{message:?}");
        match bytes {
            Some(bytes) => assert_eq!(decode(&bytes), Some(message)),
            // The range comes before the room.
            None => assert_eq!(write(&message, &mut []), Err(Refusal::Malformed)),
        }
    }
}

#[test]
fn versions_are_0_to_999() {
    let values = [(0, true), (1, true), (999, true), (1000, false), (u16::MAX, false)];
    assert_range(&values, |major| Message::ProtocolVersion { major, minor: 0 });
    assert_range(&values, |minor| Message::ProtocolVersion { major: 0, minor });
}

#[test]
fn ok_is_0_or_1() {
    let values = [(0, true), (1, true), (2, false), (255, false)];
    assert_range(&values, |ok| Message::VersionAnswer { ok });
    assert_eq!(decode(&[1, 2]), None);
}

#[test]
fn a_refused_session_has_status_1_to_5() {
    let values = [(0, false), (1, true), (5, true), (6, false), (255, false)];
    assert_range(&values, |status| Message::EstablishRefused { id: 7, status });
    assert_eq!(decode(&[7, 0, 0, 0, 7, 0]), None);
    assert_eq!(decode(&[7, 0, 0, 0, 7, 6]), None);
}

#[test]
fn ids_and_expirations_fill_their_fields() {
    let ids = [0, 1, (1 << 26) - 1, 1 << 26, u32::MAX].map(|id| (id, true));
    assert_range(&ids, |id| Message::EstablishRequest { id });
    let expirations = [0, 1, 1 << 40, u64::MAX].map(|expiration| (expiration, true));
    assert_range(&expirations, |expiration| Message::ExtensionGranted { expiration });
}

#[test]
fn cookies_have_24_bytes_and_session_fields_16() {
    let pool = [3; 25];
    let cookies = [0, 23, 24, 25].map(|length| (&pool[..length], length == 24));
    assert_range(&cookies, |cookie| Message::LeaseRequestWithCookie { cookie });
    assert_range(&cookies, |cookie| Message::LeaseGranted { id: 1, cookie, expiration: 2 });
    assert_range(&cookies, |cookie| Message::ExtensionRequest { cookie });

    let whole = &pool[..16];
    let fields = [0, 15, 16, 17].map(|length| (&pool[..length], length == 16));
    for changed in 0..3 {
        let session = |field| {
            let [id, peer, key] = std::array::from_fn(|place| if place == changed { field } else { whole });
            Session { id, peer, key }
        };
        assert_range(&fields, |field| Message::Established { id: 1, session: session(field) });
        assert_range(&fields, |field| Message::EstablishNotification { session: session(field) });
    }
}

#[test]
fn data_ends_at_65_533_bytes() {
    let pool = vec![5; DATA_LIMIT + 2];
    let lengths = [0, 1, 65_532, 65_533, 65_534, 65_535];
    let values = lengths.map(|length| (&pool[..length], length <= 65_533));
    assert_range(&values, |data| Message::DataSend { data });
    assert_range(&values, |data| Message::DataReceive { data });
}

#[test]
fn a_version_text_has_its_fixed_bytes_and_digits() {
    let good = b"\x00SVSC 001.000";
    for (place, byte) in [(1, b's'), (5, b'\t'), (6, b'/'), (8, b':'), (9, b','), (10, b'+'), (12, b' ')] {
        let mut bad = *good;
        bad[place] = byte;
        assert_eq!(decode(&bad), None, "{bad:?}");
    }
}
