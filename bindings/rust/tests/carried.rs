//! Sessions of the older release, carried over.

mod common;

use common::{older, opened, Random, IV, KEY, MODES};
use conguraha::{aes_expand, Answer, Direction, Mode, Session, Session32};

#[test]
fn a_carried_session_goes_on() {
    let text = Random(9).bytes(64);
    for mode in MODES {
        let session = opened(mode, Direction::Encrypt, 128);
        assert_eq!(Session::carry(older(mode, 0)), session);
        let (mut out, mut carried) = ([0; 64], [0; 64]);
        session.feed(&text, &mut out).expect("a feed");
        let fed = Session::carry(older(mode, u32::MAX))
            .feed(&text, &mut carried)
            .expect("a feed");
        assert_eq!(fed.session.units(), u64::from(u32::MAX) + 4);
        assert_eq!(carried, out);
    }
}

#[test]
fn a_carried_counter_has_its_limit() {
    let mut older = older(Mode::Ctr, u32::MAX - 1);
    older.m = 32;
    let refused = Session::carry(older)
        .feed(&[0; 48], &mut [0; 48])
        .expect_err("2^32 + 1 units");
    assert_eq!(refused.answer, Answer::CounterLimit);
    assert!(refused.session.feed(&[0; 32], &mut [0; 32]).is_ok());
}

/// Any bytes, but most of the numbers small, so that some of these are a session.
fn any_stored(random: &mut Random) -> [u8; Session32::BYTES] {
    let mut stored = [0; Session32::BYTES];
    stored.copy_from_slice(&random.bytes(Session32::BYTES));
    for word in [0, 16, 24, 32] {
        let number = match (word, random.below(4)) {
            (_, 0) => random.number(),
            (0, _) => random.number() % 6,
            (32, _) => random.number() % 16,
            _ => 128 - random.number() % 3,
        };
        stored[word..word + 8].copy_from_slice(&number.to_ne_bytes());
    }
    stored[300] = (random.below(3) / 2) as u8;
    stored
}

/// Feeds the session, whatever it is, and tells whether it was accepted.
fn is_accepted(session: Session, bits: usize) -> bool {
    let before = session.clone();
    match session.feed_bits(&[7; 64], bits, &mut [0; 64], 0) {
        Ok(fed) => {
            assert_eq!(fed.written.len(), bits / 8);
            true
        }
        Err(refused) => {
            assert_eq!(refused.session, before);
            false
        }
    }
}

#[test]
fn any_bytes_are_carried_and_answered() {
    let mut random = Random(10);
    let mut accepted = 0;
    for _ in 0..20_000 {
        match Session32::from_bytes(&any_stored(&mut random)) {
            Ok(older) => {
                let bits = 128 * random.below(4);
                accepted += usize::from(is_accepted(Session::carry(older), bits));
            }
            Err(answer) => assert_eq!(answer, Answer::NoMode),
        }
    }
    assert!(accepted > 100, "{} feeds were accepted", accepted);
}

#[test]
fn the_stored_form_is_that_of_the_header() {
    let expanded = aes_expand(&KEY).expect("an expansion");
    let mut stored = vec![];
    stored.extend(2_u64.to_ne_bytes());
    stored.extend([1, 0xee, 0xee, 0xee, 0xee, 0xee, 0xee, 0xee]);
    for number in [8_u64, 128, expanded.rounds as u64] {
        stored.extend(number.to_ne_bytes());
    }
    stored.extend(expanded.keys);
    stored.extend(IV);
    stored.extend(77_u32.to_ne_bytes());
    stored.extend([0, 0xee, 0xee, 0xee]);
    let stored = stored.try_into().expect("304 bytes");
    let session = Session::carry(Session32::from_bytes(&stored).expect("a mode"));
    assert_eq!(session.units(), 77);
    assert!(session.alike(&opened(Mode::Cfb, Direction::Decrypt, 8)));
}
