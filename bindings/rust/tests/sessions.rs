//! Sessions as values: cloned, asked for their parts, printed, sent to a thread.

mod common;

use common::{bytes, older, opened, IV, KEY};
use conguraha::{aes_expand, Direction, Mode, Session};

#[test]
fn a_clone_is_a_session_of_its_own() {
    let session = opened(Mode::Ctr, Direction::Encrypt, 128);
    let clone = session.clone();
    let (mut one, mut other) = ([0; 16], [0; 16]);
    let fed = session.feed(&[1; 16], &mut one).expect("a feed");
    assert!(!fed.session.alike(&clone));
    let later = clone.feed(&[1; 16], &mut other).expect("a feed").session;
    assert!(fed.session.alike(&later));
    assert_eq!(fed.session, later);
    assert_eq!(one, other);
}

#[test]
fn a_session_tells_its_parts() {
    let key = bytes("2b7e151628aed2a6abf7158809cf4f3c");
    let session = Session::open_counter(Mode::Ctr, Direction::Decrypt, 128, 32, &key, &IV);
    let mut out = [0; 40];
    let fed = session.expect("an opening").feed(&[1; 40], &mut out);
    let session = fed.expect("a feed").session;
    assert_eq!(
        (session.mode(), session.direction()),
        (Mode::Ctr, Direction::Decrypt)
    );
    assert_eq!((session.n(), session.m(), session.rounds()), (128, 32, 10));
    assert_eq!(session.round_keys()[..16], key);
    assert_eq!(session.register()[..15], [0x5a; 15]);
    assert_eq!(session.register()[15], 0x5d);
    assert_eq!((session.units(), session.closed()), (3, true));
}

#[test]
fn no_secret_is_printed() {
    let session = opened(Mode::Cfb, Direction::Encrypt, 8);
    let parts = "mode: Cfb, direction: Encrypt, n: 8, m: 128, units: 0, closed: false, ..";
    assert_eq!(format!("{:?}", session), format!("Session {{ {} }}", parts));
    let mut older = older(Mode::Cfb, 0);
    older.n = 8;
    assert_eq!(format!("{:?}", older), format!("Session32 {{ {} }}", parts));
    let expanded = aes_expand(&KEY).expect("an expansion");
    assert_eq!(format!("{:?}", expanded), "Expanded { rounds: 12, .. }");
    let refused = session.feed(&[1], &mut []).expect_err("no room");
    assert!(format!("{:?}", refused).ends_with(".. }, answer: Room }"));
}

#[test]
fn sessions_go_between_threads() {
    fn sent<T: Send + Sync + 'static>(value: T) -> T {
        value
    }
    let session = sent(opened(Mode::Cfb, Direction::Encrypt, 8));
    let thread = std::thread::spawn(move || session.feed(&[1], &mut [0]).map(|fed| fed.runs));
    assert_eq!(thread.join().expect("a thread").expect("a feed"), 1);
}
