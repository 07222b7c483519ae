//! Every answer that a call can give, at the edges of what it takes. That of a closed session, and
//! what a refused feed leaves, are in feeds.rs; the unit limit, which no feed of a test reaches, is
//! in src/session.rs.

mod common;

use common::{iv_for, DIRECTIONS, MODES};
use conguraha::{
    aes_decrypt, aes_encrypt, aes_expand, cbc_block, cbc_neighbour, counter_place, cts_decrypt,
    cts_decrypt_bits, cts_encrypt, cts_encrypt_bits, forecast, pad, unpad, Answer, Direction, Mode,
    Session, Session32, MAX_BITS, MAX_BYTES,
};

const KEY: [u8; 16] = [7; 16];
const IV: [u8; 16] = [9; 16];

/// Lengths that no key and no IV has, and one that is a key's and no IV's.
const LENGTHS: [usize; 9] = [1, 15, 17, 23, 25, 31, 33, 240, 70_000];

fn open_answer(mode: Mode, n: usize, m: usize, key: &[u8], iv: &[u8]) -> Option<Answer> {
    Session::open_counter(mode, Direction::Encrypt, n, m, key, iv).err()
}

#[test]
fn key_length() {
    for length in LENGTHS.iter().chain(&[0]) {
        let key = vec![7; *length];
        for mode in MODES {
            let iv = iv_for(mode, &IV);
            assert_eq!(
                open_answer(mode, 128, 128, &key, iv),
                Some(Answer::KeyLength)
            );
            // It is asked first.
            assert_eq!(open_answer(mode, 0, 0, &key, &[1]), Some(Answer::KeyLength));
        }
        assert_eq!(aes_expand(&key).unwrap_err(), Answer::KeyLength);
        assert_eq!(aes_encrypt(&key, &IV), Err(Answer::KeyLength));
        assert_eq!(aes_decrypt(&key, &IV), Err(Answer::KeyLength));
        assert_eq!(cbc_block(&key, &[], &[], 0), Err(Answer::KeyLength));
        assert_eq!(cts_encrypt(&key, &[], &[], &mut []), Err(Answer::KeyLength));
        assert_eq!(cts_decrypt(&key, &[], &[], &mut []), Err(Answer::KeyLength));
    }
    for length in [16, 24, 32] {
        for mode in MODES {
            let iv = iv_for(mode, &IV);
            assert_eq!(open_answer(mode, 128, 128, &vec![7; length], iv), None);
        }
    }
}

#[test]
fn iv_length() {
    for length in LENGTHS {
        let iv = vec![9; length];
        for mode in MODES {
            assert_eq!(open_answer(mode, 0, 0, &KEY, &iv), Some(Answer::IvLength));
        }
        assert_eq!(cbc_neighbour(&iv, &[], 0), Err(Answer::IvLength));
        assert_eq!(cbc_block(&KEY, &iv, &[], 0), Err(Answer::IvLength));
        assert_eq!(cts_encrypt(&KEY, &iv, &[], &mut []), Err(Answer::IvLength));
        assert_eq!(cts_decrypt(&KEY, &iv, &[], &mut []), Err(Answer::IvLength));
    }
    assert_eq!(
        open_answer(Mode::Ecb, 128, 128, &KEY, &IV),
        Some(Answer::IvLength)
    );
    assert_eq!(
        open_answer(Mode::Cbc, 128, 128, &KEY, &[]),
        Some(Answer::IvLength)
    );
}

#[test]
fn unit_length() {
    for mode in MODES {
        let iv = iv_for(mode, &IV);
        let taken = |n: usize| (mode == Mode::Cfb && n > 0 && n < 128) || n == 128;
        for n in (0..300).chain([usize::MAX, 128 + (1 << 32)]) {
            let answer = Some(Answer::UnitLength).filter(|_| !taken(n));
            assert_eq!(open_answer(mode, n, 128, &KEY, iv), answer);
            assert_eq!(
                Session::open(mode, Direction::Decrypt, n, &KEY, iv).err(),
                answer
            );
            assert_eq!(forecast(mode, n, 0).err(), answer);
        }
    }
}

#[test]
fn counter_length() {
    for mode in MODES {
        let iv = iv_for(mode, &IV);
        let taken = |m: usize| (mode == Mode::Ctr && m > 0 && m < 128) || m == 128;
        for m in (0..300).chain([usize::MAX, 128 + (1 << 32)]) {
            let answer = Some(Answer::CounterLength).filter(|_| !taken(m));
            assert_eq!(open_answer(mode, 128, m, &KEY, iv), answer);
        }
    }
    for m in [0, 129, usize::MAX] {
        assert_eq!(counter_place(&IV, &[0; 16], m), Err(Answer::CounterLength));
    }
}

#[test]
fn counter_limit() {
    for m in 1..=10 {
        let session = Session::open_counter(Mode::Ctr, Direction::Encrypt, 128, m, &KEY, &IV);
        let text = vec![0; 16 << m];
        let mut out = vec![0; (16 << m) + 1];
        let longer = vec![0; (16 << m) + 1];
        let refused = session
            .expect("an opening")
            .feed(&longer, &mut out)
            .unwrap_err();
        assert_eq!(refused.answer, Answer::CounterLimit);
        let full = refused
            .session
            .feed(&text, &mut out)
            .expect("2^m units")
            .session;
        let refused = full.feed(&[0], &mut out).unwrap_err();
        assert_eq!(refused.answer, Answer::CounterLimit);
        assert!(refused.session.feed(&[], &mut out).is_ok());
    }
}

#[test]
fn other_message() {
    let mut block = IV;
    block[11] ^= 1;
    assert_eq!(counter_place(&IV, &block, 32), Err(Answer::OtherMessage));
    assert_eq!(
        counter_place(&IV, &block, 33).map(|place| place >> 32),
        Ok(1)
    );
}

#[test]
fn part_unit() {
    assert_eq!(forecast(Mode::Cbc, 128, 127), Err(Answer::PartUnit));
    assert_eq!(forecast(Mode::Ctr, 128, 127).map(|cost| cost.runs), Ok(1));
    assert_eq!(unpad(&[0x80; 16], 0), Err(Answer::PartUnit));
    assert_eq!(unpad(&[0x80; 16], 127), Err(Answer::PartUnit));
    assert_eq!(unpad(&[], 0), Err(Answer::PartUnit));
}

#[test]
fn bits() {
    assert_eq!(
        forecast(Mode::Ctr, 128, MAX_BITS).map(|cost| cost.bytes),
        Ok(MAX_BYTES)
    );
    for bits in [MAX_BITS + 1, usize::MAX] {
        assert_eq!(forecast(Mode::Cbc, 128, bits), Err(Answer::Bits));
        assert_eq!(unpad(&[0; 16], bits), Err(Answer::Bits));
        assert_eq!(pad(&[0; 16], bits, &mut [], 0), Err(Answer::Bits));
    }
    assert_eq!(unpad(&[0; 16], 129), Err(Answer::Bits));
    assert_eq!(pad(&[0; 16], 129, &mut [], 0), Err(Answer::Bits));
    assert_eq!(
        cts_encrypt_bits(&KEY, &IV, &[0; 17], 137, &mut [], 0),
        Err(Answer::Bits)
    );
    assert_eq!(
        cts_decrypt_bits(&KEY, &IV, &[0; 17], 137, &mut [], 0),
        Err(Answer::Bits)
    );
    let (text, mut out) = (vec![0; MAX_BYTES + 1], vec![0; MAX_BYTES + 1]);
    assert_eq!(cts_encrypt(&KEY, &IV, &text, &mut out), Err(Answer::Bits));
    assert_eq!(cts_decrypt(&KEY, &IV, &text, &mut out), Err(Answer::Bits));
    assert_eq!(cts_encrypt(&KEY, &IV, &text[1..], &mut out), Ok(()));
    // The largest text that is padded has a bit less than the largest feed.
    assert_eq!(pad(&text, MAX_BITS, &mut out, 0), Err(Answer::Bits));
    assert_eq!(pad(&text, MAX_BITS - 1, &mut out, 0), Ok(MAX_BITS));
    assert_eq!(unpad(&out, MAX_BITS), Ok(MAX_BITS - 1));
}

#[test]
fn room() {
    let mut out = [0xee; 40];
    for (text, place) in [(40, 1), (17, 24), (17, 41), (17, usize::MAX)] {
        let text = vec![1; text];
        let bits = 8 * text.len();
        let encrypted = cts_encrypt_bits(&KEY, &IV, &text, bits, &mut out, place);
        assert_eq!(encrypted, Err(Answer::Room));
        let decrypted = cts_decrypt_bits(&KEY, &IV, &text, bits, &mut out, place);
        assert_eq!(decrypted, Err(Answer::Room));
        assert_eq!(pad(&text, bits, &mut out, place), Err(Answer::Room));
    }
    assert_eq!(pad(&[], 0, &mut [], 0), Err(Answer::Room));
    assert_eq!(out, [0xee; 40]);
    assert_eq!(pad(&[], 0, &mut out, 24), Ok(128));
}

#[test]
fn message_length() {
    let text = [1; 64];
    for bits in (0..=128).chain([129, 135, 137, 511]) {
        let mut out = [0xee; 64];
        let encrypted = cts_encrypt_bits(&KEY, &IV, &text, bits, &mut out, 0);
        assert_eq!(encrypted, Err(Answer::MessageLength), "{} bits", bits);
        let decrypted = cts_decrypt_bits(&KEY, &IV, &text, bits, &mut out, 0);
        assert_eq!(decrypted, Err(Answer::MessageLength), "{} bits", bits);
        assert_eq!(out, [0xee; 64]);
    }
    assert_eq!(
        cts_encrypt(&KEY, &IV, &[], &mut []),
        Err(Answer::MessageLength)
    );
    assert_eq!(cts_encrypt(&KEY, &IV, &text[..17], &mut [0; 17]), Ok(()));
}

#[test]
fn no_block() {
    for (length, j) in [
        (0, 0),
        (16, 1),
        (32, usize::MAX),
        (32, (1 << 60) + 1),
        (31, 0),
        (33, 0),
    ] {
        let text = vec![1; length];
        assert_eq!(cbc_neighbour(&IV, &text, j), Err(Answer::NoBlock));
        assert_eq!(cbc_block(&KEY, &IV, &text, j), Err(Answer::NoBlock));
    }
}

#[test]
fn a_refused_opening_is_the_same_in_both_directions() {
    for direction in DIRECTIONS {
        let answer = Session::open(Mode::Cfb, direction, 0, &KEY, &IV).unwrap_err();
        assert_eq!(answer, Answer::UnitLength);
    }
}

#[test]
fn not_opened() {
    for rounds in [0, 9, 11, 13, 15, usize::MAX] {
        let older = Session32 {
            mode: Mode::Cfb,
            direction: Direction::Decrypt,
            n: 8,
            m: 128,
            rounds,
            keys: [7; 240],
            register: IV,
            units: 0,
            closed: true,
        };
        let refused = Session::carry(older).feed(&[1], &mut [0]).unwrap_err();
        assert_eq!(refused.answer, Answer::NotOpened);
    }
}

#[test]
fn no_mode() {
    for mode in [5, 258, usize::MAX] {
        let mut stored = [0; Session32::BYTES];
        stored[..8].copy_from_slice(&mode.to_ne_bytes());
        assert_eq!(Session32::from_bytes(&stored).unwrap_err(), Answer::NoMode);
    }
}
