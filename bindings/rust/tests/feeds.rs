//! What feeds write and leave: cuts, refusals, costs.

mod common;

use common::{bits, fed, fed_in_parts, lengths_of, opened, Random, DIRECTIONS, MODES};
use conguraha::{forecast, Answer, Direction, Mode, Refused, MAX_BYTES};

#[test]
fn a_cut_between_units_changes_nothing() {
    let mut random = Random(1);
    for direction in DIRECTIONS {
        for mode in MODES {
            for n in lengths_of(mode) {
                let text = bits(&random.bytes(n * 8));
                let text = &text[..n * 40];
                let whole = fed(opened(mode, direction, n), text);
                let session = opened(mode, direction, n);
                let parts = fed_in_parts(session, text, || n * random.below(9));
                assert_eq!(parts, whole, "{:?} {:?} {}", mode, direction, n);
            }
        }
    }
}

#[test]
fn every_cut_in_two_changes_nothing() {
    let text = Random(2).bytes(64);
    for mode in MODES {
        let n = if mode == Mode::Cfb { 8 } else { 128 };
        let mut whole = [0; 64];
        let whole_fed = opened(mode, Direction::Encrypt, n).feed(&text, &mut whole);
        let session = whole_fed.expect("a feed").session;
        for cut in (0..=text.len()).step_by(n / 8) {
            let mut out = [0; 64];
            let (front, back) = out.split_at_mut(cut);
            let first = opened(mode, Direction::Encrypt, n).feed(&text[..cut], front);
            let first = first.expect("the first feed").session;
            let second = first.feed(&text[cut..], back).expect("the second feed");
            assert_eq!(second.session, session, "{:?} cut at {}", mode, cut);
            assert_eq!(out, whole);
        }
    }
}

#[test]
fn what_is_decrypted_is_what_was_encrypted() {
    let mut random = Random(3);
    for mode in MODES {
        for n in lengths_of(mode) {
            let text = bits(&random.bytes(n * 2));
            let sent = fed(opened(mode, Direction::Encrypt, n), &text).1;
            assert_eq!(fed(opened(mode, Direction::Decrypt, n), &sent).1, text);
        }
    }
}

#[test]
fn a_short_last_unit_closes_the_session() {
    for mode in [Mode::Ofb, Mode::Ctr] {
        let (mut out, text) = ([0xee; 20], Random(4).bytes(20));
        let longer = [&text[..], &[0; 12]].concat();
        let mut whole = [0; 32];
        let open = || opened(mode, Direction::Encrypt, 128);
        open()
            .feed(&longer, &mut whole)
            .expect("a feed of whole blocks");
        let short = open().feed(&text, &mut out).expect("a short feed");
        assert_eq!(short.written, &whole[..20]);
        assert_eq!(
            (short.runs, short.session.units(), short.session.closed()),
            (2, 2, true)
        );
        let before = short.session.clone();
        let Refused { session, answer } = short.session.feed(&[], &mut []).expect_err("closed");
        assert_eq!(answer, Answer::Closed);
        assert_eq!(session, before);
    }
}

#[test]
fn the_largest_feed_and_one_byte_more() {
    let text = vec![0x5c; MAX_BYTES + 1];
    let mut out = vec![0xee; MAX_BYTES + 1];
    let refused = opened(Mode::Cfb, Direction::Encrypt, 8).feed(&text, &mut out);
    let refused = refused.expect_err("a byte too many");
    assert_eq!(refused.answer, Answer::Bits);
    assert!(out.iter().all(|&byte| byte == 0xee));
    let fed = refused
        .session
        .feed(&text[1..], &mut out)
        .expect("the largest feed");
    assert_eq!((fed.runs, fed.written.len()), (MAX_BYTES, MAX_BYTES));
    assert_eq!(out[MAX_BYTES], 0xee);
}

/// Feeds of 32 bytes that are refused: the bits, the bytes of the output, the place, the answer.
const REFUSED: [(usize, usize, usize, Answer); 9] = [
    (257, 64, 0, Answer::Bits),
    (524_288, 64, 0, Answer::Bits),
    (usize::MAX, 64, 0, Answer::Bits),
    (usize::MAX - 7, 64, usize::MAX, Answer::Bits),
    (12, 64, 0, Answer::PartUnit),
    (256, 31, 0, Answer::Room),
    (256, 40, 9, Answer::Room),
    (256, 40, usize::MAX, Answer::Room),
    (0, 40, 41, Answer::Room),
];

#[test]
fn a_refused_feed_leaves_session_and_output_as_they_were() {
    let text = Random(5).bytes(32);
    for direction in DIRECTIONS {
        for mode in [Mode::Ecb, Mode::Cbc, Mode::Cfb] {
            let n = if mode == Mode::Cfb { 8 } else { 128 };
            let mut out = [0; 32];
            let begun = opened(mode, direction, n).feed(&text, &mut out);
            let mut session = begun.expect("a feed").session;
            let before = session.clone();
            for (bits, size, place, answer) in REFUSED {
                let mut out = vec![0xee; size];
                let refused = session.feed_bits(&text, bits, &mut out, place);
                let refused = refused.expect_err("a refusal");
                assert_eq!(refused.answer, answer);
                assert_eq!(refused.session, before);
                assert!(out.iter().all(|&byte| byte == 0xee));
                session = refused.session;
            }
        }
    }
}

#[test]
fn a_feed_of_nothing_changes_nothing() {
    for mode in MODES {
        let session = opened(mode, Direction::Encrypt, 128);
        let before = session.clone();
        let fed = session.feed(&[], &mut []).expect("a feed");
        assert_eq!((fed.runs, fed.written.len()), (0, 0));
        let mut out = [0xee; 4];
        let fed = fed.session.feed_bits(&[1], 0, &mut out, 4).expect("a feed");
        assert_eq!(fed.session, before);
        assert_eq!(out, [0xee; 4]);
    }
}

#[test]
fn an_accepted_feed_costs_what_was_forecast() {
    let mut random = Random(8);
    for _ in 0..500 {
        let mode = MODES[random.below(5)];
        let n = if mode == Mode::Cfb {
            1 + random.below(128)
        } else {
            128
        };
        let bits = random.below(700);
        let input = random.bytes(100);
        let mut out = [0; 100];
        let session = opened(mode, Direction::Decrypt, n);
        match (
            forecast(mode, n, bits),
            session.feed_bits(&input, bits, &mut out, 3),
        ) {
            (Ok(cost), Ok(fed)) => {
                assert_eq!((cost.bytes, cost.runs), (fed.written.len(), fed.runs))
            }
            (Err(answer), Err(refused)) => assert_eq!(answer, refused.answer),
            (cost, fed) => panic!("{:?}, {:?}", cost, fed),
        }
    }
}
