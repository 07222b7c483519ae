// Counters of m bits in CTR (request 05), through the static library: against libtomcrypt where m is whole bytes, for
// every m against counter blocks that are computed as numbers and encrypted by OpenSSL, and against the reference for
// all arguments.
use crate::arguments::{any_iv, Feed, NO_COUNTER};
use crate::direction::Direction;
use crate::hex::hex;
use crate::openssl::Key;
use crate::rattle::Session;
use crate::reference::{self, counting, counts, parts, Mode, MAX_BITS, MAX_UNITS, MODES};
use crate::report::{equal, Outcome, Report};
use crate::rng::Rng;
use crate::sessions::{same, DIRECTIONS, KEY_LENGTHS};
use crate::tomcrypt;
use std::collections::HashSet;

// For each m, key length and direction.
const TEXTS: usize = 20;

// Up to these m a counter is led through all its values, and the registers of each are kept.
const WALKED: usize = 16;
const KEPT: usize = 12;

pub fn run(report: &mut Report) {
    for length in KEY_LENGTHS {
        for (direction, verb) in DIRECTIONS {
            let aes = 8 * length;
            report.test(
                &format!("CTR: AES-{aes} {verb} with m = 8, 16, .. 128 as libtomcrypt does"),
                |rng| as_tomcrypt(rng, length, direction),
            );
            report.test(
                &format!("CTR: AES-{aes} {verb} with m = 1, 2, .. 128 under the counter blocks of SP 800-38A"),
                |rng| as_numbers(rng, length, direction),
            );
        }
    }
    report.test(
        &format!("CTR: a counter of 1 to {WALKED} bits is led through 2^m blocks, and no further"),
        walked,
    );
    report.test(
        &format!("CTR: the 2^m counter blocks of 1 to {KEPT} bits are distinct, under the IV's other bits"),
        distinct,
    );
    report.test(
        "CTR: the last units of every m, 2^m or 2^64 - 1",
        last_units,
    );
    for mode in MODES {
        report.test(
            &format!(
                "{} answers, writes and moves as the reference under any m",
                mode.name()
            ),
            |rng| as_reference(rng, mode),
        );
    }
    report.test("a session held with any m is fed as the reference's", held);
}

// Counter block t of a message (SP 800-38A, appendix B.1, by its index).
pub fn counter_block(iv: &[u8; 16], m: usize, t: u128) -> [u8; 16] {
    let first = u128::from_be_bytes(*iv);
    let count = first.wrapping_add(t) & counting(m);
    (first & !counting(m) | count).to_be_bytes()
}

fn blocks_of(m: usize) -> usize {
    1usize.checked_shl(m as u32).unwrap_or(usize::MAX)
}

// The bits of a text of at most 2^m units, the last one perhaps short.
fn any_bits(rng: &mut Rng, m: usize) -> usize {
    let units = 1 + rng.below(blocks_of(m).min(40));
    let last = if rng.below(2) == 0 {
        128
    } else {
        1 + rng.below(128)
    };
    128 * (units - 1) + last
}

fn open(direction: Direction, m: usize, key: &[u8], iv: &[u8]) -> Result<Session, String> {
    let decrypting = direction == Direction::Decrypt;
    match Session::open_counter(Mode::Ctr as usize, decrypting, 128, m, key, iv) {
        (0, session) => Ok(session),
        (number, _) => Err(format!("an opening with m = {m} is answered {number}")),
    }
}

// Feeds a text in parts of at most `most` units, and gives what was written.
fn fed(
    rng: &mut Rng,
    session: &mut Session,
    text: &[u8],
    bits: usize,
    most: usize,
) -> Result<Vec<u8>, String> {
    let mut out = vec![0; text.len()];
    let mut at = 0;
    while at < bits {
        let end = (at + 128 * (1 + rng.below(most))).min(bits);
        let input = &text[at / 8..parts(end, 8)];
        let answer = session.feed(input, end - at, &mut out, at / 8);
        let named = || format!("m {}, bits {at} to {end}", session.m);
        equal(named, (0, parts(end - at, 128)), answer)?;
        at = end;
    }
    Ok(out)
}

// The spare bits of a text's last byte are 0.
fn without_spare_bits(mut text: Vec<u8>, bits: usize) -> Vec<u8> {
    if let Some(last) = text.last_mut() {
        *last &= 0xff << (8 * parts(bits, 8) - bits);
    }
    text
}

// Texts with any IV, cut at random: what they became, and where the session is then.
fn texts(
    rng: &mut Rng,
    (length, direction, m): (usize, Direction, usize),
    other: impl Fn(&[u8], &[u8; 16], &[u8]) -> Vec<u8>,
) -> Outcome {
    for _ in 0..TEXTS {
        let key = rng.bytes(length);
        let iv = any_iv(rng, m);
        let bits = any_bits(rng, m);
        let text = rng.bytes(parts(bits, 8));
        let mut session = open(direction, m, &key, &iv)?;
        let came = fed(rng, &mut session, &text, bits, 8)?;
        let expected = without_spare_bits(other(&key, &iv, &text), bits);
        let units = parts(bits, 128);
        equal(
            || {
                format!(
                    "m {m} key {} iv {} {bits} bits of {}",
                    hex(&key),
                    hex(&iv),
                    hex(&text)
                )
            },
            (
                hex(&expected),
                hex(&counter_block(&iv, m, units as u128)),
                units,
                (bits % 128 != 0) as u8,
            ),
            (
                hex(&came),
                hex(&session.register),
                session.units as usize,
                session.closed,
            ),
        )?;
    }
    Ok(())
}

fn as_tomcrypt(rng: &mut Rng, length: usize, direction: Direction) -> Outcome {
    for m in (8..=128).step_by(8) {
        texts(rng, (length, direction, m), |key, iv, text| {
            let mut out = vec![0; text.len()];
            let cipher = tomcrypt::Cipher::new("ctr", m, key, iv, direction);
            cipher.expect("CTR").update(text, &mut out);
            out
        })?;
    }
    Ok(())
}

// The text under the counter blocks of an IV, from block t on.
fn under_counter_blocks(key: &Key, iv: &[u8; 16], m: usize, t: usize, text: &[u8]) -> Vec<u8> {
    let block = |(i, unit): (usize, &[u8])| -> Vec<u8> {
        let mask = key.enc(&counter_block(iv, m, (t + i) as u128));
        unit.iter().zip(mask).map(|(a, b)| a ^ b).collect()
    };
    text.chunks(16).enumerate().flat_map(block).collect()
}

fn as_numbers(rng: &mut Rng, length: usize, direction: Direction) -> Outcome {
    for m in 1..=128 {
        texts(rng, (length, direction, m), |key, iv, text| {
            under_counter_blocks(&Key::new(key), iv, m, 0, text)
        })?;
    }
    Ok(())
}

// What is answered `number`, and changes nothing.
fn refused(session: &mut Session, bits: usize, number: u8) -> Outcome {
    let before = session.clone();
    let input = vec![0; parts(bits, 8)];
    let mut out = vec![9; input.len()];
    let answer = session.feed(&input, bits, &mut out, 0);
    equal(
        || format!("m {}, {bits} bits after {} units", before.m, before.units),
        ((number, 0), &before, true),
        (answer, session, out.iter().all(|&b| b == 9)),
    )
}

fn walked(rng: &mut Rng) -> Outcome {
    let most = MAX_BITS / 128;
    for m in 1..=WALKED {
        let length = *rng.pick(&KEY_LENGTHS);
        let key = rng.bytes(length);
        let iv = any_iv(rng, m);
        let direction = rng.pick(&DIRECTIONS).0;
        let mut session = open(direction, m, &key, &iv)?;
        let mut done = 0;
        while done < blocks_of(m) {
            let left = blocks_of(m) - done;
            if left < most {
                refused(
                    &mut session,
                    128 * left + 1 + rng.below(128 * (most - left)),
                    15,
                )?;
            }
            let units = 1 + rng.below(left.min(most));
            let text = rng.bytes(16 * units);
            let came = fed(rng, &mut session, &text, 128 * units, most)?;
            let expected = under_counter_blocks(&Key::new(&key), &iv, m, done, &text);
            equal(|| format!("m {m}, after {done} units"), expected, came)?;
            done += units;
        }
        // all values were used, and the counter is again where it began
        equal(
            || format!("m {m}, after all units"),
            (hex(&iv), blocks_of(m), 0),
            (
                hex(&session.register),
                session.units as usize,
                session.closed,
            ),
        )?;
        for bits in [1, 128, 129, MAX_BITS] {
            refused(&mut session, bits, 15)?;
        }
        equal(
            || format!("m {m}, no bits"),
            (0, 0),
            session.feed(&[], 0, &mut [], 0),
        )?;
    }
    Ok(())
}

fn distinct(rng: &mut Rng) -> Outcome {
    for m in 1..=KEPT {
        let key = rng.bytes(16);
        let iv = any_iv(rng, m);
        let mut session = open(Direction::Encrypt, m, &key, &iv)?;
        let mut blocks = HashSet::new();
        let mut masks = HashSet::new();
        for t in 0..blocks_of(m) {
            let block = u128::from_be_bytes(session.register);
            let upper = u128::from_be_bytes(iv) & !counting(m);
            equal(|| format!("m {m}, block {t}"), upper, block & !counting(m))?;
            blocks.insert(block);
            masks.insert(fed(rng, &mut session, &[0; 16], 128, 1)?);
        }
        equal(
            || format!("m {m}: counter blocks, and what they are encrypted to"),
            (blocks_of(m), blocks_of(m)),
            (blocks.len(), masks.len()),
        )?;
    }
    Ok(())
}

// From a session that has done all units but `left` that its counter, or the count of units, allows.
fn last_units(rng: &mut Rng) -> Outcome {
    for m in 1..=128 {
        let most = counts(m).min(MAX_UNITS as u128);
        for left in 0..most.min(5) {
            for units in 0..8 {
                let key = rng.bytes(16);
                let iv = any_iv(rng, m);
                let mut session = open(Direction::Encrypt, m, &key, &iv)?;
                session.units = (most - left) as u64;
                if units as u128 > left {
                    refused(&mut session, 128 * units, if m < 64 { 15 } else { 9 })?;
                } else {
                    fed(rng, &mut session, &vec![0; 16 * units], 128 * units, 8)?;
                    equal(
                        || format!("m {m}, {left} units left, {units} fed"),
                        most - left + units as u128,
                        session.units as u128,
                    )?;
                }
            }
        }
    }
    Ok(())
}

// One feed, of both.
fn feed_both(
    rng: &mut Rng,
    opening: &str,
    theirs: &mut reference::Session,
    ours: &mut Session,
) -> Outcome {
    let feed = Feed::any(rng, theirs.n);
    let (mut expected, mut out) = (feed.out.clone(), feed.out.clone());
    let fed = theirs.feed(&feed.input, feed.bits, &mut expected, feed.place);
    let came = ours.feed(&feed.input, feed.bits, &mut out, feed.place);
    same(
        || format!("{opening}, {}", feed.named()),
        (fed, theirs, &expected),
        (came, ours, &out),
    )
}

fn as_reference(rng: &mut Rng, mode: Mode) -> Outcome {
    for m in (1..=128).chain(NO_COUNTER) {
        // outside CTR m is 128 in every other turn, so that feeds are accepted
        let m = if mode == Mode::Ctr || rng.below(2) == 0 {
            m
        } else {
            128
        };
        for (direction, _) in DIRECTIONS {
            let n = match rng.below(10) {
                0 => rng.below(140),
                1..=4 if mode == Mode::Cfb => 1 + rng.below(128),
                _ => 128,
            };
            let key_length = *rng.pick(&[16, 16, 16, 24, 24, 24, 32, 32, 32, 17]);
            let key = rng.bytes(key_length);
            let iv_length = 16 * (mode != Mode::Ecb) as usize + (rng.below(12) == 0) as usize;
            let iv = match iv_length {
                16 if (1..=128).contains(&m) => any_iv(rng, m).to_vec(),
                _ => rng.bytes(iv_length),
            };
            let decrypting = direction == Direction::Decrypt;
            let (number, mut theirs) =
                reference::Session::open_counter(mode, direction, n, m, &key, &iv);
            let (came, mut ours) =
                Session::open_counter(mode as usize, decrypting, n, m, &key, &iv);
            let opening = format!("{} {n} {m} key {} iv {}", mode.name(), hex(&key), hex(&iv));
            same(
                || opening.clone(),
                (number, &theirs, &[]),
                (came, &ours, &[]),
            )?;
            for _ in 0..8 {
                feed_both(rng, &opening, &mut theirs, &mut ours)?;
            }
        }
    }
    Ok(())
}

// An opening's session into which the caller writes another m.
fn held(rng: &mut Rng) -> Outcome {
    for mode in MODES {
        for m in (1..=128).chain(NO_COUNTER) {
            let key = rng.bytes(16);
            let iv = rng.bytes(16 * (mode != Mode::Ecb) as usize);
            let n = if mode == Mode::Cfb { 8 } else { 128 };
            let (_, mut theirs) = reference::Session::open(mode, Direction::Encrypt, n, &key, &iv);
            let (_, mut ours) = Session::open(mode as usize, false, n, &key, &iv);
            theirs.m = m;
            ours.m = m;
            for _ in 0..4 {
                feed_both(
                    rng,
                    &format!("{} with m {m}", mode.name()),
                    &mut theirs,
                    &mut ours,
                )?;
            }
        }
    }
    Ok(())
}
