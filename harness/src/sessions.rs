// Sessions through the static library: against OpenSSL's modes, and against the reference for what OpenSSL does not
// have.
use crate::arguments::{iv_for, Feed};
use crate::direction::Direction;
use crate::fips197::Schedule;
use crate::hex::hex;
use crate::openssl::Cipher;
use crate::rattle::{self, NO_MODE};
use crate::reference::{self, parts, Mode, MAX_UNITS, MODES};
use crate::report::{equal, Outcome, Report};
use crate::rng::Rng;

pub const KEY_LENGTHS: [usize; 3] = [16, 24, 32];
pub const DIRECTIONS: [(Direction, &str); 2] = [
    (Direction::Encrypt, "encrypts"),
    (Direction::Decrypt, "decrypts"),
];
const TEXTS: usize = 150;

// The modes that OpenSSL has: n, and the end of OpenSSL's name.
const SHARED: [(Mode, usize, &str); 7] = [
    (Mode::Ecb, 128, "ecb"),
    (Mode::Cbc, 128, "cbc"),
    (Mode::Cfb, 1, "cfb1"),
    (Mode::Cfb, 8, "cfb8"),
    (Mode::Cfb, 128, "cfb"),
    (Mode::Ofb, 128, "ofb"),
    (Mode::Ctr, 128, "ctr"),
];

pub fn run(report: &mut Report) {
    for (mode, n, name) in SHARED {
        for length in KEY_LENGTHS {
            for (direction, verb) in DIRECTIONS {
                report.test(
                    &format!(
                        "AES-{} {verb} {TEXTS} texts, cut at random, as OpenSSL does in {name}",
                        8 * length
                    ),
                    |rng| as_openssl(rng, mode, n, name, length, direction),
                );
            }
        }
    }
    report.test(
        "the counter of CTR goes through 2^128 as OpenSSL's does",
        counter,
    );
    for mode in MODES {
        report.test(
            &format!(
                "{} answers, writes and moves as the reference, refused feeds included",
                mode.name()
            ),
            |rng| as_reference(rng, mode),
        );
    }
    report.test(
        &format!("the count of units ends at {MAX_UNITS}"),
        last_units,
    );
    report.test(
        &format!("a number that is no mode is answered {NO_MODE}: opened the refused session, fed nothing changed"),
        no_mode,
    );
}

fn open(
    mode: Mode,
    direction: Direction,
    n: usize,
    key: &[u8],
    iv: &[u8],
) -> (u8, rattle::Session) {
    rattle::Session::open(mode as usize, direction == Direction::Decrypt, n, key, iv)
}

// Feeds a text of whole bytes in parts that end at a unit and a byte, and gives what was written.
pub fn fed_in_parts(
    rng: &mut Rng,
    session: &mut rattle::Session,
    text: &[u8],
    unit: usize,
) -> Result<Vec<u8>, String> {
    let mut out = vec![0; text.len()];
    let mut at = 0;
    while at < text.len() {
        let end = (at + unit * (1 + rng.below(8))).min(text.len());
        let (number, _) = session.feed(&text[at..end], 8 * (end - at), &mut out, at);
        if number != 0 {
            return Err(format!("a feed is answered {number}"));
        }
        at = end;
    }
    Ok(out)
}

fn as_openssl(
    rng: &mut Rng,
    mode: Mode,
    n: usize,
    name: &str,
    length: usize,
    direction: Direction,
) -> Outcome {
    for _ in 0..TEXTS {
        let key = rng.bytes(length);
        let iv = iv_for(rng, mode);
        let unit = parts(n, 8);
        let whole = unit * rng.below(40);
        let short = matches!(mode, Mode::Ofb | Mode::Ctr) as usize * rng.below(16);
        let text = rng.bytes(whole + short);
        let (number, mut session) = open(mode, direction, n, &key, &iv);
        let came = fed_in_parts(rng, &mut session, &text, unit)?;
        let mut expected = vec![0; text.len()];
        Cipher::new(name, &key, &iv, direction).update(&text, &mut expected);
        equal(
            || format!("key {} iv {} text {}", hex(&key), hex(&iv), hex(&text)),
            (0, hex(&expected)),
            (number, hex(&came)),
        )?;
    }
    Ok(())
}

fn counter(rng: &mut Rng) -> Outcome {
    for high in 0..16 {
        let mut iv = [0xff; 16];
        iv[..high].copy_from_slice(&rng.bytes(high));
        iv[15] = 0xf0;
        let key = rng.bytes(32);
        let text = rng.bytes(16 * 40);
        let (_, mut session) = open(Mode::Ctr, Direction::Encrypt, 128, &key, &iv);
        let came = fed_in_parts(rng, &mut session, &text, 16)?;
        let mut expected = vec![0; text.len()];
        Cipher::new("ctr", &key, &iv, Direction::Encrypt).update(&text, &mut expected);
        equal(|| format!("iv {}", hex(&iv)), hex(&expected), hex(&came))?;
    }
    Ok(())
}

// A call's numbers, every field of the session, as a call writes it, and the output.
pub fn same<Numbers: PartialEq + std::fmt::Debug>(
    input: impl Fn() -> String,
    expected: (Numbers, &reference::Session, &[u8]),
    came: (Numbers, &rattle::Session, &[u8]),
) -> Outcome {
    let (numbers, session, out) = expected;
    equal(&input, numbers, came.0)?;
    let decrypting = (session.direction == Direction::Decrypt) as u8;
    equal(
        &input,
        (session.mode as usize, decrypting, session.n, session.m),
        (came.1.mode, came.1.decrypting, came.1.n, came.1.m),
    )?;
    let Schedule { rounds, keys } = &session.schedule;
    equal(
        &input,
        (*rounds, hex(keys), hex(&session.register)),
        (came.1.rounds, hex(&came.1.keys), hex(&came.1.register)),
    )?;
    equal(
        &input,
        (session.units, session.closed as u8, [0; 6]),
        (came.1.units, came.1.closed, came.1.spare),
    )?;
    equal(&input, hex(out), hex(came.2))
}

fn as_reference(rng: &mut Rng, mode: Mode) -> Outcome {
    for n in 0..=130 {
        let n = if mode == Mode::Cfb || rng.below(8) == 0 {
            n
        } else {
            128
        };
        for (direction, _) in DIRECTIONS {
            let key_length = *rng.pick(&[16, 16, 24, 24, 32, 32, 0, 17]);
            let key = rng.bytes(key_length);
            let iv_length = if rng.below(12) == 0 { 15 } else { 16 };
            let iv = if mode == Mode::Ecb && rng.below(12) != 0 {
                vec![]
            } else {
                rng.bytes(iv_length)
            };
            let (number, mut theirs) = reference::Session::open(mode, direction, n, &key, &iv);
            let (came, mut ours) = open(mode, direction, n, &key, &iv);
            let opening = || format!("{} {n} key {} iv {}", mode.name(), hex(&key), hex(&iv));
            same(opening, (number, &theirs, &[]), (came, &ours, &[]))?;
            for _ in 0..6 {
                let feed = Feed::any(rng, n);
                let mut expected = feed.out.clone();
                let mut out = feed.out.clone();
                let fed = theirs.feed(&feed.input, feed.bits, &mut expected, feed.place);
                let came = ours.feed(&feed.input, feed.bits, &mut out, feed.place);
                same(
                    || format!("{}, {}", opening(), feed.named()),
                    (fed, &theirs, &expected),
                    (came, &ours, &out),
                )?;
            }
        }
    }
    Ok(())
}

// From a session that has done all units but `left`.
fn last_units(rng: &mut Rng) -> Outcome {
    for left in 0..6 {
        for units in 0..8 {
            let key = rng.bytes(16);
            let iv = rng.bytes(16);
            let (_, mut theirs) =
                reference::Session::open(Mode::Cfb, Direction::Decrypt, 8, &key, &iv);
            let (_, mut ours) = open(Mode::Cfb, Direction::Decrypt, 8, &key, &iv);
            theirs.units = MAX_UNITS - left;
            ours.units = MAX_UNITS - left;
            let input = rng.bytes(units);
            let (mut expected, mut out) = ([7; 8], [7; 8]);
            let fed = theirs.feed(&input, 8 * units, &mut expected, 0);
            let came = ours.feed(&input, 8 * units, &mut out, 0);
            same(
                || format!("{left} units left, {units} fed"),
                (fed, &theirs, &expected),
                (came, &ours, &out),
            )?;
        }
    }
    Ok(())
}

fn no_mode(rng: &mut Rng) -> Outcome {
    let large = [256, 258, 65_538, (1 << 32) + 2, usize::MAX];
    for mode in (5..=255).chain(large) {
        let key = rng.bytes(16);
        let iv = rng.bytes(16);
        let refused = reference::Session::refused();
        for (number, session) in [
            rattle::Session::open(mode, true, 128, &key, &iv),
            rattle::Session::open_counter(mode, true, 128, mode % 200, &key, &iv),
        ] {
            same(
                || format!("mode {mode}"),
                (NO_MODE, &refused, &[]),
                (number, &session, &[]),
            )?;
        }
        let (_, mut session) = open(Mode::Ctr, Direction::Encrypt, 128, &key, &iv);
        session.mode = mode;
        let before = session.clone();
        let mut out = [9; 16];
        let fed = session.feed(&iv, 128, &mut out, 0);
        equal(
            || format!("mode {mode}"),
            ((NO_MODE, 0), &before, [9; 16]),
            (fed, &session, out),
        )?;
    }
    Ok(())
}
