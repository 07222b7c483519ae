// The library's exports, with good arguments and bad ones, against the reference. The sessions are made by hand: any
// number in a field, any byte in a flag, of which 0 says no and every other yes, and in the spare bytes.
use crate::arguments::{
    any_key, any_n, any_pad, any_padded, any_place, iv_for, one_thing_else, session_by_hand, Block,
    Feed, Message,
};
use crate::direction::Direction;
use crate::fips197::Schedule;
use crate::hex::hex;
use crate::rattle::{self, CounterPlace, Forecast, Length, Neighbour, Session, Session32, NO_MODE};
use crate::reference::{self, MAX_BITS, MODES};
use crate::report::{equal, Outcome, Report};
use crate::rng::Rng;
use crate::sessions::same;
use std::collections::BTreeSet;

const CALLS: usize = 6000;

// One call with random arguments, which has to do what the reference does. The answer is the number.
type Call = fn(&mut Rng) -> Result<u8, String>;

// Each with all numbers that it answers.
const EXPORTS: [(&str, Call, &[u8]); 10] = [
    ("pad", pad, &[0, 6, 8]),
    ("unpad", unpad, &[0, 6, 7]),
    ("cts_encrypt and cts_decrypt", steal, &[0, 1, 2, 6, 8, 13]),
    ("cbc_block", block, &[0, 1, 2, 8, 11]),
    ("cbc_neighbour", neighbour, &[0, 2, 11]),
    ("counter_place", place, &[0, 14, 16]),
    ("forecast", forecast, &[0, 3, 6, 7, NO_MODE]),
    ("alike", alike, &[0, 1]),
    ("feed", feed, &FEED),
    ("carry, then feed", carry, &CARRIED_FEED),
];
const FEED: [u8; 9] = [0, 4, 5, 6, 7, 8, 9, 15, NO_MODE];
// the units of an older session are too few for 9
const CARRIED_FEED: [u8; 8] = [0, 4, 5, 6, 7, 8, 15, NO_MODE];

pub fn run(report: &mut Report) {
    for (name, call, numbers) in EXPORTS {
        report.test(
            &format!("exports: {CALLS} calls of {name} as the reference"),
            |rng| calls(rng, call, numbers),
        );
    }
    report.test(
        "exports: each byte as a flag of an opening and of a session",
        flags,
    );
}

fn calls(rng: &mut Rng, call: Call, numbers: &[u8]) -> Outcome {
    let mut answered = BTreeSet::new();
    for _ in 0..CALLS {
        answered.insert(call(rng)?);
    }
    let expected = numbers.iter().copied().collect();
    equal(|| "the numbers answered".to_string(), expected, answered)
}

fn pad(rng: &mut Rng) -> Result<u8, String> {
    let pad = any_pad(rng);
    let (mut expected, mut out) = (pad.out.clone(), pad.out.clone());
    let (number, bits) = reference::pad(&pad.input, pad.bits, &mut expected, pad.place);
    let came = rattle::pad(&pad.input, pad.bits, &mut out, pad.place);
    let padded = Length {
        bits,
        number: number.into(),
    };
    equal(|| pad.named(), (padded, hex(&expected)), (came, hex(&out)))?;
    Ok(number)
}

fn unpad(rng: &mut Rng) -> Result<u8, String> {
    let (text, count) = any_padded(rng);
    let (number, bits) = reference::unpad(&text, count);
    let unpadded = Length {
        bits,
        number: number.into(),
    };
    let named = || format!("{count} bits of {}", hex(&text));
    equal(named, unpadded, rattle::unpad(&text, count))?;
    Ok(number)
}

fn steal(rng: &mut Rng) -> Result<u8, String> {
    let Message {
        direction,
        key,
        iv,
        input,
        bits,
        out,
        place,
    } = Message::any(rng);
    let named = || {
        let (key, iv, input) = (hex(&key), hex(&iv), hex(&input));
        format!("{direction:?}, key {key} iv {iv}, {bits} bits of {input} to {place}")
    };
    let (mut expected, mut written) = (out.clone(), out.clone());
    let number = reference::steal(direction, &key, &iv, &input, bits, &mut expected, place);
    let came = rattle::steal(direction, &key, &iv, &input, bits, &mut written, place);
    equal(named, (number, hex(&expected)), (came, hex(&written)))?;
    Ok(number)
}

fn block(rng: &mut Rng) -> Result<u8, String> {
    let Block {
        key,
        iv,
        text,
        j,
        out,
        place,
    } = Block::any(rng);
    let named = || {
        let (key, iv, text) = (hex(&key), hex(&iv), hex(&text));
        format!("key {key} iv {iv}, block {j} of {text} to {place}")
    };
    let (mut expected, mut written) = (out.clone(), out.clone());
    let number = reference::single_block(&key, &iv, &text, j, &mut expected, place);
    let came = rattle::cbc_block(&key, &iv, &text, j, &mut written, place);
    equal(named, (number, hex(&expected)), (came, hex(&written)))?;
    Ok(number)
}

// The number is that of the block itself, under a good key and with room for it.
fn neighbour(rng: &mut Rng) -> Result<u8, String> {
    let Block { iv, text, j, .. } = Block::any(rng);
    let named = || format!("iv {}, block {j} of {}", hex(&iv), hex(&text));
    let number = reference::single_block(&[0; 16], &iv, &text, j, &mut [0; 16], 0);
    let came = rattle::cbc_neighbour(&iv, &text, j);
    equal(named, number as usize, came.number)?;
    let Neighbour { offset, length, .. } = came;
    let from = [&iv, &text].into_iter().nth(came.source);
    let part = from.and_then(|from| from.get(offset..)?.get(..length));
    let expected = reference::neighbour(&iv, &text, j);
    equal(named, Some(hex(expected)), part.map(hex))?;
    if number != 0 {
        equal(named, (0, 0, 0), (offset, length, came.source))?;
    }
    Ok(number)
}

fn place(rng: &mut Rng) -> Result<u8, String> {
    let (m, iv, block) = any_place(rng);
    let (number, increments) = reference::place(m, iv, block);
    let place = CounterPlace {
        increments,
        number: number.into(),
    };
    let named = || format!("m {m} iv {} block {}", hex(&iv), hex(&block));
    equal(named, place, rattle::counter_place(&iv, &block, m))?;
    Ok(number)
}

// A number that is no mode's, though its lowest bits may be one's.
fn no_mode(rng: &mut Rng) -> usize {
    match rng.below(3) {
        0 => 5 + rng.below(251),
        1 => usize::MAX,
        _ => rng.below(8) | 8 << rng.below(61),
    }
}

fn forecast(rng: &mut Rng) -> Result<u8, String> {
    let mode = *rng.pick(&MODES);
    let n = match rng.below(8) {
        0 => rng.below(200),
        1 => rng.number() as usize,
        _ => any_n(rng, mode),
    };
    let any = Feed::any(rng, n.min(1000)).bits;
    let bits = *rng.pick(&[any, any, any, n, MAX_BITS, MAX_BITS + 1, usize::MAX]);
    let (mode, (number, bytes, runs)) = match rng.below(6) {
        0 => (no_mode(rng), (NO_MODE, 0, 0)),
        _ => (mode as usize, reference::forecast(mode, n, bits)),
    };
    let cost = Forecast {
        bytes,
        runs,
        number: number.into(),
    };
    let named = || format!("mode {mode} n {n}, {bits} bits");
    equal(named, cost, rattle::forecast(mode, n, bits))?;
    Ok(number)
}

// A byte that says so.
fn flag(rng: &mut Rng, set: bool) -> u8 {
    match set {
        true => 1 + rng.below(255) as u8,
        false => 0,
    }
}

// The session as a caller may hold it.
fn held(rng: &mut Rng, session: &reference::Session) -> Session {
    Session {
        units: session.units,
        mode: session.mode as usize,
        n: session.n,
        m: session.m,
        rounds: session.schedule.rounds,
        keys: session.schedule.keys,
        register: session.register,
        decrypting: flag(rng, session.direction == Direction::Decrypt),
        closed: flag(rng, session.closed),
        spare: rng.bytes(6).try_into().expect("6 bytes"),
    }
}

fn direction_of(flag: u8) -> Direction {
    match flag {
        0 => Direction::Encrypt,
        _ => Direction::Decrypt,
    }
}

// The session that a held one stands for. None where its mode is none.
fn meant(held: &Session) -> Option<reference::Session> {
    Some(reference::Session {
        mode: *MODES.get(held.mode)?,
        direction: direction_of(held.decrypting),
        n: held.n,
        m: held.m,
        schedule: Schedule {
            rounds: held.rounds,
            keys: held.keys,
        },
        register: held.register,
        units: held.units,
        closed: held.closed != 0,
        runs: 0,
    })
}

fn any_held(rng: &mut Rng) -> Session {
    let session = session_by_hand(rng);
    let mut held = held(rng, &session);
    match rng.below(12) {
        0 => held.mode = no_mode(rng),
        1 => [held.n, held.m, held.rounds] = [(); 3].map(|_| rng.number() as usize),
        _ => {}
    }
    held
}

// A session whose mode is none is alike to none, itself included.
fn alike(rng: &mut Rng) -> Result<u8, String> {
    let session = session_by_hand(rng);
    let other = one_thing_else(rng, &session);
    let (mut one, mut other) = (held(rng, &session), held(rng, &other));
    let none = no_mode(rng);
    let which = rng.below(12);
    if which < 2 {
        one.mode = none;
    }
    if (1..3).contains(&which) {
        other.mode = none;
    }
    let both = meant(&one).zip(meant(&other));
    let expected = both.map_or(false, |(one, other)| one.alike(&other)) as u8;
    equal(
        || format!("{one:?}, {other:?}"),
        expected,
        one.alike(&other),
    )?;
    Ok(expected)
}

// A refused feed gives the session back byte for byte; an accepted one has moved units, register and closing, and
// nothing else.
fn feed_of(rng: &mut Rng, mut ours: Session) -> Result<u8, String> {
    let before = ours.clone();
    let mut theirs = meant(&before);
    let feed = Feed::any(rng, before.n.min(1000));
    let (mut expected, mut out) = (feed.out.clone(), feed.out.clone());
    let answer = match &mut theirs {
        Some(session) => session.feed(&feed.input, feed.bits, &mut expected, feed.place),
        None => (NO_MODE, 0),
    };
    let came = ours.feed(&feed.input, feed.bits, &mut out, feed.place);
    let named = || format!("{before:?}, {}", feed.named());
    let after = match theirs {
        Some(session) if answer.0 == 0 => Session {
            units: session.units,
            register: session.register,
            closed: session.closed as u8,
            ..before.clone()
        },
        _ => before.clone(),
    };
    equal(named, (answer, &after, expected), (came, &ours, out))?;
    Ok(answer.0)
}

fn feed(rng: &mut Rng) -> Result<u8, String> {
    let session = any_held(rng);
    feed_of(rng, session)
}

fn carry(rng: &mut Rng) -> Result<u8, String> {
    let mut session = any_held(rng);
    let older = Session32 {
        mode: session.mode,
        decrypting: session.decrypting,
        spare: rng.bytes(7).try_into().expect("7 bytes"),
        n: session.n,
        m: session.m,
        rounds: session.rounds,
        keys: session.keys,
        register: session.register,
        units: session.units as u32,
        closed: session.closed,
        spare2: rng.bytes(3).try_into().expect("3 bytes"),
    };
    session.units = older.units.into();
    session.spare = [0; 6];
    equal(|| format!("{older:?}"), &session, &older.carried())?;
    feed_of(rng, session)
}

fn flags(rng: &mut Rng) -> Outcome {
    for flag in 0..=255 {
        for mode in MODES {
            let (n, key, iv) = (any_n(rng, mode), any_key(rng), iv_for(rng, mode));
            let direction = direction_of(flag);
            let theirs = reference::Session::open(mode, direction, n, &key, &iv);
            let ours = Session::open(mode as usize, flag, n, &key, &iv);
            let named = || format!("{} {n}, flag {flag}", mode.name());
            same(named, (theirs.0, &theirs.1, &[]), (ours.0, &ours.1, &[]))?;
            let (mut decrypting, mut closed) = (ours.1.clone(), ours.1);
            decrypting.decrypting = flag;
            closed.closed = flag;
            feed_of(rng, decrypting)?;
            feed_of(rng, closed)?;
        }
    }
    Ok(())
}
