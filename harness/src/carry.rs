// Sessions that the release before request 07 opened, carried over (request 07), through the static library: they go on
// as the reference does within that release's 4,294,967,295 units, then on to 2^64 - 1, and no further.
use crate::arguments::{any_direction, any_iv, any_key, Feed};
use crate::direction::Direction;
use crate::hex::hex;
use crate::rattle::{self, Session32, NO_MODE};
use crate::reference::{self, counts, Mode, MAX_BITS, MAX_UNITS, MODES, OLDER_MAX_UNITS};
use crate::report::{equal, Outcome, Report};
use crate::rng::Rng;
use crate::sessions::same;

const CARRIED: usize = 4000;

// The sessions of a mode, and in CFB those of each n.
const SESSIONS: usize = 600;
const SESSIONS_OF_N: usize = 8;

// The feeds of a session before the older limit at most, and those past it.
const FEEDS: usize = 12;
const MORE: usize = 6;

pub fn run(report: &mut Report) {
    report.test(
        &format!("carry: {CARRIED} older sessions keep each part"),
        parts_kept,
    );
    for mode in MODES {
        report.test(
            &format!(
                "carry: {} goes on as before, and past {OLDER_MAX_UNITS} units",
                mode.name()
            ),
            |rng| goes_on(rng, mode),
        );
    }
    report.test(
        &format!("carry: feeds about {OLDER_MAX_UNITS} units and 2^m, as before or past them"),
        at_the_limit,
    );
    for mode in MODES {
        report.test(
            &format!(
                "{} ends at 2^64 - 1 units, and the count never wraps",
                mode.name()
            ),
            |rng| last_units(rng, mode),
        );
    }
}

// How often something happened, by its name. A test that something never happened in has tested nothing of it.
struct Tally(Vec<(&'static str, usize)>);

impl Tally {
    fn of(names: &[&'static str]) -> Tally {
        Tally(names.iter().map(|&name| (name, 0)).collect())
    }

    fn count(&mut self, name: &'static str) {
        let place = self.0.iter_mut().find(|(other, _)| *other == name);
        match place {
            Some((_, times)) => *times += 1,
            None => panic!("{name} is not expected"),
        }
    }

    fn all_happened(&self) -> Outcome {
        let never: Vec<&str> = self.0.iter().filter(|p| p.1 == 0).map(|p| p.0).collect();
        equal(|| "never happened".to_string(), vec![], never)
    }
}

fn any_units(rng: &mut Rng) -> u32 {
    match rng.below(6) {
        0 => 0,
        1 => u32::MAX,
        2 => 1 << rng.below(32),
        3 => u32::MAX - rng.below(12) as u32,
        _ => rng.number() as u32,
    }
}

// Any parts, those that no opening gives too.
fn any_older(rng: &mut Rng) -> Session32 {
    let mut keys = [0; 240];
    keys.copy_from_slice(&rng.bytes(240));
    Session32 {
        mode: match rng.below(3) {
            0 => rng.number() as usize,
            1 => rng.below(256),
            _ => rng.below(5),
        },
        decrypting: rng.number() as u8,
        spare: rng.bytes(7).try_into().expect("7 bytes"),
        n: rng.number() as usize >> rng.below(64),
        m: rng.number() as usize >> rng.below(64),
        rounds: rng.number() as usize >> rng.below(64),
        keys,
        register: rng.block(),
        units: any_units(rng),
        closed: rng.number() as u8,
        spare2: rng.bytes(3).try_into().expect("3 bytes"),
    }
}

fn parts_kept(rng: &mut Rng) -> Outcome {
    let mut tally = Tally::of(&["a mode", "no mode", "no units", "the most units"]);
    for _ in 0..CARRIED {
        let older = any_older(rng);
        let before = older.clone();
        let mut session = older.carried();
        let expected = rattle::Session {
            mode: older.mode,
            decrypting: older.decrypting,
            n: older.n,
            m: older.m,
            rounds: older.rounds,
            keys: older.keys,
            register: older.register,
            units: u64::from(older.units),
            closed: older.closed,
            spare: [0; 6],
        };
        equal(|| format!("{older:?}"), &expected, &session)?;
        equal(|| "the older session".to_string(), &before, &older)?;
        match older.units {
            0 => tally.count("no units"),
            u32::MAX => tally.count("the most units"),
            _ => {}
        }
        if older.mode < 5 {
            tally.count("a mode");
        } else {
            tally.count("no mode");
            let mut out = [9; 16];
            let fed = session.feed(&[0; 16], 128, &mut out, 0);
            equal(
                || format!("fed with mode {}", older.mode),
                ((NO_MODE, 0), &expected, [9; 16]),
                (fed, &session, out),
            )?;
        }
    }
    tally.all_happened()
}

// The bits of a counter: 2^m is often few, or close to the older limit.
fn any_m(rng: &mut Rng, mode: Mode) -> usize {
    match mode {
        Mode::Ctr => match rng.below(4) {
            0 => 1 + rng.below(4),
            1 => *rng.pick(&[31, 32, 33, 63, 64, 65, 127, 128]),
            2 => 32,
            _ => 1 + rng.below(128),
        },
        _ => 128,
    }
}

// A session just opened, as the reference has it.
fn any_opened(rng: &mut Rng, mode: Mode, n: usize, m: usize) -> reference::Session {
    let (direction, key) = (any_direction(rng), any_key(rng));
    let iv = if mode == Mode::Ecb {
        vec![]
    } else {
        any_iv(rng, m).to_vec()
    };
    let (number, session) = reference::Session::open_counter(mode, direction, n, m, &key, &iv);
    assert!(number == 0);
    session
}

// A session in the midst of its message. A few are closed, or are what no opening gives.
fn any_session(rng: &mut Rng, mode: Mode, n: usize) -> reference::Session {
    let m = any_m(rng, mode);
    let mut session = any_opened(rng, mode, n, m);
    let near = match rng.below(3) {
        0 => counts(m).min(OLDER_MAX_UNITS as u128) as u64,
        _ => OLDER_MAX_UNITS,
    };
    session.units = match rng.below(4) {
        0 => rng.below(12) as u64,
        _ => near.saturating_sub(rng.below(13) as u64),
    };
    match rng.below(30) {
        0 => session.closed = true,
        1 => session.n = 129,
        2 => session.m = 0,
        3 => session = reference::Session::refused(),
        _ => {}
    }
    session
}

// The same session as the older release had it.
fn older_of(session: &reference::Session) -> Session32 {
    Session32 {
        mode: session.mode as usize,
        decrypting: (session.direction == Direction::Decrypt) as u8,
        spare: [0; 7],
        n: session.n,
        m: session.m,
        rounds: session.schedule.rounds,
        keys: session.schedule.keys,
        register: session.register,
        units: u32::try_from(session.units).expect("units of 32 bits"),
        closed: session.closed as u8,
        spare2: [0; 3],
    }
}

// One feed of both, with the same answers; the answer is the number.
fn feed_both(
    named: &str,
    feed: &Feed,
    limit: u64,
    theirs: &mut reference::Session,
    ours: &mut rattle::Session,
) -> Result<u8, String> {
    let (mut expected, mut out) = (feed.out.clone(), feed.out.clone());
    let before = theirs.units;
    let fed = theirs.feed_within(limit, &feed.input, feed.bits, &mut expected, feed.place);
    let came = ours.feed(&feed.input, feed.bits, &mut out, feed.place);
    same(
        || format!("{named}, after {before} units {}", feed.named()),
        (fed, theirs, &expected),
        (came, ours, &out),
    )?;
    Ok(fed.0)
}

// What has to happen: answers within the older limit, where it is passed, and past it. 15 is of counters alone.
const COMMON: [&str; 4] = ["0", "refused", CROSSED, "0 past it"];
const OF_COUNTERS: [&str; 7] = [
    "0",
    "refused",
    "15",
    CROSSED,
    NOT_CROSSED,
    "0 past it",
    "15 past it",
];

fn goes_on(rng: &mut Rng, mode: Mode) -> Outcome {
    let mut tally = match mode {
        Mode::Ctr => Tally::of(&OF_COUNTERS),
        _ => Tally::of(&COMMON),
    };
    if mode == Mode::Cfb {
        for n in 1..=128 {
            for _ in 0..SESSIONS_OF_N {
                carried(rng, mode, n, &mut tally)?;
            }
        }
    } else {
        for _ in 0..SESSIONS {
            carried(rng, mode, 128, &mut tally)?;
        }
    }
    tally.all_happened()
}

// What happened where the older release answers 9.
const CROSSED: &str = "crossed";
const NOT_CROSSED: &str = "15 where it was 9";

// One feed of both, from a session that the older release could have, and what happened. As long as that release does
// not answer 9, today's answers as it did. Where it does, and leaves all as it was, today's takes the feed if the
// counter has the values for it, else answers 15.
fn feed_as_older(
    named: &str,
    feed: &Feed,
    theirs: &mut reference::Session,
    ours: &mut rattle::Session,
) -> Result<&'static str, String> {
    let (mut older, mut out) = (theirs.clone(), feed.out.clone());
    let answer = older.feed_within(
        OLDER_MAX_UNITS,
        &feed.input,
        feed.bits,
        &mut out,
        feed.place,
    );
    if answer.0 != 9 {
        let number = feed_both(named, feed, OLDER_MAX_UNITS, theirs, ours)?;
        return Ok(match number {
            0 => "0",
            15 => "15",
            _ => "refused",
        });
    }
    let refused = || format!("{named}: refused by the older release");
    same(refused, (answer, &older, &out), ((9, 0), ours, &feed.out))?;
    let units = theirs.units_with(feed.bits);
    let number = feed_both(named, feed, MAX_UNITS, theirs, ours)?;
    let (expected, happened) = match units <= counts(theirs.m) {
        true => ((0, units), CROSSED),
        false => ((15, older.units as u128), NOT_CROSSED),
    };
    let past = || format!("{named}: past the older limit");
    equal(past, expected, (number, ours.units as u128))?;
    Ok(happened)
}

// One session, up to the older limit as that release would have it, and past it.
fn carried(rng: &mut Rng, mode: Mode, n: usize, tally: &mut Tally) -> Outcome {
    let mut theirs = any_session(rng, mode, n);
    let mut ours = older_of(&theirs).carried();
    let m = theirs.m;
    let named = format!(
        "{} {n} {m} from {} units, R {}",
        mode.name(),
        theirs.units,
        hex(&theirs.register)
    );
    same(|| named.clone(), ((), &theirs, &[]), ((), &ours, &[]))?;
    for _ in 0..FEEDS {
        let feed = Feed::any(rng, n);
        let happened = feed_as_older(&named, &feed, &mut theirs, &mut ours)?;
        tally.count(happened);
        if ![CROSSED, NOT_CROSSED].contains(&happened) {
            continue;
        }
        for _ in 0..MORE {
            let feed = Feed::any(rng, n);
            match feed_both(&named, &feed, MAX_UNITS, &mut theirs, &mut ours)? {
                0 => tally.count("0 past it"),
                15 => tally.count("15 past it"),
                _ => tally.count("refused"),
            }
        }
        break;
    }
    Ok(())
}

// Modes, n and m for the edges; 2^m is below, about and above the older limit.
const EDGES: [(Mode, usize, usize); 12] = [
    (Mode::Ecb, 128, 128),
    (Mode::Cbc, 128, 128),
    (Mode::Cfb, 1, 128),
    (Mode::Cfb, 8, 128),
    (Mode::Ofb, 128, 128),
    (Mode::Ctr, 128, 5),
    (Mode::Ctr, 128, 31),
    (Mode::Ctr, 128, 32),
    (Mode::Ctr, 128, 33),
    (Mode::Ctr, 128, 63),
    (Mode::Ctr, 128, 64),
    (Mode::Ctr, 128, 128),
];

fn at_the_limit(rng: &mut Rng) -> Outcome {
    let mut tally = Tally::of(&["0", "refused", "15", CROSSED, NOT_CROSSED]);
    for edge in EDGES {
        for end in [5, 1 << 31, OLDER_MAX_UNITS] {
            for units in end - 2..=end {
                few_units_more(rng, edge, units, &mut tally)?;
            }
        }
    }
    tally.all_happened()
}

// Feeds of up to three units, each of a session that is open, of one that is closed and of a refused one.
fn few_units_more(
    rng: &mut Rng,
    (mode, n, m): (Mode, usize, usize),
    units: u64,
    tally: &mut Tally,
) -> Outcome {
    for bits in [0, 1, n, n + 1, 2 * n, 3 * n] {
        let open = any_opened(rng, mode, n, m);
        let mut closed = open.clone();
        closed.closed = true;
        for mut theirs in [open, closed, reference::Session::refused()] {
            theirs.units = units;
            let mut ours = older_of(&theirs).carried();
            let named = format!("{} {n} {m}, closed: {}", mode.name(), theirs.closed);
            let feed = of_bits(rng, bits);
            tally.count(feed_as_older(&named, &feed, &mut theirs, &mut ours)?);
        }
    }
    Ok(())
}

// From sessions that have done all units but `left`.
fn last_units(rng: &mut Rng, mode: Mode) -> Outcome {
    let mut tally = match mode {
        Mode::Ctr => Tally::of(&["0", "9", "15", "the last unit"]),
        _ => Tally::of(&["0", "9", "the last unit"]),
    };
    for left in 0..=8 {
        for units in 0..=8 {
            for _ in 0..4 {
                let n = match mode {
                    Mode::Cfb => 1 + rng.below(128),
                    _ => 128,
                };
                let mut theirs = any_session(rng, mode, n);
                if (theirs.n, theirs.closed) != (n, false) || !mode.takes_counter(theirs.m) {
                    continue;
                }
                let mut ours = older_of(&theirs).carried();
                theirs.units = MAX_UNITS - left;
                ours.units = MAX_UNITS - left;
                let named = format!("{} {n} {}, {left} left", mode.name(), theirs.m);
                // the second feed is of one unit
                for bits in [units * n, n] {
                    let before = ours.units;
                    let feed = of_bits(rng, bits);
                    match feed_both(&named, &feed, MAX_UNITS, &mut theirs, &mut ours)? {
                        0 => tally.count("0"),
                        9 => tally.count("9"),
                        15 => tally.count("15"),
                        number => return Err(format!("{named}: answered {number}")),
                    }
                    equal(|| format!("{named}: wrapped"), false, ours.units < before)?;
                    if before < MAX_UNITS && ours.units == MAX_UNITS {
                        tally.count("the last unit");
                    }
                }
            }
        }
    }
    tally.all_happened()?;
    largest(rng, mode)
}

// A feed of this many bits, with room for it.
fn of_bits(rng: &mut Rng, bits: usize) -> Feed {
    let size = reference::parts(bits, 8);
    Feed {
        input: rng.bytes(size),
        bits,
        out: vec![rng.number() as u8; size],
        place: 0,
    }
}

// The largest feed, of as many units as are left, and of one more.
fn largest(rng: &mut Rng, mode: Mode) -> Outcome {
    let n = if mode == Mode::Cfb { 1 } else { 128 };
    let (key, iv) = (any_key(rng), rng.bytes(16));
    let iv = if mode == Mode::Ecb { &[] } else { &iv[..] };
    let units = (MAX_BITS / n) as u64;
    let feed = of_bits(rng, MAX_BITS);
    for (left, number) in [(units - 1, 9), (units, 0)] {
        let (_, mut session) = rattle::Session::open(mode as usize, true, n, &key, iv);
        session.units = MAX_UNITS - left;
        let before = session.clone();
        let mut out = feed.out.clone();
        let (came, runs) = session.feed(&feed.input, MAX_BITS, &mut out, 0);
        let expected = if number == 0 {
            (0, units as usize, MAX_UNITS)
        } else {
            (number, 0, before.units)
        };
        let named = || format!("{} {n}, {left} left, {units} fed", mode.name());
        equal(named, expected, (came, runs, session.units))?;
        if number != 0 {
            equal(named, (&before, &feed.out), (&session, &out))?;
        }
    }
    Ok(())
}
