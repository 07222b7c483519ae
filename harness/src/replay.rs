// Lists of calls through the program replay. Every answer, output byte, register, count and closing is compared with
// the reference; what demand 3 says of a loss and of damage is then asked of the program's own texts.
use crate::arguments::{
    any_direction, any_key, any_m, any_n, any_pad, any_padded, iv_for, one_thing_else,
    session_by_hand, Block, Feed,
};
use crate::direction::Direction;
use crate::hex::{from_hex, hex, word};
use crate::reference::{self, bits, bytes, parts, Mode, Session, MAX_BITS, MODES};
use crate::report::{equal, Outcome, Report};
use crate::rng::Rng;
use crate::script::Script;

const LISTS: usize = 600;
const BATCHES: usize = 5;
const PAIRS: usize = 200;

pub fn run(report: &mut Report) {
    for batch in 1..=BATCHES {
        report.test(
            &format!("replay: {LISTS} lists of feeds, refused ones among them (batch {batch})"),
            feeds,
        );
    }
    for mode in MODES {
        report.test(
            &format!(
                "replay: {PAIRS} pairs of lists in {}, one with units lost",
                mode.name()
            ),
            |rng| loss(rng, mode),
        );
        report.test(
            &format!(
                "replay: {PAIRS} pairs of lists in {}, one with bits damaged",
                mode.name()
            ),
            |rng| damage(rng, mode),
        );
    }
    report.test(
        &format!(
            "replay: {LISTS} lists of feeds under counters of m bits, refused ones among them"
        ),
        counters,
    );
    report.test(
        "replay: pad, unpad, neighbour and block as the reference",
        other_calls,
    );
    report.test(
        "replay: forecasts as the reference, and feeds as forecast",
        forecasts,
    );
    report.test("replay: keep and alike as the reference", comparisons);
    report.test(
        &format!("replay: {LISTS} sessions set by hand, fed, shown and compared"),
        by_hand,
    );
    report.test(
        "replay: expand, encrypt and decrypt as the reference",
        one_block,
    );
}

fn feeds(rng: &mut Rng) -> Outcome {
    let mut script = Script::new();
    for _ in 0..LISTS {
        let mode = *rng.pick(&MODES);
        let mut n = any_n(rng, mode);
        let (mut key, mut iv) = (any_key(rng), iv_for(rng, mode));
        match rng.below(20) {
            0 => n = rng.below(1000),
            1 => key.truncate(rng.below(16)),
            2 => iv.truncate(rng.below(16)),
            _ => {}
        }
        let direction = any_direction(rng);
        script.open(mode, direction, n, &key, &iv);
        script.some_feeds(rng, n);
    }
    script.run()?;
    happened(&script, false)
}

// What the lists are for came in them: feeds answered 9, feeds past the older release's units, sessions that were
// carried over and that were not; under counters, and there alone, feeds answered 15.
fn happened(script: &Script, counters: bool) -> Outcome {
    let not_carried = script.how_often("carry", "?");
    let least = [
        script.how_often("feed", "9"),
        script.crossed,
        not_carried,
        script.lines_of("carry") - not_carried,
    ];
    let fifteen = script.how_often("feed", "15");
    equal(
        || format!("9, crossed, not carried, carried: {least:?}; 15: {fifteen}"),
        (true, counters),
        (least.iter().all(|&count| count > 0), fifteen > 0),
    )
}

fn counters(rng: &mut Rng) -> Outcome {
    let mut script = Script::new();
    for _ in 0..LISTS {
        let mode = match rng.below(3) {
            0 => *rng.pick(&MODES),
            _ => Mode::Ctr,
        };
        let (mut n, mut m) = (any_n(rng, mode), any_m(rng, mode));
        let (mut key, mut iv) = (any_key(rng), iv_for(rng, mode));
        if rng.below(2) == 0 {
            // the counter's last bytes are about to wrap
            let from = iv.len() - rng.below(iv.len() + 1);
            iv[from..].fill(0xff);
        }
        match rng.below(20) {
            0 => n = rng.below(1000),
            1 => key.truncate(rng.below(16)),
            2 => iv.truncate(rng.below(16)),
            3 => m = 0,
            4 => m = 1 + rng.below(1000),
            5 => m = rng.number() as usize,
            _ => {}
        }
        let direction = any_direction(rng);
        script.open_counter(mode, direction, n, m, &key, &iv);
        script.some_feeds(rng, n);
    }
    script.run()?;
    happened(&script, true)
}

// A stream of units, fed to a decrypting session in random reads with some refused feeds between. The answer is the
// places of the accepted reads in the script and their bits.
fn stream(
    rng: &mut Rng,
    script: &mut Script,
    opening: (Mode, usize, &[u8], &[u8]),
    cipher: &[bool],
) -> Vec<(usize, usize)> {
    let (mode, n, key, iv) = opening;
    script.open(mode, Direction::Decrypt, n, key, iv);
    let mut reads = vec![];
    let mut at = 0;
    while at < cipher.len() {
        if rng.below(4) == 0 {
            let mut refused = Feed::any(rng, n);
            refused.bits = 8 * refused.input.len() + 1;
            script.feed(&refused);
        }
        let end = (at + n * (1 + rng.below(12))).min(cipher.len());
        let input = bytes(&cipher[at..end]);
        let feed = Feed {
            bits: end - at,
            out: vec![rng.number() as u8; input.len()],
            place: 0,
            input,
        };
        reads.push((script.count(), end - at));
        script.feed(&feed);
        at = end;
    }
    reads
}

// The text that the program printed for these reads.
fn text(printed: &[String], reads: &[(usize, usize)]) -> Result<Vec<bool>, String> {
    let mut text = vec![];
    for &(line, count) in reads {
        let words: Vec<&str> = printed[line].split(' ').collect();
        if words[0] != "0" {
            return Err(format!("line {} was refused", line + 1));
        }
        text.extend_from_slice(&bits(&from_hex(words[1]))[..count]);
    }
    Ok(text)
}

// After how many common units a stream is right again; None where it never is.
fn recovery(mode: Mode, n: usize) -> Option<usize> {
    match mode {
        Mode::Ecb => Some(0),
        Mode::Cbc => Some(1),
        Mode::Cfb => Some(parts(128, n)),
        Mode::Ofb | Mode::Ctr => None,
    }
}

// A message under random n, key and IV: its ciphertext, in units.
fn message(rng: &mut Rng, mode: Mode, least: usize) -> (usize, Vec<u8>, Vec<u8>, Vec<bool>) {
    let n = any_n(rng, mode);
    let (key, iv) = (any_key(rng), iv_for(rng, mode));
    let units = least + recovery(mode, n).unwrap_or(0) + rng.below(20);
    let plain = rng.bytes(parts(units * n, 8));
    let mut out = vec![0; plain.len()];
    let (_, mut sender) = Session::open(mode, Direction::Encrypt, n, &key, &iv);
    assert!(sender.feed(&plain, units * n, &mut out, 0).0 == 0);
    (n, key, iv, bits(&out)[..units * n].to_vec())
}

// Some units lost: past the loss, and past as many common units as the mode needs, the two texts agree, each cut in its
// own way. In OFB and CTR the program has to do what the reference does, and no more is promised.
fn loss(rng: &mut Rng, mode: Mode) -> Outcome {
    let mut script = Script::new();
    let mut lists = vec![];
    for _ in 0..PAIRS {
        let (n, key, iv, cipher) = message(rng, mode, 6);
        let units = cipher.len() / n;
        let first = rng.below(units - 2);
        let lost = 1 + rng.below(3.min(units - first - 1));
        let rest = [&cipher[..first * n], &cipher[(first + lost) * n..]].concat();
        let opening = (mode, n, &key[..], &iv[..]);
        let whole = stream(rng, &mut script, opening, &cipher);
        let short = stream(rng, &mut script, opening, &rest);
        lists.push((n, first, lost, whole, short));
    }
    let printed = script.run()?;
    for (n, first, lost, whole, short) in lists {
        let whole = text(&printed, &whole)?;
        let short = text(&printed, &short)?;
        let named = || format!("n {n}, {lost} units lost at {first}");
        equal(named, &whole[..first * n], &short[..first * n])?;
        if let Some(after) = recovery(mode, n) {
            let from = ((first + after) * n).min(short.len());
            equal(
                named,
                &whole[(from + lost * n).min(whole.len())..],
                &short[from..],
            )?;
        }
    }
    Ok(())
}

// Some bits of one unit damaged: the texts differ where the mode's rule says, and nowhere else.
fn damage(rng: &mut Rng, mode: Mode) -> Outcome {
    let mut script = Script::new();
    let mut lists = vec![];
    for _ in 0..PAIRS {
        let (n, key, iv, cipher) = message(rng, mode, 4);
        let unit = rng.below(cipher.len() / n - 2);
        let mut damaged = cipher.clone();
        damaged[unit * n + rng.below(n)] ^= true;
        for i in 0..n {
            damaged[unit * n + i] ^= rng.below(5) == 0;
        }
        if damaged == cipher {
            damaged[unit * n] ^= true;
        }
        let changed: Vec<usize> = (0..cipher.len())
            .filter(|&i| cipher[i] != damaged[i])
            .collect();
        let opening = (mode, n, &key[..], &iv[..]);
        let right = stream(rng, &mut script, opening, &cipher);
        let wrong = stream(rng, &mut script, opening, &damaged);
        lists.push((n, unit, changed, right, wrong));
    }
    let printed = script.run()?;
    for (n, unit, changed, right, wrong) in lists {
        let right = text(&printed, &right)?;
        let wrong = text(&printed, &wrong)?;
        let differ = |from: usize, to: usize| -> Vec<usize> {
            (from.min(right.len())..to.min(right.len()))
                .filter(|&i| right[i] != wrong[i])
                .collect()
        };
        let named = || format!("n {n}, unit {unit}, bits {changed:?}");
        let (start, end) = (unit * n, (unit + 1) * n);
        let reach = end + recovery(mode, n).unwrap_or(0) * n;
        equal(named, vec![], differ(0, start))?;
        equal(named, vec![], differ(reach, usize::MAX))?;
        match mode {
            Mode::Ecb => {}
            // the next block has the changed bits, counted from its start
            Mode::Cbc => equal(
                named,
                changed.iter().map(|i| i + 128).collect::<Vec<usize>>(),
                differ(end, reach),
            )?,
            Mode::Cfb | Mode::Ofb | Mode::Ctr => equal(named, changed.clone(), differ(start, end))?,
        }
    }
    Ok(())
}

fn other_calls(rng: &mut Rng) -> Outcome {
    let mut script = Script::new();
    for _ in 0..LISTS {
        pad_and_unpad(rng, &mut script);
        blocks(rng, &mut script);
    }
    script.run().map(|_| ())
}

fn pad_and_unpad(rng: &mut Rng, script: &mut Script) {
    let pad = any_pad(rng);
    script.line(format!(
        "pad {} {} {} {:02x} {}",
        pad.bits,
        pad.out.len(),
        pad.place,
        pad.out.first().unwrap_or(&0),
        word(&pad.input)
    ));
    let (text, bits) = any_padded(rng);
    script.line(format!("unpad {bits} {}", word(&text)));
}

fn blocks(rng: &mut Rng, script: &mut Script) {
    let block = Block::any(rng);
    let (key, iv, text) = (word(&block.key), word(&block.iv), word(&block.text));
    let j = block.j;
    script.line(format!("neighbour {iv} {text} {j}"));
    script.line(format!(
        "block {key} {iv} {text} {j} {} {} {:02x}",
        block.out.len(),
        block.place,
        block.out.first().unwrap_or(&0)
    ));
}

// What the lines say of a feed: the number, the bytes written and the runs. It was made twice, into bytes of 00 and of
// ff: a byte that it wrote is the same in both outputs, and one that it left is not.
fn said(first: &str, second: &str) -> [usize; 3] {
    let words: Vec<&str> = first.split(' ').collect();
    let again: Vec<&str> = second.split(' ').collect();
    let pairs = words[1]
        .as_bytes()
        .chunks(2)
        .zip(again[1].as_bytes().chunks(2));
    let written = pairs.filter(|(a, b)| a == b && a != b"-").count();
    [
        words[0].parse().unwrap(),
        written,
        words[5].parse().unwrap(),
    ]
}

// A forecast before each feed. Then the program's own lines are compared: an accepted feed wrote and ran what was
// forecast, a refused one wrote and ran nothing, and one whose forecast was refused is refused.
fn forecasts(rng: &mut Rng) -> Outcome {
    let mut script = Script::new();
    let mut places = vec![];
    for _ in 0..LISTS {
        let mode = *rng.pick(&MODES);
        let n = match rng.below(8) {
            0 => rng.below(200),
            1 => rng.number() as usize,
            _ => any_n(rng, mode),
        };
        let name = mode.name();
        for bits in [0, 1, n, MAX_BITS, MAX_BITS + 1, usize::MAX] {
            script.line(format!("forecast {name} {n} {bits}"));
        }
        let (key, iv) = (any_key(rng), iv_for(rng, mode));
        let mut feed = Feed::any(rng, n.min(1000));
        places.push((script.count(), format!("{name} {n}, {} bits", feed.bits)));
        script.line(format!("forecast {name} {n} {}", feed.bits));
        for fill in [0x00, 0xff] {
            script.open(mode, Direction::Encrypt, n, &key, &iv);
            feed.out.fill(fill);
            script.feed(&feed);
        }
    }
    let printed = script.run()?;
    for (at, named) in places {
        let line = || named.clone();
        let cost: Vec<usize> = printed[at].split(' ').map(|w| w.parse().unwrap()).collect();
        let fed = said(&printed[at + 2], &printed[at + 4]);
        if fed[0] == 0 {
            equal(line, &cost[..], &fed[..])?;
        } else {
            equal(line, &[0, 0][..], &fed[1..])?;
        }
        if cost[0] != 0 {
            equal(line, &[0, 0][..], &cost[1..])?;
            equal(line, false, fed[0] == 0)?;
        }
    }
    Ok(())
}

// Sessions that agree in all, or in all but one field.
fn comparisons(rng: &mut Rng) -> Outcome {
    let mut script = Script::new();
    script.line("alike");
    for _ in 0..LISTS {
        let mode = *rng.pick(&MODES);
        let n = any_n(rng, mode);
        let (key, iv) = (any_key(rng), iv_for(rng, mode));
        let m = any_m(rng, mode);
        let direction = any_direction(rng);
        script.open_counter(mode, direction, n, m, &key, &iv);
        script.line("keep");
        script.line("alike");
        let (mut other_key, mut other_iv) = (key.clone(), iv.clone());
        let (mut other_n, mut other_m) = (n, m);
        let mut other_direction = direction;
        match rng.below(7) {
            0 => other_key[rng.below(16)] ^= 1,
            1 if mode != Mode::Ecb => other_iv[rng.below(16)] ^= 1,
            2 => other_direction = any_direction(rng),
            3 => other_n = any_n(rng, mode),
            4 => other_m = any_m(rng, mode),
            5 => other_key.truncate(5),
            _ => {}
        }
        script.open_counter(
            mode,
            other_direction,
            other_n,
            other_m,
            &other_key,
            &other_iv,
        );
        script.line("alike");
        let feed = Feed::any(rng, n);
        script.feed(&feed);
        script.line("alike");
    }
    script.run().map(|_| ())
}

// Sessions whose fields no opening gives, with as many key bytes as the line has.
fn by_hand(rng: &mut Rng) -> Outcome {
    let mut script = Script::new();
    for _ in 0..LISTS {
        let mut session = session_by_hand(rng);
        let any = rng.below(241);
        let count = *rng.pick(&[240, 240, 240, 208, 176, any, 0]);
        session.schedule.keys[count..].fill(0);
        script.session(&session, count);
        script.line("show");
        script.line("alike");
        script.line("keep");
        let other = one_thing_else(rng, &session);
        script.session(&other, 240);
        script.line("alike");
        script.some_feeds(rng, session.n.min(1000));
        script.line("show");
    }
    script.run()?;
    let often = [
        script.how_often("feed", "0"),
        script.how_often("feed", "4"),
        script.how_often("feed", "5"),
        script.how_often("alike", "yes"),
        script.how_often("alike", "no"),
    ];
    let many = often.iter().all(|&count| count > LISTS / 20);
    equal(|| format!("0, 4, 5, yes, no: {often:?}"), true, many)
}

// The calls of aes, with keys of good lengths and of all others up to 40 bytes, and with longer ones.
fn one_block(rng: &mut Rng) -> Outcome {
    let mut script = Script::new();
    let good = (0..LISTS).map(|i| [16, 24, 32][i % 3]);
    for length in good.chain(0..=40).chain([48, 64, 65, 128, 1000]) {
        let (key, block) = (rng.bytes(length), rng.block());
        let cipher = reference::encrypt(&key, &block).1;
        let (key, block, cipher) = (word(&key), hex(&block), hex(&cipher));
        script.line(format!("expand {key}"));
        script.line(format!("encrypt {key} {block}"));
        script.line(format!("decrypt {key} {block}"));
        script.line(format!("decrypt {key} {cipher}"));
    }
    script.run().map(|_| ())
}
