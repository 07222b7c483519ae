// Ciphertext stealing through the program replay: messages against OpenSSL's CBC-CTS, all arguments against the
// reference. What request 03 says of a loss is then asked of the program's own texts.
use crate::arguments::{any_key, Message, LEAST};
use crate::cost::fastest;
use crate::direction::Direction;
use crate::hex::{from_hex, hex, word};
use crate::openssl::Cipher;
use crate::rattle;
use crate::reference::{parts, MAX_BITS};
use crate::report::{equal, Outcome, Report};
use crate::rng::Rng;
use crate::script::Script;
use crate::sessions::KEY_LENGTHS;

// The bytes of the largest message.
const MOST: usize = MAX_BITS / 8;

// Up to here every length is tried.
const SHORT: usize = 400;

const LONG_MESSAGES: usize = 24;
const CALLS: usize = 3000;
const PAIRS: usize = 300;

// What the cost is measured by: the key, the turns, and the smaller message's bytes.
const KEY: &[u8] = b"chicken teriyaki";
const TURNS: usize = 50;
const SMALLER: usize = 4096;

pub fn run(report: &mut Report) {
    for length in KEY_LENGTHS {
        report.test(
            &format!(
                "stealing: AES-{}, every length from {LEAST} to {SHORT} bytes, as OpenSSL's CBC-CTS",
                8 * length
            ),
            |rng| every_length(rng, length),
        );
    }
    report.test(
        &format!("stealing: {LONG_MESSAGES} lengths up to {MOST} bytes, as OpenSSL's CBC-CTS"),
        long_messages,
    );
    report.test(
        &format!("stealing: {CALLS} calls as the reference, refused ones among them"),
        calls,
    );
    report.test(
        &format!("stealing: {PAIRS} pairs of messages, one with blocks lost or inserted"),
        recovery,
    );
    report.test(
        "stealing: whole blocks are OpenSSL's CBC with the last two blocks exchanged",
        whole_blocks,
    );
    report.test("stealing: the work grows with the message's length", |_| {
        linear()
    });
}

// A message into an output of its own length; what it becomes is OpenSSL's.
fn message(
    script: &mut Script,
    direction: Direction,
    key: &[u8],
    iv: &[u8],
    input: &[u8],
    expected: &[u8],
) -> Outcome {
    let size = input.len();
    let line = format!(
        "steal {} {} {} {} {size} 0 00 {}",
        direction.letter(),
        hex(key),
        hex(iv),
        8 * size,
        hex(input)
    );
    script.known(line, &format!("0 {}", hex(expected)))
}

fn openssl(direction: Direction, key: &[u8], iv: &[u8], input: &[u8]) -> Vec<u8> {
    let mut out = vec![0; input.len()];
    Cipher::stealing(key, iv, direction).update(input, &mut out);
    out
}

// A plaintext is encrypted, its ciphertext decrypted, and a random text decrypted.
fn as_openssl(rng: &mut Rng, script: &mut Script, key: &[u8], length: usize) -> Outcome {
    let (iv, plain, other) = (rng.bytes(16), rng.bytes(length), rng.bytes(length));
    let cipher = openssl(Direction::Encrypt, key, &iv, &plain);
    let decrypted = openssl(Direction::Decrypt, key, &iv, &other);
    message(script, Direction::Encrypt, key, &iv, &plain, &cipher)?;
    message(script, Direction::Decrypt, key, &iv, &cipher, &plain)?;
    message(script, Direction::Decrypt, key, &iv, &other, &decrypted)
}

fn every_length(rng: &mut Rng, key_length: usize) -> Outcome {
    let mut script = Script::new();
    for length in LEAST..=SHORT {
        let key = rng.bytes(key_length);
        as_openssl(rng, &mut script, &key, length)?;
    }
    script.run().map(|_| ())
}

fn long_messages(rng: &mut Rng) -> Outcome {
    let mut script = Script::new();
    let mut lengths = vec![MOST, MOST - 1];
    while lengths.len() < LONG_MESSAGES {
        lengths.push(LEAST + rng.below(MOST - LEAST));
    }
    for length in lengths {
        let key = any_key(rng);
        as_openssl(rng, &mut script, &key, length)?;
    }
    script.run().map(|_| ())
}

fn call(rng: &mut Rng, script: &mut Script) {
    let message = Message::any(rng);
    script.line(format!(
        "steal {} {} {} {} {} {} {:02x} {}",
        message.direction.letter(),
        word(&message.key),
        word(&message.iv),
        message.bits,
        message.out.len(),
        message.place,
        message.out.first().unwrap_or(&0),
        word(&message.input)
    ));
}

fn calls(rng: &mut Rng) -> Outcome {
    let mut script = Script::new();
    for _ in 0..CALLS {
        call(rng, &mut script);
    }
    script.run()?;
    let often = ["0", "1", "2", "6", "8", "13"].map(|number| script.how_often("steal", number));
    equal(
        || format!("each number is answered, {often:?}, and no other"),
        (true, CALLS),
        (often.iter().all(|&count| count > 0), often.iter().sum()),
    )
}

// Two ciphertexts under one key: the second has `inserted` blocks of its own in place of `lost` blocks of the first,
// and may end earlier. The first is decrypted by the line `at` of the script, and the second by the next.
struct Pair {
    first: usize,
    lost: usize,
    inserted: usize,
    same_iv: bool,
    at: usize,
}

// After the change there is at least one common block that is neither the run's first nor one of a message's last two.
fn pair(rng: &mut Rng, script: &mut Script) -> Result<Pair, String> {
    let (key, iv, other_iv) = (any_key(rng), rng.bytes(16), rng.bytes(16));
    let full = 10 + rng.below(16);
    let tail = 1 + rng.below(16);
    let (first, lost, inserted) = (rng.below(full - 7), rng.below(4), rng.below(4));
    let plain = rng.bytes(16 * full + tail);
    let cipher = openssl(Direction::Encrypt, &key, &iv, &plain);
    let end = cipher.len() - rng.below(2) * rng.below(33);
    let (front, back) = (&cipher[..16 * first], &cipher[16 * (first + lost)..end]);
    let changed = [front, &rng.bytes(16 * inserted), back].concat();
    let same_iv = rng.below(3) != 0;
    let changed_iv = if same_iv { &iv } else { &other_iv };
    let received = openssl(Direction::Decrypt, &key, changed_iv, &changed);
    message(script, Direction::Encrypt, &key, &iv, &plain, &cipher)?;
    message(script, Direction::Decrypt, &key, &iv, &cipher, &plain)?;
    message(
        script,
        Direction::Decrypt,
        &key,
        changed_iv,
        &changed,
        &received,
    )?;
    Ok(Pair {
        first,
        lost,
        inserted,
        same_iv,
        at: script.count() - 2,
    })
}

// The text that the program printed.
fn text(line: &str) -> Vec<u8> {
    from_hex(line.split(' ').nth(1).unwrap_or(""))
}

impl Pair {
    // A run of `count` blocks that begins at block i of the one text and at block j of the other is the same in both,
    // its first `but` blocks and the last two of either text aside.
    fn common(
        &self,
        texts: (&[u8], &[u8]),
        (i, j): (usize, usize),
        count: usize,
        but: usize,
    ) -> Outcome {
        let (one, other) = texts;
        let before_last_two = |text: &[u8], from: usize| parts(text.len(), 16) - 2 - from;
        let end = count
            .min(before_last_two(one, i))
            .min(before_last_two(other, j));
        let from = but.min(end);
        equal(
            || {
                format!(
                    "block {}, {} lost, {} inserted, the same IV: {}",
                    self.first, self.lost, self.inserted, self.same_iv
                )
            },
            hex(&one[16 * (i + from)..16 * (i + end)]),
            hex(&other[16 * (j + from)..16 * (j + end)]),
        )
    }
}

// A run from the start under one IV is the same in both texts; any other common run is so but for its first block.
fn recovery(rng: &mut Rng) -> Outcome {
    let mut script = Script::new();
    let pairs: Result<Vec<Pair>, String> = (0..PAIRS).map(|_| pair(rng, &mut script)).collect();
    let pairs = pairs?;
    let printed = script.run()?;
    for pair in pairs {
        let (one, other) = (text(&printed[pair.at]), text(&printed[pair.at + 1]));
        let texts = (&one[..], &other[..]);
        let behind = (pair.first + pair.lost, pair.first + pair.inserted);
        pair.common(texts, (0, 0), pair.first, !pair.same_iv as usize)?;
        pair.common(texts, behind, usize::MAX, 1)?;
    }
    Ok(())
}

fn exchanged(text: &[u8]) -> Vec<u8> {
    let (front, last_two) = text.split_at(text.len() - 32);
    [front, &last_two[16..], &last_two[..16]].concat()
}

fn cbc(direction: Direction, key: &[u8], iv: &[u8], input: &[u8]) -> Vec<u8> {
    let mut out = vec![0; input.len()];
    Cipher::new("cbc", key, iv, direction).update(input, &mut out);
    out
}

fn whole_blocks(rng: &mut Rng) -> Outcome {
    let mut script = Script::new();
    for blocks in 2..=64 {
        for key_length in KEY_LENGTHS {
            let (key, iv, input) = (rng.bytes(key_length), rng.bytes(16), rng.bytes(16 * blocks));
            let cipher = exchanged(&cbc(Direction::Encrypt, &key, &iv, &input));
            let plain = cbc(Direction::Decrypt, &key, &iv, &exchanged(&input));
            message(&mut script, Direction::Encrypt, &key, &iv, &input, &cipher)?;
            message(&mut script, Direction::Decrypt, &key, &iv, &input, &plain)?;
        }
    }
    script.run().map(|_| ())
}

// Encrypts a message of `length` bytes, and decrypts it again.
fn there_and_back(length: usize) -> impl FnMut() {
    let text = vec![b'.'; length];
    let (mut cipher, mut plain) = (vec![0; length], vec![0; length]);
    move || {
        let steal = |direction, input: &[u8], out: &mut [u8]| {
            rattle::steal(direction, KEY, &[0; 16], input, 8 * length, out, 0)
        };
        assert!(steal(Direction::Encrypt, &text, &mut cipher) == 0);
        assert!(steal(Direction::Decrypt, &cipher, &mut plain) == 0);
        assert!(plain == text);
    }
}

// The largest message has sixteen times the smaller one's bytes, and may take at most 24 times as long; work that grew
// with the length's square would take 256 times as long.
fn linear() -> Outcome {
    let best = fastest(
        TURNS,
        [&mut there_and_back(SMALLER), &mut there_and_back(MOST)],
    );
    let [smaller, most] = best.map(|seconds| seconds * 1e9);
    println!("nanoseconds to encrypt and decrypt at most: {smaller:.0} of {SMALLER} bytes, {most:.0} of {MOST}");
    if 2.0 * most <= 3.0 * smaller * (MOST / SMALLER) as f64 {
        Ok(())
    } else {
        Err(format!("{smaller} and {most} ns"))
    }
}
