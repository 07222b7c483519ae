// Key expansion and the one-block calls, and the reference's AES, compared with OpenSSL's.
use crate::direction::Direction;
use crate::fips197::Schedule;
use crate::hex::{from_hex, hex};
use crate::openssl::{self, Key};
use crate::rattle;
use crate::report::{equal, Outcome, Report};
use crate::rng::Rng;

const KEY_LENGTHS: [usize; 3] = [16, 24, 32];
const REFUSED_LENGTHS: [usize; 9] = [0, 1, 15, 17, 23, 25, 31, 33, 64];
const CASES: usize = 4000;

pub fn run(report: &mut Report) {
    report.test(
        "OpenSSL gives the blocks of FIPS 197 appendix C",
        appendix_c,
    );
    for length in KEY_LENGTHS {
        let name = format!("AES-{}", 8 * length);
        report.test(
            &format!("{name} expands {CASES} random keys as OpenSSL does"),
            |rng| expansions(rng, length),
        );
        for (direction, verb) in [
            (Direction::Encrypt, "encrypts"),
            (Direction::Decrypt, "decrypts"),
        ] {
            report.test(
                &format!("{name} {verb} {CASES} random blocks as OpenSSL does"),
                |rng| blocks(rng, length, direction),
            );
        }
        report.test(
            &format!("{name} goes along a chain of blocks and back"),
            |rng| chains(rng, length),
        );
        report.test(
            &format!("the reference's {name} is OpenSSL's under {CASES} random keys"),
            |rng| reference_keys(rng, length),
        );
    }
    report.test(
        &format!("the reference's AES is OpenSSL's under {CASES} round keys that no key gives"),
        round_keys,
    );
    for length in REFUSED_LENGTHS {
        report.test(
            &format!("a key of {length} bytes gives number 1 and zeros"),
            |rng| refused(rng, length),
        );
    }
}

// That the second implementation is bound rightly: two that answer nothing would agree.
fn appendix_c(_: &mut Rng) -> Outcome {
    let key: Vec<u8> = (0..32).collect();
    let mut plain = [0; 16];
    plain.copy_from_slice(&from_hex("00112233445566778899aabbccddeeff"));
    let ciphers = [
        "69c4e0d86a7b0430d8cdb78070b4c55a",
        "dda97ca4864cdfe06eaf70a0ec0d7191",
        "8ea2b7ca516745bfeafc49904b496089",
    ];
    for (length, expected) in KEY_LENGTHS.into_iter().zip(ciphers) {
        let key = &key[..length];
        let cipher = openssl::block(key, Direction::Encrypt, &plain);
        equal(|| hex(key), expected, &hex(&cipher))?;
        equal(
            || hex(key),
            hex(&plain),
            hex(&openssl::block(key, Direction::Decrypt, &cipher)),
        )?;
    }
    Ok(())
}

// The bytes after the expanded ones are 0 on both sides.
fn expansions(rng: &mut Rng, length: usize) -> Outcome {
    for _ in 0..CASES {
        let key = rng.bytes(length);
        let (rounds, keys) = openssl::expand(&key);
        let (number, own_rounds, own_keys) = rattle::expand(&key);
        equal(
            || format!("key {}", hex(&key)),
            (0, rounds, hex(&keys)),
            (number, own_rounds, hex(&own_keys)),
        )?;
    }
    Ok(())
}

fn blocks(rng: &mut Rng, length: usize, direction: Direction) -> Outcome {
    for _ in 0..CASES {
        let key = rng.bytes(length);
        let block = rng.block();
        let (number, own) = match direction {
            Direction::Encrypt => rattle::encrypt(&key, &block),
            Direction::Decrypt => rattle::decrypt(&key, &block),
        };
        let expected = openssl::block(&key, direction, &block);
        equal(
            || format!("key {} block {}", hex(&key), hex(&block)),
            (0, hex(&expected)),
            (number, hex(&own)),
        )?;
    }
    Ok(())
}

fn chains(rng: &mut Rng, length: usize) -> Outcome {
    for count in [0, 1, 2, 3, 4 + rng.below(1000)] {
        let key = rng.bytes(length);
        let first = rng.block();
        let last = (0..count).fold(first, |block, _| {
            openssl::block(&key, Direction::Encrypt, &block)
        });
        let input = || format!("key {} block {} count {count}", hex(&key), hex(&first));
        for (decrypting, from, to) in [(false, first, last), (true, last, first)] {
            let (number, own) = rattle::chain(&key, decrypting, &from, count);
            equal(input, (0, hex(&to)), (number, hex(&own)))?;
        }
    }
    Ok(())
}

fn reference_keys(rng: &mut Rng, length: usize) -> Outcome {
    for _ in 0..CASES {
        let (key, block) = (rng.bytes(length), rng.block());
        let input = || format!("key {} block {}", hex(&key), hex(&block));
        let theirs = Key::new(&key);
        let ours = Schedule::expand(&key).ok_or_else(input)?;
        equal(
            input,
            (theirs.rounds, hex(&theirs.keys)),
            (ours.rounds, hex(&ours.keys)),
        )?;
        equal(
            input,
            (hex(&theirs.enc(&block)), hex(&theirs.dec(&block))),
            (hex(&ours.enc(&block)), hex(&ours.dec(&block))),
        )?;
    }
    Ok(())
}

// OpenSSL takes any round keys to encrypt. Dec leads back; under other rounds both give zero bytes.
fn round_keys(rng: &mut Rng) -> Outcome {
    for _ in 0..CASES {
        let (block, keys) = (rng.block(), rng.bytes(240).try_into().expect("240 bytes"));
        let mut schedule = Schedule {
            rounds: *rng.pick(&[10, 12, 14]),
            keys,
        };
        let input = || format!("round keys {} block {}", hex(&keys), hex(&block));
        let cipher = openssl::enc_under(schedule.rounds, &keys, &block);
        equal(
            input,
            (hex(&cipher), hex(&block)),
            (hex(&schedule.enc(&block)), hex(&schedule.dec(&cipher))),
        )?;
        schedule.rounds = *rng.pick(&[0, 1, 9, 11, 13, 15, 16, usize::MAX]);
        let both = [schedule.enc(&block), schedule.dec(&block)];
        equal(input, [[0; 16]; 2], both)?;
    }
    Ok(())
}

fn refused(rng: &mut Rng, length: usize) -> Outcome {
    for _ in 0..100 {
        let key = rng.bytes(length);
        let block = rng.block();
        let input = || format!("key {} block {}", hex(&key), hex(&block));
        let (number, rounds, keys) = rattle::expand(&key);
        equal(input, (1, 0, hex(&[0; 240])), (number, rounds, hex(&keys)))?;
        for (number, own) in [
            rattle::encrypt(&key, &block),
            rattle::decrypt(&key, &block),
            rattle::chain(&key, false, &block, 1),
            rattle::chain(&key, true, &block, 1),
        ] {
            equal(input, (1, hex(&[0; 16])), (number, hex(&own)))?;
        }
        let (number, own) = rattle::chain(&key, false, &block, 0);
        equal(input, (1, hex(&block)), (number, hex(&own)))?;
    }
    Ok(())
}
