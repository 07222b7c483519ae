// Measures the proved code beside OpenSSL's and libtomcrypt's. A line for each row: its name, the unit (ns for a block
// or a feed, or MB/s), then the figures of Rattle, OpenSSL and libtomcrypt (`-` where there is none), separated by
// tabs. The script bench runs this with OpenSSL's AES instructions on and off.
#![allow(dead_code)]
mod cost;
mod direction;
mod openssl;
mod rattle;
mod tomcrypt;

use cost::fastest;
use direction::Direction;
use openssl::Cipher;

const CHAIN: usize = 2_000;
const TEXT: usize = 16 * 1024;

// A mode's name, its number, n and m for Rattle, and its name for the others.
type Mode = (&'static str, usize, usize, usize, &'static str);

const MODES: [Mode; 7] = [
    ("ECB", 0, 128, 128, "ecb"),
    ("CBC", 1, 128, 128, "cbc"),
    ("CFB-1", 2, 1, 128, "cfb1"),
    ("CFB-8", 2, 8, 128, "cfb8"),
    ("CFB-128", 2, 128, 128, "cfb"),
    ("OFB", 3, 128, 128, "ofb"),
    ("CTR", 4, 128, 128, "ctr"),
];

// Counters of fewer bits. OpenSSL has none, libtomcrypt those of whole bytes.
const COUNTERS: [Mode; 2] = [
    ("CTR, m = 32,", 4, 128, 32, "ctr"),
    ("CTR, m = 13,", 4, 128, 13, "ctr"),
];

fn main() {
    for length in [16, 24, 32] {
        for direction in [Direction::Encrypt, Direction::Decrypt] {
            block(length, direction);
        }
    }
    for mode in MODES.into_iter().chain(COUNTERS) {
        for direction in [Direction::Encrypt, Direction::Decrypt] {
            let name = format!("{} {}", mode.0, verb(direction));
            speed(&name, feeds(mode, direction, TEXT));
        }
    }
    // the same text in small feeds: what a cut costs
    for mode in [MODES[3], MODES[6]] {
        let name = format!("{}, 64 B feeds", mode.0);
        speed(&name, feeds(mode, Direction::Decrypt, 64));
    }
    for direction in [Direction::Encrypt, Direction::Decrypt] {
        let name = format!("CFB-8 {}, a feed of 1 byte", verb(direction));
        nanoseconds(&name, feeds(MODES[3], direction, 1), TEXT);
    }
    for direction in [Direction::Encrypt, Direction::Decrypt] {
        feeds_of_a_block(direction);
    }
}

fn verb(direction: Direction) -> &'static str {
    match direction {
        Direction::Encrypt => "encrypt",
        Direction::Decrypt => "decrypt",
    }
}

// One block: the time of a block in a chain, in which each block is the one before put through the cipher. Rattle goes
// along the chain in one call under a key that it expands once. The others have no such call, so each block is a call.
fn block(length: usize, direction: Direction) {
    let key: Vec<u8> = (0..length as u8).collect();
    let decrypting = direction == Direction::Decrypt;
    let mut openssl = Cipher::new("ecb", &key, &[], direction);
    let mut tomcrypt = tomcrypt::Cipher::new("ecb", 128, &key, &[], direction).unwrap();
    let mut blocks = [[0; 16]; 3];
    let [ours, theirs, toms] = &mut blocks;
    let best = fastest(
        400,
        [
            &mut || *ours = rattle::chain(&key, decrypting, ours, CHAIN).1,
            &mut || {
                for _ in 0..CHAIN {
                    let before = *theirs;
                    openssl.update(&before, theirs);
                }
            },
            &mut || {
                for _ in 0..CHAIN {
                    let before = *toms;
                    tomcrypt.update(&before, toms);
                }
            },
        ],
    );
    assert!(
        blocks[0] == blocks[1] && blocks[0] == blocks[2],
        "the chains end in different blocks"
    );
    let name = format!("AES-{} {}", 8 * length, verb(direction));
    nanoseconds(&name, best.map(Some), CHAIN);
}

// A feed of one block in CBC, and what of it is not the block's: a text in one feed has all its blocks and that once,
// in feeds of a block once for each block.
fn feeds_of_a_block(direction: Direction) {
    let blocks = TEXT / 16;
    let whole = feeds(MODES[1], direction, TEXT);
    let cut = feeds(MODES[1], direction, 16);
    let name = format!("CBC {}, a feed of 1 block", verb(direction));
    nanoseconds(&name, cut, blocks);
    let beyond = cut[0].zip(whole[0]).map(|(cut, whole)| cut - whole);
    let name = format!("CBC {}, a feed beyond its blocks", verb(direction));
    nanoseconds(&name, [beyond, None, None], blocks - 1);
}

// The seconds of 16 KiB in feeds of `size` bytes under a key of 16 bytes. Each side keeps its session, and the texts
// are compared. Rattle's count of units is set back before each turn, since 400 turns are more units than a counter of
// 13 bits takes.
fn feeds((name, mode, n, m, theirs): Mode, direction: Direction, size: usize) -> [Option<f64>; 3] {
    let key: Vec<u8> = (0..16).collect();
    let iv: Vec<u8> = if mode == 0 {
        vec![]
    } else {
        (100..116).collect()
    };
    let input: Vec<u8> = (0..TEXT).map(|i| (i * i >> 3) as u8).collect();
    let decrypting = direction == Direction::Decrypt;
    let (number, mut rattle) = rattle::Session::open_counter(mode, decrypting, n, m, &key, &iv);
    assert!(number == 0);
    let mut openssl = (m == 128).then(|| Cipher::new(theirs, &key, &iv, direction));
    let mut tomcrypt = tomcrypt::Cipher::new(theirs, m, &key, &iv, direction);
    let (has_openssl, has_tomcrypt) = (openssl.is_some(), tomcrypt.is_some());
    let mut texts = [vec![0; TEXT], vec![0; TEXT], vec![0; TEXT]];
    let [ours, evp, toms] = &mut texts;
    let turns = if n < 128 { 30 } else { 400 };
    let best = fastest(
        turns,
        [
            &mut || {
                rattle.units = 0;
                for at in (0..TEXT).step_by(size) {
                    let part = &input[at..at + size];
                    assert!(rattle.feed_bare(part, 8 * size, ours, at).0 == 0);
                }
            },
            &mut || {
                if let Some(cipher) = &mut openssl {
                    for (input, out) in input.chunks(size).zip(evp.chunks_mut(size)) {
                        cipher.update(input, out);
                    }
                }
            },
            &mut || {
                if let Some(cipher) = &mut tomcrypt {
                    for (input, out) in input.chunks(size).zip(toms.chunks_mut(size)) {
                        cipher.update(input, out);
                    }
                }
            },
        ],
    );
    assert!(
        !has_openssl || texts[0] == texts[1],
        "Rattle and OpenSSL differ in {name}"
    );
    assert!(
        !has_tomcrypt || texts[0] == texts[2],
        "Rattle and libtomcrypt differ in {name}"
    );
    [
        Some(best[0]),
        has_openssl.then(|| best[1]),
        has_tomcrypt.then(|| best[2]),
    ]
}

// A row for seconds in which `count` blocks or feeds were processed.
fn nanoseconds(name: &str, seconds: [Option<f64>; 3], count: usize) {
    let each = |seconds: f64| seconds * 1e9 / count as f64;
    row(name, "ns", seconds.map(|s| s.map(each)));
}

// A row for seconds in which 16 KiB were processed.
fn speed(name: &str, seconds: [Option<f64>; 3]) {
    let rate = |seconds: f64| TEXT as f64 / seconds / 1e6;
    row(name, "MB/s", seconds.map(|s| s.map(rate)));
}

fn row(name: &str, unit: &str, figures: [Option<f64>; 3]) {
    let figures = figures.map(|f| f.map_or("-".to_string(), |f| format!("{f:.3}")));
    println!("{name}\t{unit}\t{}", figures.join("\t"));
}
