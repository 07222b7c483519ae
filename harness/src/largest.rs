// Lines of replay that are too long for a list that a person reads: the largest of each word and of a line, the largest
// texts of the calls, and what is one more.
use crate::answers::{MAX_BYTES, MAX_LINE};
use crate::arguments::{any_key, iv_for, Feed};
use crate::direction::Direction;
use crate::hex::hex;
use crate::reference::{MAX_BITS, MODES};
use crate::report::{equal, Outcome, Report};
use crate::rng::Rng;
use crate::script::Script;

const KEY: &str = "2b7e151628aed2a6abf7158809cf4f3c";
const IV: &str = "000102030405060708090a0b0c0d0e0f";
const TEXT: &str = "6bc1bee22e409f96e93d7e117393172aae2d8a571e03ac9c9eb76fac45af8e51";

// The bytes of the largest feed.
const BYTES: usize = MAX_BITS / 8;

pub fn run(report: &mut Report) {
    report.test(
        "replay: the largest feed in each mode, and a bit more",
        feeds,
    );
    report.test("replay: the largest words and line, and one more", |_| {
        words()
    });
    report.test(
        "replay: the largest feed out of zeros, and a bit more",
        |_| feed_of_zeros(),
    );
    report.test(
        "replay: the largest pads and unpads, and a bit more",
        |_| pads(),
    );
    report.test(
        "replay: the largest messages with ciphertext stealing, and a bit more",
        |_| messages(),
    );
}

// Each of these numbers answers the given count of a command's lines.
fn answered(script: &Script, command: &str, numbers: &[(&str, usize)]) -> Outcome {
    for (number, count) in numbers {
        let came = script.how_often(command, number);
        equal(|| format!("{command} answered {number}"), *count, came)?;
    }
    Ok(())
}

fn feeds(rng: &mut Rng) -> Outcome {
    let mut script = Script::new();
    for mode in MODES {
        let (key, iv) = (any_key(rng), iv_for(rng, mode));
        script.open(mode, Direction::Decrypt, 128, &key, &iv);
        let input = rng.bytes(MAX_BYTES);
        for bits in [MAX_BITS, MAX_BITS + 1, MAX_BITS + 128] {
            script.feed(&Feed {
                input: input.clone(),
                bits,
                out: vec![0x5a; MAX_BYTES],
                place: 3,
            });
        }
    }
    answered(
        &script,
        "feed",
        &[("0", MODES.len()), ("6", 2 * MODES.len())],
    )?;
    script.run().map(|_| ())
}

fn words() -> Outcome {
    let mut script = Script::new();
    for count in [64, 65, 1000, MAX_BYTES + 64] {
        let other = "00".repeat(count);
        script.line(format!("open CTR 128 E {other} {IV}"));
        script.line(format!("open CTR 128 E {KEY} {other}"));
        script.line(format!("neighbour {other} {IV} 0"));
        script.line(format!("block {other} {IV} {IV} 0 0 0 00"));
        script.line(format!("block {KEY} {other} {IV} 0 0 0 00"));
        script.line(format!("steal E {other} {IV} 136 17 0 00 {TEXT}"));
        script.line(format!("steal E {KEY} {other} 136 17 0 00 {TEXT}"));
        script.line(format!("expand {other}"));
        script.line(format!("encrypt {other} {IV}"));
        script.line(format!("decrypt {other} {IV}"));
    }
    let (most, more) = (MAX_BYTES, MAX_BYTES + 1);
    let (longest, longer) = ("ff".repeat(most), "ff".repeat(more));
    script.line(format!("open CTR 128 D {KEY} {IV}"));
    script.line(format!("feed 9 {most} {} 5a {longest}", most - 2));
    script.line(format!("feed 9 {more} 0 5a ff"));
    script.line(format!("pad 9 {more} 0 5a ffff"));
    script.line(format!("block {KEY} {IV} {IV} 0 {more} 0 00"));
    script.line(format!("steal D {KEY} {IV} 136 {more} 0 00 {TEXT}"));
    script.line(format!("feed 9 2 0 5a {longer}"));
    script.line(format!("block {KEY} {IV} {longer} 0 16 0 00"));
    script.line(format!("feed 0 000{most} {most} 00 -"));
    // a number may have any count of leading zeros
    for length in [MAX_LINE, MAX_LINE + 1] {
        let front = format!("neighbour {IV} {IV} ");
        script.line(format!("{front}{}", "0".repeat(length - front.len())));
    }
    script.run().map(|_| ())
}

fn feed_of_zeros() -> Outcome {
    let mut script = Script::new();
    let zeros = "00".repeat(BYTES + 1);
    for bits in [MAX_BITS, MAX_BITS + 1] {
        script.line(format!("open CTR 128 E {KEY} {IV}"));
        script.line(format!("feed {bits} {} 0 00 {zeros}", BYTES + 1));
    }
    answered(&script, "feed", &[("0", 1), ("6", 1)])?;
    script.run().map(|_| ())
}

fn pads() -> Outcome {
    let mut script = Script::new();
    let input = "fe".repeat(BYTES + 1);
    for bits in [MAX_BITS - 1, MAX_BITS] {
        for place in [4, 5] {
            script.line(format!("pad {bits} {} {place} ee {input}", BYTES + 4));
        }
    }
    let (zeros, ones) = ("00".repeat(BYTES + 16), "ff".repeat(BYTES + 16));
    script.line(format!("unpad {MAX_BITS} {zeros}"));
    for bits in [MAX_BITS, MAX_BITS + 1, MAX_BITS + 128] {
        script.line(format!("unpad {bits} {ones}"));
    }
    answered(&script, "pad", &[("0", 1), ("8", 1), ("6", 2)])?;
    answered(&script, "unpad", &[("0", 2), ("6", 2)])?;
    script.run().map(|_| ())
}

fn messages() -> Outcome {
    let mut script = Script::new();
    let key = "636869636b656e207465726979616b69";
    let (iv, input) = (hex(b"a block of an IV"), "fe".repeat(BYTES + 1));
    for letter in ["E", "D"] {
        for (bits, place) in [
            (MAX_BITS - 8, 4),
            (MAX_BITS - 1, 4),
            (MAX_BITS, 4),
            (MAX_BITS, 5),
            (MAX_BITS + 1, 4),
            (MAX_BITS + 8, 4),
        ] {
            let size = BYTES + 4;
            script.line(format!(
                "steal {letter} {key} {iv} {bits} {size} {place} ee {input}"
            ));
        }
    }
    answered(&script, "steal", &[("0", 4), ("13", 2), ("8", 2), ("6", 4)])?;
    script.run().map(|_| ())
}
