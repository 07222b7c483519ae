// What an unpad costs by the message's length, through the static library.
use crate::cost::fastest;
use crate::rattle::{self, Length};
use crate::report::{Outcome, Report};

const TURNS: usize = 9;
const CALLS: usize = 100_000;
const LARGEST: usize = 4096;

pub fn run(report: &mut Report) {
    report.test(
        "an unpad of 4,096 zero blocks costs what one of 1 does",
        |_| compare(),
    );
}

// Unpads a message of this many blocks, over and over.
fn unpads(blocks: usize) -> impl FnMut() {
    let message = vec![0; 16 * blocks];
    let expected = Length {
        bits: 128 * (blocks - 1),
        number: 0,
    };
    move || {
        for _ in 0..CALLS {
            assert!(rattle::unpad(&message, 128 * blocks) == expected);
        }
    }
}

// The search through the whole message, which this one replaced, took some 4,000 times as long for the larger one.
fn compare() -> Outcome {
    let best = fastest(TURNS, [&mut unpads(1), &mut unpads(LARGEST)]);
    let [one, largest] = best.map(|seconds| seconds * 1e9 / CALLS as f64);
    println!("nanoseconds for an unpad at most: {one:.1} of 1 block, {largest:.1} of 4,096");
    if largest <= 2.0 * one {
        Ok(())
    } else {
        Err(format!("{one} and {largest} ns"))
    }
}
