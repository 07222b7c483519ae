// Runs tests, prints a line for each, `ok NAME` or `FAILED NAME: why`, and at the end `N passed, M failed`.
use crate::rng::Rng;
use std::any::Any;
use std::fmt::Debug;
use std::panic::{catch_unwind, AssertUnwindSafe};
use std::time::{SystemTime, UNIX_EPOCH};

// What a test answers: nothing, or why it failed.
pub type Outcome = Result<(), String>;

pub struct Report {
    seed: u64,
    passed: usize,
    failed: usize,
}

impl Report {
    // The seed is that of the environment's HARNESS_SEED, else the clock's.
    pub fn new() -> Report {
        let seed = match std::env::var("HARNESS_SEED") {
            Ok(text) => text.parse().expect("HARNESS_SEED is a number below 2^64"),
            Err(_) => SystemTime::now()
                .duration_since(UNIX_EPOCH)
                .map_or(0, |t| t.as_nanos() as u64),
        };
        println!("seed {seed} (HARNESS_SEED={seed} repeats this run)");
        Report {
            seed,
            passed: 0,
            failed: 0,
        }
    }

    // Runs one test. Its random numbers depend on the seed and its name, and not on the tests before it.
    pub fn test(&mut self, name: &str, body: impl FnOnce(&mut Rng) -> Outcome) {
        let own = name.bytes().fold(self.seed, |h, b| {
            (h ^ b as u64).wrapping_mul(0x0100_0000_01b3)
        });
        let outcome = catch_unwind(AssertUnwindSafe(|| body(&mut Rng::new(own))));
        match outcome.unwrap_or_else(|panic| Err(panic_text(panic))) {
            Ok(()) => {
                self.passed += 1;
                println!("ok {name}");
            }
            Err(why) => {
                self.failed += 1;
                println!("FAILED {name}: {why}");
            }
        }
    }

    // Prints the tally. The answer is whether there were tests, and all passed.
    pub fn end(self) -> bool {
        println!("{} passed, {} failed", self.passed, self.failed);
        self.failed == 0 && self.passed > 0
    }
}

fn panic_text(panic: Box<dyn Any + Send>) -> String {
    let text = panic.downcast_ref::<String>().cloned();
    let text = text.or_else(|| panic.downcast_ref::<&str>().map(|t| t.to_string()));
    format!("it panicked: {}", text.unwrap_or_default())
}

// The two are equal, or what was expected and what came, for the input that `input` describes.
pub fn equal<T: PartialEq + Debug>(
    input: impl FnOnce() -> String,
    expected: T,
    came: T,
) -> Outcome {
    if expected == came {
        Ok(())
    } else {
        Err(format!(
            "{}: expected {:?}, came {:?}",
            input(),
            expected,
            came
        ))
    }
}
