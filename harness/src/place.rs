// From a counter block back to its number in the message (request 06), through the program replay: blocks that were
// counted up to, the registers of sessions, and all arguments against the reference.
use crate::arguments::{
    any_direction, any_iv, any_key, any_m, any_number, any_place, under, Feed, NO_COUNTER,
};
use crate::counters::counter_block;
use crate::hex::hex;
use crate::reference::{counting, incremented, Mode};
use crate::report::{equal, Outcome, Report};
use crate::rng::Rng;
use crate::script::Script;

// For each m: the IVs, and for each of them the blocks counted to, all of them up to m = 8, and those further on.
const IVS: usize = 5;
const COUNTED: u128 = 256;
const FURTHER: usize = 12;

const CALLS: usize = 6000;
const SESSIONS: usize = 600;

pub fn run(report: &mut Report) {
    report.test("place: under every m, blocks counted from IVs", counted);
    report.test(
        "place: under every m, blocks above and below IVs, and back to them",
        led_back,
    );
    report.test("place: under every m, blocks one bit off an IV", one_bit);
    report.test("place: numbers that are no m are answered 14", no_counter);
    report.test(&format!("place: {CALLS} calls as the reference"), calls);
    report.test(
        &format!("place: the registers of {SESSIONS} sessions are at the units done"),
        registers,
    );
}

type Block = [u8; 16];

fn place_line(m: usize, iv: Block, block: Block) -> String {
    format!("place {m} {} {}", hex(&iv), hex(&block))
}

// A line whose number and increments are known without the reference.
fn known(script: &mut Script, m: usize, iv: Block, block: Block, answer: (u8, Block)) -> Outcome {
    let answer = format!("{} {}", answer.0, hex(&answer.1));
    script.known(place_line(m, iv, block), &answer)
}

// Runs the lines, and counts those that are answered 0, 14 and 16.
fn tally(script: &Script) -> Result<[usize; 3], String> {
    let printed = script.run()?;
    let count = |number| printed.iter().filter(|l| l.starts_with(number)).count();
    Ok(["0 ", "14 ", "16 "].map(count))
}

fn answered(script: &Script, numbers: [usize; 3]) -> Outcome {
    let named = || "lines answered 0, 14, 16".to_string();
    equal(named, numbers, tally(script)?)
}

// Any IV, and those with the lowest m bits all 1, so that counting wraps at once, or all 0; the other bits are any, 1
// or 0.
fn ivs(rng: &mut Rng, m: usize) -> [Block; IVS] {
    let (any, last) = (any_number(rng), counting(m));
    [any, any | last, any & !last, u128::MAX, 0].map(u128::to_be_bytes)
}

fn counted(rng: &mut Rng) -> Outcome {
    let mut script = Script::new();
    for m in 1..=128 {
        let last = counting(m);
        for iv in ivs(rng, m) {
            let mut block = iv;
            for k in 0..=last.min(COUNTED - 1) {
                known(&mut script, m, iv, block, (0, k.to_be_bytes()))?;
                block = incremented(block, m);
            }
            for i in 0..FURTHER {
                let k = match i {
                    0 => last,
                    1 => last - 1,
                    2 => last / 2,
                    3 => last / 2 + 1,
                    _ => any_number(rng) >> rng.below(128) & last,
                };
                let block = counter_block(&iv, m, k);
                known(&mut script, m, iv, block, (0, k.to_be_bytes()))?;
            }
        }
    }
    // 2 + 4 + .. + 256 = 510 are counted to under the first eight m
    let lines = IVS * (510 + 120 * COUNTED as usize + 128 * FURTHER);
    answered(&script, [lines, 0, 0])
}

// From the IV the printed increments lead to the block, by counting where it is near.
fn led_back(rng: &mut Rng) -> Outcome {
    let mut script = Script::new();
    let mut asked = vec![];
    for m in 1..=128 {
        for iv in ivs(rng, m) {
            let first = u128::from_be_bytes(iv);
            for _ in 0..10 {
                let d = rng.below(COUNTED as usize) as u128;
                let (above, below) = (first.wrapping_add(d), first.wrapping_sub(d));
                for number in [above, below, any_number(rng)] {
                    let block = under(iv, number, m);
                    script.line(place_line(m, iv, block));
                    asked.push((m, iv, block));
                }
            }
        }
    }
    let printed = script.run()?;
    equal(|| "lines".to_string(), 128 * IVS * 30, printed.len())?;
    for ((m, iv, block), line) in asked.into_iter().zip(&printed) {
        let place = u128::from_str_radix(&line[2..], 16).map_err(|_| line.clone())?;
        let reached = if place < COUNTED {
            (0..place).fold(iv, |at, _| incremented(at, m))
        } else {
            counter_block(&iv, m, place)
        };
        let named = || format!("m {m} iv {}, place {place}", hex(&iv));
        equal(named, hex(&block), hex(&reached))?;
    }
    Ok(())
}

// A bit that counts is 2^bit increments ahead of the IV, or as many behind. Any other bit is refused, whatever the
// lowest m are.
fn one_bit(rng: &mut Rng) -> Outcome {
    let mut script = Script::new();
    for m in 1..=128 {
        let iv = any_iv(rng, m);
        let first = u128::from_be_bytes(iv);
        for bit in 0..128 {
            let one = 1 << bit;
            let block = (first ^ one).to_be_bytes();
            if bit < m {
                let behind = counting(m) - one + 1;
                let k = if first & one == 0 { one } else { behind };
                known(&mut script, m, iv, block, (0, k.to_be_bytes()))?;
            } else {
                let other = under(block, any_number(rng), m);
                known(&mut script, m, iv, block, (16, [0; 16]))?;
                known(&mut script, m, iv, other, (16, [0; 16]))?;
            }
        }
    }
    answered(&script, [128 * 129 / 2, 0, 128 * 127])
}

fn no_counter(rng: &mut Rng) -> Outcome {
    let mut script = Script::new();
    for m in NO_COUNTER {
        let iv = rng.block();
        let first = u128::from_be_bytes(iv);
        let one_bit = (0..128).map(|bit| first ^ 1 << bit);
        for block in one_bit.chain([first, !first, any_number(rng)]) {
            known(&mut script, m, iv, block.to_be_bytes(), (14, [0; 16]))?;
        }
    }
    answered(&script, [0, NO_COUNTER.len() * 131, 0])
}

fn calls(rng: &mut Rng) -> Outcome {
    let mut script = Script::new();
    for _ in 0..CALLS {
        let (m, iv, block) = any_place(rng);
        script.line(place_line(m, iv, block));
    }
    let numbers = tally(&script)?;
    let many = numbers.iter().all(|&count| count > CALLS / 20);
    equal(|| format!("many of each number, {numbers:?}"), true, many)
}

// The registers that the program printed, refused feeds among them, are asked for in a second run. A place asked for
// between the feeds changes nothing.
fn registers(rng: &mut Rng) -> Outcome {
    let mut script = Script::new();
    let mut fed = vec![];
    for _ in 0..SESSIONS {
        let m = any_m(rng, Mode::Ctr);
        let (direction, key, iv) = (any_direction(rng), any_key(rng), any_iv(rng, m));
        script.open_counter(Mode::Ctr, direction, 128, m, &key, &iv);
        for _ in 0..3 + rng.below(12) {
            let block = under(iv, any_number(rng), m);
            script.line(place_line(m, iv, block));
            fed.push((script.count(), m, iv));
            script.feed(&Feed::any(rng, 128));
        }
    }
    let printed = script.run()?;
    let mut places = Script::new();
    let (mut refused, mut moved) = (0, 0);
    for &(line, m, iv) in &fed {
        let words: Vec<&str> = printed[line].split(' ').collect();
        let units: u128 = words[3].parse().map_err(|_| printed[line].clone())?;
        refused += (words[0] != "0") as usize;
        moved += (units > 0) as usize;
        // after 2^m units the register is the IV again
        let place = units & counting(m);
        places.known(
            format!("place {m} {} {}", hex(&iv), words[2]),
            &format!("0 {}", hex(&place.to_be_bytes())),
        )?;
    }
    let named = || format!("{refused} feeds refused, {moved} with units done");
    equal(named, true, refused > SESSIONS && moved > SESSIONS)?;
    answered(&places, [fed.len(), 0, 0])
}
