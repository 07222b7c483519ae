// The text program as a process: published and random texts, and what is not of its form.
use crate::direction::Direction;
use crate::hex::{self, hex};
use crate::process::{self, Held};
use crate::reference::{Mode, Session, MODES};
use crate::report::{equal, Outcome, Report};
use crate::rng::Rng;
use std::process::Command;
use std::thread::sleep;
use std::time::Duration;

const PROGRAM: &str = "target/bin/modeline";

// A program that has enough answers long before; one that waits for more is given the short time to show it.
const LONG: Duration = Duration::from_secs(20);
const SHORT: Duration = Duration::from_millis(200);

const EXAMPLE: &str = "CFB 8 E
2b7e151628aed2a6abf7158809cf4f3c
000102030405060708090a0b0c0d0e0f
6bc1
";

pub fn run(report: &mut Report) {
    report.test("modeline: document 01's example", |_| {
        prints(EXAMPLE.as_bytes(), "0 3b79\n")
    });
    report.test("modeline: 500 random texts as the reference", texts);
    report.test("modeline: the edges of n, key, IV and data", edges);
    report.test("modeline: what is not of the form is answered 12", hostile);
    report.test(
        "modeline: an example with any one byte changed, removed or added",
        one_byte,
    );
    report.test(
        "modeline: with its input held open, it answers at the byte that ends the reading",
        held_open,
    );
    report.test(
        "modeline: with its input held open, it waits where the text is of the form so far",
        waits,
    );
    report.test("modeline: texts in pieces and byte by byte", pieces);
    report.test("./modeline: an argument is answered with the usage", usage);
}

fn prints(input: &[u8], expected: &str) -> Outcome {
    let came = process::run(PROGRAM, input)?;
    let shown = || {
        let text = String::from_utf8_lossy(&input[..input.len().min(300)]);
        format!("input {text:?}")
    };
    equal(shown, expected, &String::from_utf8_lossy(&came))
}

// What document 01 says of an input.
fn answer(input: &[u8]) -> String {
    let number = |number: u8| format!("{number}\n");
    let ((mode, n, direction), key, iv, data) = match parsed(input) {
        Some(parsed) => parsed,
        None => return number(12),
    };
    let (opened, mut session) = Session::open(mode, direction, n, &key, &iv);
    if opened != 0 {
        return number(opened);
    }
    let mut out = vec![0; data.len()];
    match session.feed(&data, 8 * data.len(), &mut out, 0).0 {
        0 => format!("0 {}\n", hex(&out)),
        refused => number(refused),
    }
}

type First = (Mode, usize, Direction);
type Parsed = (First, Vec<u8>, Vec<u8>, Vec<u8>);

const MOST: [usize; 4] = [9, 128, 128, 8192];

fn first(line: &[u8]) -> Option<First> {
    let words: Vec<&str> = std::str::from_utf8(line).ok()?.split(' ').collect();
    let (mode, n, direction) = match words[..] {
        [mode, n, direction] => (mode, n, direction),
        _ => return None,
    };
    let mode = MODES.into_iter().find(|m| m.name() == mode)?;
    let decimal = (1..=3).contains(&n.len()) && n.bytes().all(|b| b.is_ascii_digit());
    let n = decimal.then(|| n.parse().ok()).flatten()?;
    match direction {
        "E" => Some((mode, n, Direction::Encrypt)),
        "D" => Some((mode, n, Direction::Decrypt)),
        _ => None,
    }
}

fn digits(line: &[u8], most: usize) -> Option<Vec<u8>> {
    (line.len() <= most).then(|| hex::bytes(line)).flatten()
}

fn parsed(input: &[u8]) -> Option<Parsed> {
    let lines: Vec<&[u8]> = input.strip_suffix(b"\n")?.split(|&b| b == b'\n').collect();
    match lines[..] {
        [head, key, iv, data] => Some((
            first(head)?,
            digits(key, MOST[1])?,
            digits(iv, MOST[2])?,
            digits(data, MOST[3])?,
        )),
        _ => None,
    }
}

// Has a line ended the reading: one that is not of its form, one that is too long, or what follows the fourth?
fn ended(front: &[u8]) -> bool {
    let mut rest = front;
    for (line, most) in MOST.into_iter().enumerate() {
        let end = match rest.iter().position(|&b| b == b'\n') {
            Some(end) => end,
            None => return rest.len() > most,
        };
        let good = match line {
            0 => first(&rest[..end]).is_some(),
            _ => digits(&rest[..end], most).is_some(),
        };
        if !good {
            return true;
        }
        rest = &rest[end + 1..];
    }
    !rest.is_empty()
}

fn any_text(rng: &mut Rng) -> String {
    let mode = *rng.pick(&MODES);
    let n = match (mode, rng.below(10)) {
        (_, 0) => rng.below(1000),
        (Mode::Cfb, _) => *rng.pick(&[1, 2, 4, 8, 16, 32, 64, 128, 3, 24]),
        _ => 128,
    };
    let letter = rng.pick(&["E", "D"]);
    let key_length = match rng.below(10) {
        0 => rng.below(65),
        _ => *rng.pick(&[16, 24, 32]),
    };
    let iv_length = match (mode, rng.below(10)) {
        (_, 0) => rng.below(65),
        (Mode::Ecb, _) => 0,
        _ => 16,
    };
    let data_length = match rng.below(10) {
        0 => rng.below(4097),
        1 => 4096,
        2 => rng.below(100),
        _ => 16 * rng.below(20),
    };
    let zeros = rng.below(3);
    format!(
        "{} {n:0zeros$} {letter}\n{}\n{}\n{}\n",
        mode.name(),
        hex(&rng.bytes(key_length)),
        hex(&rng.bytes(iv_length)),
        hex(&rng.bytes(data_length))
    )
}

fn texts(rng: &mut Rng) -> Outcome {
    for _ in 0..500 {
        let text = any_text(rng);
        prints(text.as_bytes(), &answer(text.as_bytes()))?;
    }
    Ok(())
}

fn edges(rng: &mut Rng) -> Outcome {
    let key = hex(&rng.bytes(16));
    let iv = hex(&rng.bytes(16));
    let text =
        |head: &str, key: &str, iv: &str, data: &str| format!("{head}\n{key}\n{iv}\n{data}\n");
    for (text, number) in [
        (text("CFB 1 E", &key, &iv, ""), "0 "),
        (text("CFB 128 E", &key, &iv, ""), "0 "),
        (text("CFB 001 E", &key, &iv, ""), "0 "),
        (text("ECB 128 D", &key, "", ""), "0 "),
        (text("CFB 000 E", &key, &iv, ""), "3"),
        (text("CFB 129 E", &key, &iv, ""), "3"),
        (text("CFB 999 E", &key, &iv, ""), "3"),
        (text("CBC 127 E", &key, &iv, ""), "3"),
        (text("CBC 128 E", "", "", ""), "1"),
        (text("CBC 128 E", &"0".repeat(128), "", ""), "1"),
        (text("CBC 128 E", &"0".repeat(130), "", ""), "12"),
        (text("CBC 128 E", &key, &"0".repeat(128), ""), "2"),
        (text("CBC 128 E", &key, &"0".repeat(130), ""), "12"),
        (text("ECB 128 E", &key, &iv, ""), "2"),
        (text("CBC 128 E", &key, &iv, "00"), "7"),
        (text("CFB 3 E", &key, &iv, "00"), "7"),
        (text("CBC 128 E", &key, &iv, &"0".repeat(8194)), "12"),
        (text("CBC 128 E", &key, &iv, &"0".repeat(8193)), "12"),
        (text("CBC 1280 E", &key, &iv, ""), "12"),
        (text("CBC  E", &key, &iv, ""), "12"),
    ] {
        prints(text.as_bytes(), &format!("{number}\n"))?;
        equal(
            || text.clone(),
            format!("{number}\n"),
            answer(text.as_bytes()),
        )?;
    }
    let most = text("CTR 128 D", &key, &iv, &hex(&rng.bytes(4096)));
    prints(most.as_bytes(), &answer(most.as_bytes()))
}

fn hostile(rng: &mut Rng) -> Outcome {
    let changed = |from: &str, to: &str| EXAMPLE.replacen(from, to, 1).into_bytes();
    let inputs: Vec<Vec<u8>> = vec![
        vec![],
        b"\n".to_vec(),
        b"\n\n\n\n".to_vec(),
        EXAMPLE.trim_end().as_bytes().to_vec(),
        EXAMPLE.replace('\n', "\r\n").into_bytes(),
        EXAMPLE.replace('\n', "\r").into_bytes(),
        EXAMPLE.to_uppercase().into_bytes(),
        EXAMPLE.to_lowercase().into_bytes(),
        format!("{EXAMPLE}\n").into_bytes(),
        format!("{EXAMPLE}00\n").into_bytes(),
        format!("{EXAMPLE} ").into_bytes(),
        format!("{EXAMPLE}\0").into_bytes(),
        format!("{EXAMPLE}{EXAMPLE}").into_bytes(),
        format!("\u{feff}{EXAMPLE}").into_bytes(),
        changed("CFB 8 E\n", ""),
        changed("CFB 8 E", "CFB  8 E"),
        changed("CFB 8 E", "CFB\t8\tE"),
        changed("CFB 8 E", " CFB 8 E"),
        changed("CFB 8 E", "CFB 8 E "),
        changed("CFB 8 E", "CFB 8 X"),
        changed("CFB 8 E", "CFB -8 E"),
        changed("CFB 8 E", "CFB +8 E"),
        changed("CFB 8 E", "CFB 0008 E"),
        changed("CFB 8 E", "GCM 8 E"),
        changed("6bc1", "6bc"),
        changed("6bc1", "6bc1a"),
        changed("6bc1", "6bC1"),
        changed("6bc1", "6b c1"),
        changed("6bc1", "0x6bc1"),
        changed("6bc1", "6bg1"),
        changed("6bc1", "6b\0c1"),
        changed("2b7e", "2B7E"),
        changed("6bc1", &"0".repeat(8193)),
        changed("6bc1", &"0".repeat(100_000)),
        vec![0; 1000],
        vec![b'0'; 1_000_000],
        vec![b'\n'; 1_000_000],
        rng.bytes(1_000_000),
        rng.bytes(8461),
        rng.bytes(8462),
    ];
    for input in inputs {
        prints(&input, "12\n")?;
    }
    // 1 MB of noise after a text that is good
    let mut noise = EXAMPLE.as_bytes().to_vec();
    noise.extend(rng.bytes(1_000_000));
    prints(&noise, "12\n")
}

// The example with any one byte changed, removed or added.
fn neighbours(rng: &mut Rng) -> Vec<Vec<u8>> {
    let example = EXAMPLE.as_bytes();
    let mut all = vec![];
    for at in 0..example.len() {
        let mut changed = example.to_vec();
        changed[at] = *rng.pick(b"09afAF \n\r\0gE128");
        let mut removed = example.to_vec();
        removed.remove(at);
        let mut added = example.to_vec();
        added.insert(at, *rng.pick(b"09afAF \n\r\0gE128"));
        all.extend([changed, removed, added]);
    }
    all
}

fn one_byte(rng: &mut Rng) -> Outcome {
    for input in neighbours(rng) {
        prints(&input, &answer(&input))?;
    }
    Ok(())
}

// How many bytes of the input it takes to end the reading.
fn enough(input: &[u8]) -> Option<usize> {
    (1..=input.len()).find(|&n| ended(&input[..n]))
}

fn shown(input: &[u8]) -> String {
    let end = &input[input.len().saturating_sub(60)..];
    let text = String::from_utf8_lossy(end);
    format!("{} bytes that end in {text:?}", input.len())
}

fn held(front: &[u8]) -> Result<Held, String> {
    let mut program = Held::start(PROGRAM)?;
    program.write(front);
    Ok(program)
}

// No answer, for a time in which these programs would have given one.
fn wait_on<'a>(programs: impl Iterator<Item = (&'a mut Held, &'a [u8])>) -> Outcome {
    sleep(SHORT);
    for (program, front) in programs {
        if let Some(came) = program.written(Duration::ZERO) {
            let came = String::from_utf8_lossy(&came);
            return Err(format!("{}: already {came:?}", shown(front)));
        }
    }
    Ok(())
}

fn answers(program: &mut Held, front: &[u8], expected: &str) -> Outcome {
    match program.written(LONG) {
        Some(came) => equal(|| shown(front), expected, &String::from_utf8_lossy(&came)),
        None => Err(format!("{}: no answer", shown(front))),
    }
}

// Each is written but for the byte that ends the reading, which is added when no program has answered.
fn held_open(rng: &mut Rng) -> Outcome {
    let line = |before: &str, count: usize| format!("{before}{}", "0".repeat(count)).into_bytes();
    let zeros = "0".repeat(128);
    let mut inputs = vec![
        b"CFX 8 E\n".to_vec(),
        b"CFB 128 E ".to_vec(),
        b"\n".to_vec(),
        b"CFB 8 E\n0g\n".to_vec(),
        b"CFB 8 E\n000\n".to_vec(),
        b"CFB 8 E\n\nAA\n".to_vec(),
        b"CFB 8 E\n\n\n0\n".to_vec(),
        b"CFB 8 E\n\n\n\n\n".to_vec(),
        format!("{EXAMPLE}x").into_bytes(),
        line("CFB 8 E\n", 129),
        line("CFB 8 E\n\n", 129),
        line("CFB 8 E\n\n\n", 8193),
        line(&format!("CFB 128 E\n{zeros}\n{zeros}\n"), 8193),
        rng.bytes(20_000),
    ];
    inputs.extend(neighbours(rng));
    let fronts: Vec<&[u8]> = inputs
        .iter()
        .filter_map(|input| enough(input).map(|n| &input[..n]))
        .collect();
    for fronts in fronts.chunks(50) {
        let mut programs = vec![];
        for front in fronts {
            programs.push(held(&front[..front.len() - 1])?);
        }
        wait_on(programs.iter_mut().zip(fronts.iter().copied()))?;
        for (program, front) in programs.iter_mut().zip(fronts) {
            program.write(&front[front.len() - 1..]);
            answers(program, front, "12\n")?;
        }
    }
    Ok(())
}

// Every front of the example, the whole of it too; then the rest, and the input's end.
fn waits(_: &mut Rng) -> Outcome {
    let example = EXAMPLE.as_bytes();
    let fronts: Vec<&[u8]> = (0..=example.len()).map(|n| &example[..n]).collect();
    for fronts in fronts.chunks(50) {
        let mut programs = vec![];
        for front in fronts {
            programs.push(held(front)?);
        }
        wait_on(programs.iter_mut().zip(fronts.iter().copied()))?;
        for (program, front) in programs.iter_mut().zip(fronts) {
            program.write(&example[front.len()..]);
            program.end_input();
            answers(program, front, "0 3b79\n")?;
        }
    }
    Ok(())
}

fn pieces(rng: &mut Rng) -> Outcome {
    for _ in 0..20 {
        let text = any_text(rng).into_bytes();
        let mut program = held(&[])?;
        let mut rest = &text[..];
        while !rest.is_empty() {
            let (piece, behind) = rest.split_at(rest.len().min(1 + rng.below(400)));
            program.write(piece);
            sleep(Duration::from_millis(1));
            rest = behind;
        }
        program.end_input();
        answers(&mut program, &text, &answer(&text))?;
    }
    let zeros = "0".repeat(8192);
    let longest = format!("CTR 128 E\n{}\n{}\n{zeros}\n", &zeros[..128], &zeros[..128]);
    for (text, pause) in [(EXAMPLE, 1), (&longest, 0)] {
        let mut program = byte_by_byte(text.as_bytes(), pause)?;
        program.end_input();
        answers(&mut program, text.as_bytes(), &answer(text.as_bytes()))?;
    }
    let bad = b"CFB 8 E\n2b7G\n";
    answers(&mut byte_by_byte(bad, 1)?, bad, "12\n")
}

// A program that is written to in single bytes, with `pause` milliseconds after each.
fn byte_by_byte(text: &[u8], pause: u64) -> Result<Held, String> {
    let mut program = held(&[])?;
    for byte in text {
        program.write(&[*byte]);
        if pause > 0 {
            sleep(Duration::from_millis(pause));
        }
    }
    Ok(program)
}

fn usage(_: &mut Rng) -> Outcome {
    for (argument, status) in [("--help", 0), ("examples/cfb8", 2)] {
        let came = Command::new("./modeline")
            .arg(argument)
            .output()
            .map_err(|why| format!("./modeline: {why}"))?;
        let said = [came.stdout, came.stderr].map(|text| text.starts_with(b"usage: "));
        equal(
            || format!("./modeline {argument}"),
            (Some(status), [status == 0, status != 0]),
            (came.status.code(), said),
        )?;
    }
    Ok(())
}
