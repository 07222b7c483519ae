// The forms of replay's lines: a line of another form prints `?` and changes nothing; an empty line and a comment print
// nothing and change nothing.
use crate::answers::{self, MAX_BYTES, MAX_LINE};
use crate::arguments::{any_key, Feed};
use crate::direction::Direction;
use crate::process;
use crate::reference::Mode;
use crate::report::{equal, Outcome, Report};
use crate::rng::Rng;
use crate::script::{Script, PROGRAM};

const OTHER_LINES: usize = 100;
const PASSED_OVER: usize = 400;

// A good line of each command, where * stands for 16 bytes, and the kinds of its words.
const FORMS: &[(&str, &str)] = &[
    ("open CFB 8 E * *", "MODE NUMBER E|D BYTES BYTES"),
    (
        "open-counter CTR 128 8 E * *",
        "MODE NUMBER NUMBER E|D BYTES BYTES",
    ),
    (
        "session CTR 128 32 D 10 * 5 0 *",
        "MODE NUMBER NUMBER E|D NUMBER BLOCK NUMBER CLOSED KEYS",
    ),
    ("show", ""),
    ("feed 8 2 1 ee *", "NUMBER OUTLEN NUMBER FILL INPUT"),
    ("units 5", "NUMBER"),
    ("carry", ""),
    ("keep", ""),
    ("alike", ""),
    ("forecast CFB 3 9", "MODE NUMBER NUMBER"),
    ("place 8 * *", "NUMBER BLOCK BLOCK"),
    ("pad 8 16 0 ee *", "NUMBER OUTLEN NUMBER FILL INPUT"),
    ("unpad 128 *", "NUMBER INPUT"),
    ("neighbour * * 0", "BYTES INPUT NUMBER"),
    (
        "block * * * 0 16 0 ee",
        "BYTES BYTES INPUT NUMBER OUTLEN NUMBER FILL",
    ),
    (
        "steal E * * 136 18 1 ee **",
        "E|D BYTES BYTES NUMBER OUTLEN NUMBER FILL INPUT",
    ),
    ("expand *", "BYTES"),
    ("encrypt * *", "BYTES BLOCK"),
    ("decrypt * *", "BYTES BLOCK"),
];

// The program's sources: the `match` that finds a command by its name, and the lines of its head that begin with one.
const ARMS: &str = "crates/replay/src/commands.rt";
const HEAD: &str = "crates/replay/src/main.rt";
const HEAD_LINE: &str = "//     ";

const BLOCK: &str = "5a0123456789abcdef00ff80807f015a";

// Words that are not of a kind, separated by spaces; the empty word is of none. Beside those of digits stand the bytes
// next to them.
const NO_MODES: &str = "- 0 ecb ctr Ecb CB CBCX GCM";
const NO_DIRECTIONS: &str = "- 0 e d F ED";
const NO_NUMBERS: &str = "- -1 +1 x 1x 1a 0x8 1.0 8\r 8\t 8\0 /0 :0 \
    18446744073709551616 99999999999999999999 100000000000000000000";
const NO_BYTES: &str = "0 e 000 0A AB 0g 0G g0 zz -- -00 0- 0x /0 :0 `0 \0\0 \u{80} 00\r";

fn source(path: &str) -> Result<String, String> {
    std::fs::read_to_string(path).map_err(|why| format!("{path}: {why}"))
}

// The name in an arm of the `match`, as in `b"show" => self.show(words),`.
fn arm_name(line: &str) -> Option<String> {
    let (name, _) = line
        .trim_start()
        .strip_prefix("b\"")?
        .split_once("\" => ")?;
    Some(name.to_string())
}

fn same_commands() -> Outcome {
    let (code, head) = (source(ARMS)?, source(HEAD)?);
    let in_arms = code.lines().filter_map(arm_name);
    let in_head = head.lines().filter_map(|line| line.strip_prefix(HEAD_LINE));
    let in_head = in_head.map(|line| name_of(line).to_string());
    let in_forms = FORMS.iter().map(|form| name_of(form.0).to_string());
    let mut expected: Vec<String> = answers::names().iter().map(|n| n.to_string()).collect();
    expected.sort();
    for (place, names) in [
        (ARMS, in_arms.collect::<Vec<_>>()),
        (HEAD, in_head.collect()),
        ("FORMS", in_forms.collect()),
    ] {
        let mut names = names;
        names.sort();
        equal(|| place.to_string(), &expected, &names)?;
    }
    Ok(())
}

fn wrong_words(kind: &str) -> Vec<String> {
    let zeros = |count: usize| "00".repeat(count);
    let (words, more) = match kind {
        "MODE" => (NO_MODES, vec![]),
        "E|D" => (NO_DIRECTIONS, vec![]),
        "NUMBER" => (NO_NUMBERS, vec![]),
        "OUTLEN" => (NO_NUMBERS, numbers(&[MAX_BYTES + 1, usize::MAX])),
        "CLOSED" => (NO_NUMBERS, numbers(&[2, 10, 256, usize::MAX])),
        "BYTES" => (NO_BYTES, vec![]),
        "INPUT" => (NO_BYTES, vec![zeros(MAX_BYTES + 1)]),
        "KEYS" => (NO_BYTES, vec![zeros(241), zeros(480), zeros(MAX_BYTES)]),
        "FILL" => (NO_BYTES, vec!["-".to_string(), zeros(2), zeros(3)]),
        "BLOCK" => (NO_BYTES, no_blocks()),
        _ => panic!("{kind} is no kind of word"),
    };
    let words = words.split(' ').map(str::to_string);
    words.chain(more).chain([String::new()]).collect()
}

fn numbers(numbers: &[usize]) -> Vec<String> {
    numbers.iter().map(usize::to_string).collect()
}

// Words that are close to a block: of other lengths, or with other bytes in them.
fn no_blocks() -> Vec<String> {
    let digits = |count: usize| BLOCK.chars().cycle().take(count).collect();
    let mut words: Vec<String> = [1, 2, 30, 31, 33, 34, 64, 2 * MAX_BYTES]
        .map(digits)
        .to_vec();
    for end in ["5A", "5g", "--"] {
        words.push(format!("{}{end}", &BLOCK[..30]));
    }
    words.push("-".to_string());
    words.push(format!("-{}", &BLOCK[1..]));
    words
}

// The line with its words from `from` to `to` replaced.
fn replaced(words: &[&str], from: usize, to: usize, by: &[&str]) -> String {
    [&words[..from], by, &words[to..]].concat().join(" ")
}

// A good line with words too few, too many, in another order, or separated in another way.
fn parted_wrongly(words: &[&str]) -> Vec<String> {
    let end = words.len();
    let mut lines = vec![
        replaced(words, end, end, &["0"]),
        replaced(words, end, end, &[""]),
        replaced(words, end, end, &["", ""]),
        replaced(words, 0, 1, &["", ""]),
    ];
    for k in 0..end {
        lines.push(replaced(words, k, k + 1, &[]));
        lines.push(replaced(words, k, k, &[""]));
        lines.push(replaced(words, k, k, &[words[k]]));
    }
    for k in 1..end {
        lines.push(words[..k].join(" "));
        lines.push(replaced(words, k, end, &[""]));
        for between in ["", "\t", "\r", "\0", ","] {
            let both = format!("{}{between}{}", words[k - 1], words[k]);
            lines.push(replaced(words, k - 1, k + 1, &[&both]));
        }
    }
    if end > 1 {
        lines.push(replaced(
            words,
            1,
            end,
            &[&words[2..], &words[1..2]].concat(),
        ));
    }
    lines
}

// A good line with its name or its end changed.
fn named_wrongly(words: &[&str]) -> Vec<String> {
    let (name, line) = (words[0], words.join(" "));
    let names = [
        name.to_uppercase(),
        name[..1].to_uppercase() + &name[1..],
        name[..name.len() - 1].to_string(),
        format!("{name}s"),
        format!("{name}\0"),
        name.replace('-', "_"),
        name.replace('-', " "),
    ];
    let ends = ["\r", "\t", "\0", ";"];
    let renamed = names.iter().map(|name| replaced(words, 0, 1, &[name]));
    let ended = ends.iter().map(|end| format!("{line}{end}"));
    renamed.chain(ended).collect()
}

// A good line with each of its words replaced by each wrong one.
fn worded_wrongly(words: &[&str], kinds: &[&str]) -> Vec<String> {
    let mut lines = vec![];
    for (k, kind) in kinds.iter().enumerate() {
        let wrong = wrong_words(kind);
        let changed = wrong.iter().map(|w| replaced(words, k + 1, k + 2, &[w]));
        lines.extend(changed);
    }
    lines
}

// The bad lines that come from a good one.
fn bad_lines_of(good: &str, kinds: &str) -> Vec<Vec<u8>> {
    let words: Vec<&str> = good.split(' ').collect();
    let kinds: Vec<&str> = kinds.split_whitespace().collect();
    assert!(
        kinds.len() == words.len() - 1,
        "{good}: a kind for each word"
    );
    let mut lines = parted_wrongly(&words);
    lines.extend(named_wrongly(&words));
    lines.extend(worded_wrongly(&words, &kinds));
    lines.retain(|line| !line.is_empty() && line != good);
    lines.into_iter().map(String::into_bytes).collect()
}

const OTHERS: &[&str] = &[
    " ",
    "  ",
    "\t",
    "\r",
    "\0",
    "?",
    "-",
    " #",
    "  # a comment",
    "\t#",
    "keep#",
    "keep #",
    "alike # a comment",
    "close",
    "kept",
    "keep it",
    "carry it",
    "carried",
    "set",
];

// Lines that come from none: short ones, long ones and noise.
fn other_bad_lines(rng: &mut Rng) -> Vec<Vec<u8>> {
    let long = "0".repeat(MAX_LINE);
    let mut lines: Vec<Vec<u8>> = OTHERS.iter().map(|line| line.as_bytes().to_vec()).collect();
    let long_ones = [
        format!("feed 8 1 0 00 {long}"),
        format!("unpad 8 {long}"),
        format!("neighbour - {long} 0"),
        format!(" #{long}"),
        "x".repeat(1_000_000),
        "feed ".repeat(100_000),
    ];
    lines.extend(long_ones.map(String::into_bytes));
    lines.push(b"\xff".to_vec());
    while lines.len() < OTHER_LINES {
        let length = 1 + rng.below(100);
        let noise = rng.bytes(length);
        if noise[0] != b'#' && !noise.contains(&b'\n') {
            lines.push(noise);
        }
    }
    lines
}

pub fn run(report: &mut Report) {
    for (form, kinds) in FORMS {
        let good = form.replace('*', BLOCK);
        let lines = bad_lines_of(&good, kinds);
        let (name, count) = (name_of(form), lines.len());
        report.test(
            &format!("replay: {count} bad lines of {name} print ? and change nothing"),
            |rng| bad(rng, Some(&good), &lines),
        );
    }
    report.test(
        &format!("replay: {OTHER_LINES} other bad lines print ? and change nothing"),
        |rng| {
            let lines = other_bad_lines(rng);
            bad(rng, None, &lines)
        },
    );
    report.test(
        "replay: in each command, numbers with zeros in front are the same numbers",
        zeros_in_front,
    );
    report.test(
        "replay: the program, its head, the reference and the bad lines have the same commands",
        |_| same_commands(),
    );
    report.test(
        "replay: empty lines and comments print nothing and change nothing",
        comments,
    );
    report.test("replay: no input, no last line feed, and no commands", ends);
}

fn name_of(line: &str) -> &str {
    line.split(' ').next().unwrap_or("")
}

// A list with a session that was kept before its first feed.
fn opened(rng: &mut Rng) -> Script {
    let mut script = Script::new();
    let (key, iv) = (any_key(rng), rng.bytes(16));
    script.open(Mode::Cfb, Direction::Encrypt, 3, &key, &iv);
    script.line("keep");
    script.line("feed 9 2 0 00 6bc1");
    script
}

// Lines that tell whether the session, or the kept one, is another than it was.
fn look(rng: &mut Rng, script: &mut Script) {
    script.line("alike");
    let mut feed = Feed::any(rng, 3);
    feed.bits = 3 * rng.below(8);
    script.feed(&feed);
}

// The line that the bad ones come from is good.
fn bad(rng: &mut Rng, good: Option<&str>, lines: &[Vec<u8>]) -> Outcome {
    let mut script = opened(rng);
    for line in lines {
        script.known(line, "?")?;
        look(rng, &mut script);
    }
    script.line("show");
    if let Some(good) = good {
        let before = script.how_often(name_of(good), "?");
        script.line(good);
        let after = script.how_often(name_of(good), "?");
        equal(|| good.to_string(), before, after)?;
    }
    script.run().map(|_| ())
}

fn zeros_in_front(rng: &mut Rng) -> Outcome {
    let (key, iv) = (any_key(rng), rng.bytes(16));
    for (form, kinds) in FORMS {
        let good = form.replace('*', BLOCK);
        let mut words: Vec<String> = good.split(' ').map(str::to_string).collect();
        for (word, kind) in words[1..].iter_mut().zip(kinds.split_whitespace()) {
            if ["NUMBER", "OUTLEN", "CLOSED"].contains(&kind) {
                *word = format!("{}{word}", "0".repeat(1 + rng.below(40)));
            }
        }
        let mut printed = vec![];
        for line in [good, words.join(" ")] {
            let mut script = Script::new();
            script.open(Mode::Cfb, Direction::Encrypt, 8, &key, &iv);
            script.line(line);
            printed.push(script.run()?);
        }
        equal(|| words.join(" "), &printed[0], &printed[1])?;
    }
    Ok(())
}

// A comment may be longer than the longest line, and have anything in it.
fn any_passed_over(rng: &mut Rng) -> Vec<u8> {
    let long = [MAX_LINE - 1, MAX_LINE, MAX_LINE + 1, 3 * MAX_LINE];
    match rng.below(12) {
        0..=3 => vec![],
        4 => b"#".to_vec(),
        5 => b"#= 0 3b79".to_vec(),
        6 => b"#> ?".to_vec(),
        7 => b"#keep".to_vec(),
        8 => "# keep".repeat(rng.below(30_000)).into_bytes(),
        9 => [b"#", &vec![b'x'; *rng.pick(&long)][..]].concat(),
        _ => {
            let length = rng.below(200);
            let mut noise = rng.bytes(length);
            noise.retain(|&b| b != b'\n');
            [b"#", &noise[..]].concat()
        }
    }
}

fn comments(rng: &mut Rng) -> Outcome {
    let mut script = opened(rng);
    for _ in 0..PASSED_OVER {
        let before = script.count();
        let line = any_passed_over(rng);
        script.line(&line);
        equal(|| format!("{line:?} prints"), before, script.count())?;
        if rng.below(2) == 0 {
            look(rng, &mut script);
        }
    }
    script.line("show");
    script.run().map(|_| ())
}

fn ends(_: &mut Rng) -> Outcome {
    for (input, printed) in [
        ("", ""),
        ("keep\nalike", "kept\nyes\n"),
        ("\n", ""),
        ("#", ""),
        ("\n\n# no command\n", ""),
        ("keep\n# no line feed", "kept\n"),
        ("\n#\n\nalike", "yes\n"),
        (" ", "?\n"),
        ("keep\n ", "kept\n?\n"),
    ] {
        let came = process::run(PROGRAM, input.as_bytes())?;
        let came = String::from_utf8_lossy(&came);
        equal(|| format!("input {input:?}"), printed, &came)?;
    }
    Ok(())
}
