// What a loss does, as README's table and picture have it: from which unit on the text is right again, whatever the
// reads are, or that it stays wrong. Wrong means that after the loss no 16 bytes in a row are right in their places.
// Every feed has to be answered 0.
use crate::rattle::Session;
use crate::reference::{bits, bytes, parts, Mode};
use crate::report::{equal, Outcome, Report};
use crate::rng::Rng;
use std::iter::zip;

const README: &str = include_str!("../../README.md");

const UNITS: usize = 400;
const LOST: usize = 120; // the unit from which on bits are lost
const STREAMS: usize = 4; // for each list of reads: 128 in all, of which some are wrong as long as they may be

// The picture's columns, each an n, and its rows: a label, and the bits that are lost in each column.
const COLUMNS: [usize; 5] = [1, 3, 8, 12, 128];
const ROWS: [(&str, [usize; 5]); 3] = [
    ("a segment: right from segment", COLUMNS),
    ("one byte", [8; 5]),
    ("1, 3, 1, 3, 16 bytes: whole units", [8, 24, 8, 24, 128]),
];

// A mode and its n, the bits that do not arrive from unit LOST on, and the bits that the receiver drops a while later.
type Loss = (Mode, usize, usize, usize);

pub fn run(report: &mut Report) {
    report.test("README's picture of a loss agrees with itself", picture);
    for (label, bits) in ROWS {
        for (column, (n, lost)) in zip(COLUMNS, bits).enumerate() {
            let figure = row(label).get(column).copied().unwrap_or("nothing");
            let name = format!("CFB-{n}, a loss: README's row '{label}' has {figure}");
            report.test(&name, |rng| {
                check(rng, (Mode::Cfb, n, lost, 0), after(figure, n, lost)?)
            });
        }
    }
    for (loss, after) in [
        // whole units
        ((Mode::Ecb, 128, 128, 0), Some(0)),
        ((Mode::Cbc, 128, 128, 0), Some(1)),
        ((Mode::Ofb, 128, 128, 0), None),
        ((Mode::Ctr, 128, 128, 0), None),
        ((Mode::Cfb, 2, 8, 0), Some(64)),
        ((Mode::Cfb, 4, 8, 0), Some(32)),
        // bytes that are not whole units
        ((Mode::Ecb, 128, 8, 0), None),
        ((Mode::Cbc, 128, 8, 0), None),
        ((Mode::Cfb, 3, 16, 0), None),
        ((Mode::Cfb, 12, 16, 0), None),
        // bytes dropped until whole units are missing
        ((Mode::Ecb, 128, 8, 120), Some(0)),
        ((Mode::Cbc, 128, 8, 120), Some(1)),
        ((Mode::Cfb, 3, 8, 16), Some(43)),
        ((Mode::Cfb, 3, 16, 8), Some(43)),
        ((Mode::Cfb, 12, 8, 16), Some(11)),
        ((Mode::Cfb, 12, 16, 8), Some(11)),
        ((Mode::Cfb, 128, 8, 120), Some(1)),
    ] {
        let (mode, n, lost, dropped) = (loss.0.name(), loss.1, loss.2, loss.3);
        let units = after.map_or("never".to_string(), |after| format!("after {after} units"));
        let name =
            format!("{mode}, n = {n}, {lost} bits lost and {dropped} dropped: right {units}");
        report.test(&name, |rng| check(rng, loss, after));
    }
}

// The words after a label in README's picture.
fn row(label: &str) -> Vec<&'static str> {
    let indented = README.lines().filter(|line| line.starts_with("    "));
    let mut rows = indented.map(|line| line.split_whitespace().collect::<Vec<_>>());
    let row = rows.find(|words| words.join(" ").starts_with(label));
    row.map_or(vec![], |words| words[label.split(' ').count()..].to_vec())
}

// A figure of the picture, counted in units from the loss's end.
fn after(figure: &str, n: usize, lost: usize) -> Result<Option<usize>, String> {
    if figure == "never" {
        return Ok(None);
    }
    let segment: Option<usize> = figure.parse().ok();
    let after = segment.and_then(|segment| segment.checked_sub(parts(LOST * n + lost, n)));
    after
        .map(Some)
        .ok_or(format!("README's figure is {figure}"))
}

fn picture(rng: &mut Rng) -> Outcome {
    let columns = COLUMNS.map(|n| n.to_string()).join(" ");
    let shown = row(&format!("lost from segment {LOST} on n =")).join(" ");
    equal(|| "the columns".to_string(), columns, shown)?;
    let lists = format!("for {} lists of reads", cuts(rng, 8).len());
    let words: Vec<&str> = README.split_whitespace().collect();
    equal(|| lists.clone(), true, words.join(" ").contains(&lists))?;
    // above the rows: the segments around the loss for n = 8
    let (sent, received) = (row("sent, n = 8"), row("received"));
    let lost = LOST.to_string();
    let lost = sent.iter().position(|word| **word == lost);
    let lost = lost.ok_or("README's picture lacks what is sent")?;
    let left = [&sent[..lost], &sent[lost + 1..]].concat();
    equal(|| "received".to_string(), &left, &received)?;
    let right_from = row(ROWS[0].0).get(2).and_then(|figure| figure.parse().ok());
    let wrong = LOST..right_from.ok_or("no figure for n = 8")?;
    let text = received.iter().map(|word| match word.parse() {
        Ok(segment) if wrong.contains(&segment) => "?",
        Ok(_) => "ok",
        Err(_) => "..",
    });
    equal(|| "text".to_string(), text.collect(), row("text"))
}

// The bits of each read; what is left then is one more read. Reads end before the loss, at it, after it and far from
// it, and those of the last twenty lists anywhere, also inside a unit.
fn cuts(rng: &mut Rng, n: usize) -> Vec<Vec<usize>> {
    let mut cuts: Vec<Vec<usize>> = [1, 2, 3, 7, 8, 40, LOST - 1, LOST, LOST + 1, UNITS]
        .into_iter()
        .map(|size| vec![size * n; UNITS / size])
        .collect();
    cuts.push(vec![(LOST - 1) * n, n, n, n]);
    cuts.push(vec![LOST * n, 5 * n]);
    for _ in 0..20 {
        cuts.push((0..40).map(|_| 1 + rng.below(30 * n)).collect());
    }
    cuts
}

// The text that a session gives of a stream, read by read. A part of a unit waits for the next read.
fn received(mut session: Session, stream: &[bool], cut: &[usize]) -> Result<Vec<bool>, String> {
    let mut text = vec![];
    let mut end = 0;
    for read in cut.iter().chain([&stream.len()]) {
        end = (end + read).min(stream.len());
        let fed = &stream[text.len()..end / session.n * session.n];
        let mut out = vec![0; parts(fed.len(), 8)];
        match session.feed(&bytes(fed), fed.len(), &mut out, 0).0 {
            0 => text.extend_from_slice(&bits(&out)[..fed.len()]),
            number => return Err(format!("a read is answered {number}")),
        }
    }
    Ok(text)
}

// One stream with a loss, in reads. Answered are the place in what was sent that follows the last bit lost or dropped,
// and of each bit of the text from there on whether it is right.
fn lose(
    rng: &mut Rng,
    (mode, n, lost, dropped): Loss,
    cut: &[usize],
) -> Result<(usize, Vec<bool>), String> {
    let key = rng.bytes(16);
    let iv = rng.bytes(if mode == Mode::Ecb { 0 } else { 16 });
    let open = |decrypting: bool| Session::open(mode as usize, decrypting, n, &key, &iv).1;
    let plain = bits(&rng.bytes(UNITS * n / 8));
    let cipher = received(open(false), &plain, &[])?;
    let start = LOST * n;
    let later = if dropped > 0 { 8 * rng.below(40) } else { 0 };
    let end = start + lost + later + dropped;
    let stream = [
        &cipher[..start],
        &cipher[start + lost..end - dropped],
        &cipher[end..],
    ]
    .concat();
    let text = received(open(true), &stream, cut)?;
    if text != received(open(true), &stream, &[])? {
        return Err("the text is not that of one read".to_string());
    }
    if text[..start] != plain[..start] {
        return Err("the text is wrong before the loss".to_string());
    }
    let right = zip(&text[start + later..], &plain[end..]).map(|(came, sent)| came == sent);
    Ok((end, right.collect()))
}

// In each stream the text is right `after` units from the unit's end that follows the last bit lost or dropped, and in
// one of them not before; or it is wrong to the end.
fn check(rng: &mut Rng, loss: Loss, after: Option<usize>) -> Outcome {
    let (n, mut latest) = (loss.1, 0);
    for cut in cuts(rng, n) {
        for _ in 0..STREAMS {
            let at = |why: String| format!("reads of {cut:?} bits: {why}");
            let (end, right) = lose(rng, loss, &cut).map_err(at)?;
            let in_a_row: Vec<usize> = right.split(|right| !right).map(<[bool]>::len).collect();
            if after.is_some() {
                let from = end + right.len() - in_a_row[in_a_row.len() - 1];
                latest = latest.max(parts(from, n) - parts(end, n));
            } else if let Some(many) = in_a_row.iter().find(|many| **many >= 128) {
                return Err(at(format!("{many} bits in a row are right")));
            }
        }
    }
    equal(
        || "units until the text is right".to_string(),
        after.unwrap_or(0),
        latest,
    )
}
