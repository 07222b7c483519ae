//! What a lost segment does in CFB: the text is right again after 128 / n segments, rounded up.

mod common;

use common::{bits, fed, fed_in_parts, opened, Random};
use conguraha::{Direction, Mode};

/// Loses segment 120 of a stream, and tells of each segment that came whether it is read right.
fn right_after_a_loss(n: usize, reads: &mut dyn FnMut() -> usize) -> Vec<bool> {
    let mut random = Random(6 + n as u64);
    let text = &bits(&random.bytes(n * 50))[..n * 400];
    let sent = fed(opened(Mode::Cfb, Direction::Encrypt, n), text).1;
    let received = [&sent[..n * 120], &sent[n * 121..]].concat();
    let read = fed_in_parts(opened(Mode::Cfb, Direction::Decrypt, n), &received, reads).1;
    let expected = [&text[..n * 120], &text[n * 121..]].concat();
    read.chunks(n)
        .zip(expected.chunks(n))
        .map(|(read, expected)| read == expected)
        .collect()
}

#[test]
fn a_lost_segment_of_8_bits_is_got_over_after_exactly_16() {
    for length in 1..=40 {
        let right = right_after_a_loss(8, &mut || 8 * length);
        let wrong: Vec<usize> = (0..right.len()).filter(|&i| !right[i]).collect();
        // Place 120 is segment 121 of the sender: segments 121 to 136 are read wrong, and no other.
        assert_eq!((wrong.first(), wrong.last()), (Some(&120), Some(&135)));
    }
}

#[test]
fn a_lost_segment_is_got_over_as_promised() {
    let mut random = Random(7);
    for n in 1..=128 {
        let right = right_after_a_loss(n, &mut || n * (1 + random.below(30)));
        let promised = (128 + n - 1) / n;
        let (before, after) = (&right[..120], &right[120..]);
        assert!(before.iter().all(|&right| right), "n = {}", n);
        assert!(after[promised..].iter().all(|&right| right), "n = {}", n);
        assert!(after[..promised].contains(&false), "n = {}", n);
    }
}
