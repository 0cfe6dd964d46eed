//! Runs of lines: frames of random calls, good and damaged, held against the replies from the book.
use crate::book::{Book, Call};
use crate::calls;
use crate::frames::{expected, frame, MOST_CHARACTERS};
use crate::random::Random;
use crate::runs::NUMBERS;
use crate::stagings;
use std::io::Write;
use tihvomen::Panel;

const RUNS: u64 = 800;
const LINES: usize = 70;

/// The frame as text in mixed letter case; now and then a line that is damaged, cut, empty or far too long.
fn text(random: &mut Random, mut frame: Vec<u8>) -> Vec<u8> {
    match random.below(30) {
        0 => frame[0] = random.below(12) as u8,
        1 => frame.truncate(random.below(3)),
        2 => frame.push(random.byte()),
        _ => (),
    }
    let upper = random.once_in(3);
    let mut line: Vec<u8> = frame.iter().flat_map(|byte| format!("{byte:02x}").into_bytes()).collect();
    if upper {
        line.make_ascii_uppercase();
    }
    match random.below(30) {
        0 => line.push(b'\r'),
        1 => drop(line.pop()),
        2 if !line.is_empty() => {
            let at = random.below(line.len());
            line[at] = random.byte();
        }
        3 => line.resize(MOST_CHARACTERS + random.below(3), b'0'),
        _ => (),
    }
    line
}

#[test]
fn lines_are_replied_as_the_book_replies() {
    let mut seen = [0; NUMBERS];
    for seed in 0..RUNS {
        let mut random = Random::new(1_000_000 + seed);
        let (mut panel, mut book) = (Panel::new(), Book::new());
        let mut last = Vec::new();
        for step in 0..LINES {
            let call = match step {
                0 => {
                    let n = 1 + random.below(32) as u8;
                    Call::Stage { n, bytes: stagings::good(&mut random, n).bytes() }
                }
                1 => Call::Switch,
                _ => calls::any_call(&mut random, &book, &last),
            };
            let Some(frame) = frame(&call) else { continue };
            let line = text(&mut random, frame);
            let (made, bytes) = expected(&book, &line);
            let reply: String = bytes.iter().map(|byte| format!("{byte:02x}")).collect();
            assert_eq!(panel.reply(&line), reply, "run {seed}, line {step}: {}", String::from_utf8_lossy(&line));
            seen[usize::from(bytes[0])] += 1;
            if let Some(call) = made {
                book.note(&call, bytes[0]);
                if bytes.len() > 1 && bytes.len() < 256 {
                    last = bytes[1..].to_vec();
                }
            }
        }
    }
    let counts: Vec<String> = seen.iter().enumerate().map(|(number, count)| format!("{number}: {count}")).collect();
    writeln!(std::io::stdout(), "\nlines, by number: {}", counts.join(", ")).unwrap();
    for (number, &count) in seen.iter().enumerate() {
        let never = [10, 13, 14, 16, 17].contains(&number);
        assert_eq!(count > 0, !never, "a line never meets 10, 13, 14, 16, 17, and meets every other number: {number}");
    }
}
