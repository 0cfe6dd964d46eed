//! The stored runs of lines and of calls: the book alone gives the answers that are stored.
use crate::book::{Book, Call};
use crate::frames::expected;
use std::fs;
use std::path::{Path, PathBuf};

/// The files with that end in a folder of the repository's tests.
fn stored(folder: &str, end: &str) -> Vec<PathBuf> {
    let folder = Path::new(env!("CARGO_MANIFEST_DIR")).join("../tests").join(folder);
    let files = fs::read_dir(folder).unwrap().map(|entry| entry.unwrap().path());
    files.filter(|path| path.extension().is_some_and(|other| other == end)).collect()
}

#[test]
fn stored_replies_are_the_books() {
    let inputs = stored("runs", "in");
    assert!(inputs.len() > 18, "{inputs:?}");
    for input in &inputs {
        let mut book = Book::new();
        let (lines, replies) = (fs::read(input).unwrap(), fs::read(input.with_extension("out")).unwrap());
        let mut stored = replies.split(|&byte| byte == b'\n');
        for (step, line) in lines.strip_suffix(b"\n").unwrap_or(&lines).split(|&byte| byte == b'\n').enumerate() {
            let (call, bytes) = expected(&book, line);
            let reply: String = bytes.iter().map(|byte| format!("{byte:02x}")).collect();
            assert_eq!(stored.next(), Some(reply.as_bytes()), "{input:?}, line {}", step + 1);
            if let Some(call) = call {
                book.note(&call, bytes[0]);
            }
        }
        assert_eq!(stored.next(), Some(&[][..]), "{input:?} has more replies than lines");
    }
}

/// Bytes in hexadecimal; `-` is none.
fn bytes(text: &str) -> Vec<u8> {
    let digits = text.strip_prefix('-').unwrap_or(text).as_bytes();
    digits.chunks(2).map(|pair| u8::from_str_radix(std::str::from_utf8(pair).unwrap(), 16).unwrap()).collect()
}

/// The call of a line.
fn call(words: &[&str]) -> Call {
    let number = |text: &str| text.parse().unwrap();
    let room = usize::MAX;
    match words {
        ["stage", n, rest] => Call::Stage { n: number(n), bytes: bytes(rest) },
        ["switch"] => Call::Switch,
        ["put", place, row] => Call::PutRow { place: number(place), row: bytes(row) },
        ["record", place, record] => Call::PutRecord { place: number(place), record: bytes(record) },
        ["claim", place, row, record] => {
            Call::PutClaim { place: number(place), row: bytes(row), record: bytes(record) }
        }
        ["drop", place] => Call::Drop { place: number(place) },
        ["shortest", record] => Call::ShortestRow { record: bytes(record), room },
        ["evaluate", place, meanings, values] => {
            let values = values.split(',').filter(|value| *value != "-");
            let readings = values.map(|value| value.parse().unwrap()).collect();
            Call::Evaluate { place: number(place), meanings: bytes(meanings), readings }
        }
        ["powers", operator] => Call::Powers { operator: number(operator) },
        _ => panic!("no such call: {words:?}"),
    }
}

/// `CALL => NUMBER ANSWER`: a value and powers in decimal, bytes in hexadecimal.
#[test]
fn stored_answers_are_the_books() {
    let files = stored("calls", "calls");
    assert!(files.len() > 4, "{files:?}");
    for file in files {
        let mut book = Book::new();
        for (at, line) in fs::read_to_string(&file).unwrap().lines().enumerate() {
            let (left, right) = line.split_once(" => ").unwrap();
            let call = call(&left.split(' ').collect::<Vec<&str>>());
            let reply = book.reply(&call);
            let answer = match (&call, <[u8; 4]>::try_from(&reply.answer[..])) {
                (Call::Evaluate { .. }, Ok(value)) => format!(" {}", i32::from_be_bytes(value)),
                (_, _) if reply.answer.is_empty() => String::new(),
                (Call::Powers { .. }, _) => format!(" {} {}", reply.answer[0], reply.answer[1]),
                _ => format!(" {}", reply.answer.iter().map(|byte| format!("{byte:02x}")).collect::<String>()),
            };
            assert_eq!(format!("{:02x}{answer}", reply.number), right, "{file:?}, line {}", at + 1);
            book.note(&call, reply.number);
        }
    }
}
