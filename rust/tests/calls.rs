//! Runs of calls from a fresh panel, each with the answer that the papers give: `CALL => NUMBER ANSWER`, in `tests/calls`.
//! w1 and w2 are from before there were kind bytes: in each sheet of n operators, n bytes 00 have been put in before the rules. w1,
//! w2 and w5 are from before there was a stage: in place of each load there are a staging and a switch.
#![cfg(feature = "alloc")]
use tihvomen::{Panel, Refusal};

/// Bytes in hexadecimal; `-` is none.
fn bytes(text: &str) -> Vec<u8> {
    if text == "-" {
        return Vec::new();
    }
    assert_eq!(text.len() % 2, 0, "{text}");
    (0..text.len()).step_by(2).map(|at| u8::from_str_radix(&text[at..at + 2], 16).unwrap()).collect()
}

fn number(text: &str) -> u8 {
    text.parse().unwrap()
}

/// Values in decimal, with commas; `-` is none.
fn values(text: &str) -> Vec<i32> {
    if text == "-" {
        return Vec::new();
    }
    text.split(',').map(|value| value.parse().unwrap()).collect()
}

/// Makes the call; its answer as a line has it, empty where it has none.
fn make(panel: &mut Panel, call: &[&str]) -> Result<String, Refusal> {
    let silent = |result: Result<(), Refusal>| result.map(|()| String::new());
    let digits = |bytes: Vec<u8>| bytes.iter().map(|byte| format!("{byte:02x}")).collect();
    match call {
        ["stage", n, rest] => silent(panel.stage(number(n), &bytes(rest))),
        ["switch"] => silent(panel.switch()),
        ["put", place, row] => silent(panel.put_row(number(place), &bytes(row))),
        ["record", place, record] => silent(panel.put_record(number(place), &bytes(record))),
        ["claim", place, row, record] => silent(panel.put_claim(number(place), &bytes(row), &bytes(record))),
        ["drop", place] => silent(panel.drop_place(number(place))),
        ["shortest", record] => panel.shortest_row(&bytes(record)).map(digits),
        ["evaluate", place, meanings, readings] => {
            panel.evaluate(number(place), &bytes(meanings), &values(readings)).map(|value| value.to_string())
        }
        ["powers", operator] => {
            panel.powers(number(operator)).map(|powers| format!("{} {}", powers.left, powers.right))
        }
        _ => panic!("no such call: {call:?}"),
    }
}

fn run(text: &str) {
    let mut panel = Panel::new();
    for (at, line) in text.lines().enumerate() {
        let (call, expected) = line.split_once(" => ").unwrap();
        let call: Vec<&str> = call.split(' ').collect();
        let (refusal, answer) = expected.split_once(' ').unwrap_or((expected, ""));
        let refusal = u8::from_str_radix(refusal, 16).unwrap();
        let got = make(&mut panel, &call).map_err(Refusal::number);
        let wanted = if refusal == 0 { Ok(answer.to_string()) } else { Err(refusal) };
        assert_eq!(got, wanted, "line {}: {line}", at + 1);
    }
}

#[test]
fn shortest_rows() {
    run(include_str!("../../tests/calls/w1.calls"));
}

#[test]
fn values_of_conditions() {
    run(include_str!("../../tests/calls/w2.calls"));
}

#[test]
fn shortest_rows_and_values_with_prefix_operators() {
    run(include_str!("../../tests/calls/w5.calls"));
}

#[test]
fn binding_powers() {
    run(include_str!("../../tests/calls/w7.calls"));
}

#[test]
fn claimed_records() {
    run(include_str!("../../tests/calls/w8.calls"));
}
