//! Why sheets are refused, worked out by hand: the first row that shows it, its trees, and the numbers in their order.
mod lent;

use lent::lent;
use tihvomen::{
    explain, explain_into, explain_rules, explain_rules_into, Panel, Refusal, Rule, MOST_EXPLAINED, MOST_OPERATORS,
    MOST_RULES,
};

/// The number of operators, kinds and rules, and the answer: verdict, row and records.
type Case = (u8, &'static str, &'static str);

const ACCEPTED: [Case; 6] = [
    (0, "", "00"),
    (1, "01", "00"),
    (3, "010101", "00"),
    (1, "00 020000", "00"),
    (2, "0000 010100 020101 020000", "00"),
    (3, "000001 010201 010100 020101 020000", "00"),
];

const WITHOUT_A_TREE: [Case; 10] = [
    (1, "00 020000 030000", "04 8000810082"),
    (1, "00 010000", "04 8000810082"),
    // A circle of priority: each operator is over itself.
    (3, "000000 010001 010102 010200", "04 8000810082"),
    // Three rows with 00 have two trees, and smaller operators; a row without a tree is told of all the same.
    (2, "0000 020101 030101", "04 8001810182"),
    // Of 00 and 01 one order has no tree, and the other has two.
    (2, "0000 020001 030100", "04 8000810182"),
    (2, "0000 020100 030001", "04 8001810082"),
    // A prefix operator is before an infix one, never behind it.
    (2, "0001 020000 020100 030001", "04 01800081"),
    (2, "0100 020001 030100", "04 00800181"),
    // The smaller first operator, then the smaller second one.
    (4, "01000100 020203 030302 020201 030102 020003 030300", "04 00800381"),
    (4, "01000100 020203 030302 020201 030102", "04 02800181"),
];

const TWO_TREES_OF_A_PAIR: [Case; 6] = [
    (1, "00", "05 8000810082 0080008182 0000808182"),
    (2, "0001", "05 8000810082 0080008182 0000808182"),
    (2, "0001 020000", "05 01800081 01008081 00018081"),
    (2, "0100", "05 00800181 00018081 01008081"),
    (2, "0000 020000 020101 020001", "05 8001810082 0180008182 0001808182"),
    // The circle of the next table, and 03, of which nothing is said: a pair comes before three.
    (
        4,
        "00000000 020000 020101 020202 020001 030001 020102 030102 020200 030200",
        "05 8000810382 0080038182 0300808182",
    ),
];

const TWO_TREES_OF_THREE: [Case; 5] = [
    // Each operator closes before itself and before the next, and the last before the first.
    (
        3,
        "000000 020000 020101 020202 020001 030001 020102 030102 020200 030200",
        "05 80008101820283 00800201818283 02010080818283",
    ),
    // 00 closes before 02, and nothing else closes before anything.
    (
        3,
        "000000 020002 030000 030100 030001 030101 030201 030002 030102 030202",
        "05 80008101820283 00800181028283 02008001818283",
    ),
    // 00 is prefix. It closes before 01, and 01 before 02, but 02 takes in 00's operand.
    (3, "010000 020001 020102 030200 020101 020202 020201", "05 008001810282 000201808182 020100808182"),
    // It closes before 02, and 01 does not.
    (3, "010000 030100 020002 030101 030201 030102 030202", "05 008001810282 000180028182 020001808182"),
    // The third operator is the first one again: 00 closes before 01, and 01 before 00, but 00 not before itself.
    (2, "0000 030000 020001 020100 020101", "05 80008101820083 00800001818283 00010080818283"),
];

fn cases() -> impl Iterator<Item = (u8, Vec<u8>, Vec<u8>)> {
    let cases = ACCEPTED.into_iter().chain(WITHOUT_A_TREE).chain(TWO_TREES_OF_A_PAIR).chain(TWO_TREES_OF_THREE);
    cases.map(|(n, sheet, answer)| (n, bytes(sheet), bytes(answer)))
}

fn bytes(text: &str) -> Vec<u8> {
    let digits = text.replace(' ', "");
    (0..digits.len()).step_by(2).map(|at| u8::from_str_radix(&digits[at..at + 2], 16).unwrap()).collect()
}

/// The kinds and the rules of a sheet, as lists.
fn lists(n: u8, sheet: &[u8]) -> (&[u8], Vec<Rule>) {
    let (kinds, rules) = sheet.split_at(n.into());
    (kinds, rules.chunks(3).map(|rule| Rule { kind: rule[0], first: rule[1], second: rule[2] }).collect())
}

/// Each answer in both forms, and in its parts; its verdict is that of a staging.
#[test]
fn worked_out_by_hand() {
    for (n, sheet, answer) in cases() {
        let explanation = explain(n, &sheet).unwrap();
        assert_eq!(explanation.as_bytes(), answer, "n = {n}, {sheet:02x?}");
        let (kinds, rules) = lists(n, &sheet);
        assert_eq!(explain_rules(n, kinds, &rules), Ok(explanation), "n = {n}, {sheet:02x?}");
        let verdict = explanation.verdict();
        assert_eq!(verdict, Panel::new().stage(n, &sheet), "n = {n}, {sheet:02x?}");
        assert_eq!(verdict.map_or_else(Refusal::number, |()| 0), answer[0]);
        let records = explanation.records();
        assert_eq!(records.is_some(), verdict == Err(Refusal::Double));
        let parts = [&[explanation.row()][..], records.as_ref().map_or(&[], |two| two)].concat();
        assert!(parts.iter().all(|part| part.len() == explanation.row().len()));
        assert_eq!(parts.concat(), answer[1..]);
    }
}

/// The answer fits from its own length on; with less room it is 10.
#[test]
fn room_for_the_answer() {
    let mut longest = 0;
    for (n, sheet, answer) in cases() {
        let (kinds, rules) = lists(n, &sheet);
        for room in 0..MOST_EXPLAINED + 3 {
            let expected = if room < answer.len() { Err(Refusal::Short) } else { Ok(answer.clone()) };
            assert_eq!(lent(room, |out| explain_into(n, &sheet, out)), expected, "n = {n}, {sheet:02x?}");
            assert_eq!(lent(room, |out| explain_rules_into(n, kinds, &rules, out)), expected, "n = {n}, {sheet:02x?}");
        }
        longest = longest.max(answer.len());
    }
    assert_eq!((longest, MOST_EXPLAINED), (22, 22));
}

/// 1, 2 and 3 come before 10 and as for a staging: of two that apply the first is given, whatever the room.
#[test]
fn order_of_the_numbers() {
    let most = 3 * MOST_RULES;
    for (n, sheet, refusal) in [
        (MOST_OPERATORS + 1, vec![0; 34], Refusal::Oversize),
        (u8::MAX, vec![9], Refusal::Oversize),
        (1, vec![9; 1 + most + 1], Refusal::Oversize),
        (1, vec![], Refusal::Torn),
        (2, vec![9], Refusal::Torn),
        (1, vec![9, 9], Refusal::Torn),
        (1, vec![9; most], Refusal::Torn),
        (1, vec![2], Refusal::Stranger),
        (1, vec![9; 1 + most], Refusal::Stranger),
        // Beside rules that leave a row without a tree.
        (1, vec![0, 1, 0, 0, 4, 0, 0], Refusal::Stranger),
        (1, vec![0, 1, 0, 0, 2, 0, 1], Refusal::Stranger),
        (1, vec![0, 2, 1, 0, 1, 0, 0], Refusal::Stranger),
        (0, vec![2, 0, 0], Refusal::Stranger),
    ] {
        assert_eq!(Panel::new().stage(n, &sheet), Err(refusal), "n = {n}");
        assert_eq!(explain(n, &sheet), Err(refusal), "n = {n}");
        for room in [0, 1, MOST_EXPLAINED, 300] {
            assert_eq!(lent(room, |out| explain_into(n, &sheet, out)), Err(refusal), "n = {n}");
        }
    }
}

/// The same with lists: any number of kinds but n is 2.
#[test]
fn order_of_the_numbers_with_lists() {
    let (strange, good) = (Rule { kind: 9, first: 9, second: 9 }, Rule::left(0, 0));
    for (n, kinds, rules, refusal) in [
        (MOST_OPERATORS + 1, &[9; 33][..], vec![strange], Refusal::Oversize),
        (MOST_OPERATORS + 1, &[], vec![], Refusal::Oversize),
        (1, &[], vec![strange; MOST_RULES + 1], Refusal::Oversize),
        (1, &[], vec![strange], Refusal::Torn),
        (1, &[9, 9], vec![good], Refusal::Torn),
        (0, &[0], vec![], Refusal::Torn),
        (1, &[9], vec![good; MOST_RULES], Refusal::Stranger),
        (1, &[0], vec![Rule::priority(0, 0), strange], Refusal::Stranger),
        (1, &[0], vec![Rule::priority(0, 1), Rule::priority(0, 0)], Refusal::Stranger),
        (1, &[0], vec![Rule::priority(1, 0), Rule::priority(0, 0)], Refusal::Stranger),
    ] {
        assert_eq!(Panel::new().stage_rules(n, kinds, &rules), Err(refusal), "n = {n}, {kinds:02x?}");
        assert_eq!(explain_rules(n, kinds, &rules), Err(refusal), "n = {n}, {kinds:02x?}");
        for room in [0, 1, MOST_EXPLAINED, 300] {
            let written = lent(room, |out| explain_rules_into(n, kinds, &rules, out));
            assert_eq!(written, Err(refusal), "n = {n}, {kinds:02x?}");
        }
    }
}
