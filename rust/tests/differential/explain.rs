//! Why a sheet is refused, in the plainest way: all trees of each row of two operators, then of three, until one shows it.
use crate::book::{Book, Call};
use crate::expression::Expression;
use crate::forms::listed;
use crate::random::Random;
use crate::sheet::Sheet;
use crate::small::all_rules;
use crate::stagings;
use crate::theory::kinds_of_bits;
use crate::tree::{is_of_kind, is_operator, Side, Tree, INFIX, PREFIX};
use std::collections::BTreeSet;
use tihvomen::{Refusal, MOST_EXPLAINED};

const SHEETS: usize = 2000;

impl Sheet {
    /// The verdict, the first row that shows it, and after 5 the records of its two trees.
    fn explained(&self) -> Vec<u8> {
        let pairs: Vec<Vec<u8>> = self.rows_of_pairs().collect();
        if let Some(row) = pairs.iter().find(|row| self.conflict_free_trees(row).is_empty()) {
            return [&[4], &row[..]].concat();
        }
        for row in pairs.into_iter().chain(self.rows_of_triples()) {
            let trees = self.conflict_free_trees(&row);
            if trees.len() > 1 {
                assert_eq!(trees.len(), 2, "{row:02x?}");
                let first = trees.iter().find(|tree| has_first_on_top(tree)).expect("the first operator on top");
                let last = trees.iter().find(|tree| has_last_on_top(tree)).expect("the last operator on top");
                return [vec![5], row, first.record(), last.record()].concat();
            }
        }
        vec![0]
    }

    /// The rows of a and b, a from 00 and then b from 00; b is infix.
    fn rows_of_pairs(&self) -> impl Iterator<Item = Vec<u8>> + '_ {
        (0..self.n()).flat_map(move |a| self.infix().map(move |b| self.row_of(&[a, b])))
    }

    /// The rows of a, b and c in the same order; b and c are infix.
    fn rows_of_triples(&self) -> impl Iterator<Item = Vec<u8>> + '_ {
        let of_two = move |a, b| self.infix().map(move |c| self.row_of(&[a, b, c]));
        (0..self.n()).flat_map(move |a| self.infix().flat_map(move |b| of_two(a, b)))
    }

    fn infix(&self) -> impl Iterator<Item = u8> + '_ {
        (0..self.n()).filter(|&operator| is_of_kind(&self.kinds, operator, INFIX))
    }

    /// A reading before each infix operator and one at the end: 80, 81, and on.
    fn row_of(&self, operators: &[u8]) -> Vec<u8> {
        let mut row = Vec::new();
        let mut reading = 0x80;
        for &operator in operators {
            if is_of_kind(&self.kinds, operator, INFIX) {
                row.push(reading);
                reading += 1;
            }
            row.push(operator);
        }
        row.push(reading);
        row
    }

    fn conflict_free_trees(&self, row: &[u8]) -> Vec<Tree> {
        let mut trees = Expression::of_row(row, &self.kinds).expect("a row").all_trees();
        trees.retain(|tree| self.conflicts(tree) == 0);
        trees
    }
}

/// Before the operator on top there is a reading or nothing.
fn has_first_on_top(tree: &Tree) -> bool {
    matches!(tree, Tree::Prefix(..)) || matches!(tree.operand(Side::Left), Some(Tree::Reading(_)))
}

/// Behind it there is a reading.
fn has_last_on_top(tree: &Tree) -> bool {
    matches!(tree.operand(Side::Right), Some(Tree::Reading(_)))
}

/// What an answer shows: the verdict, how many operators the row has, whether the first of them is prefix, and whether of three the
/// first closes before the second.
type Shown = (u8, usize, bool, bool);

fn shown(sheet: &Sheet, answer: &[u8]) -> Shown {
    let row = if answer[0] == 5 { &answer[1..1 + answer.len() / 3] } else { &answer[1..] };
    let operators: Vec<u8> = row.iter().copied().filter(|&token| is_operator(token)).collect();
    let closes = operators.len() == 3 && sheet.excluded(Side::Right, operators[0], operators[1]);
    (
        answer[0],
        operators.len(),
        operators.first().is_some_and(|&first| is_of_kind(&sheet.kinds, first, PREFIX)),
        closes,
    )
}

/// All that an answer can show.
fn all_shown() -> BTreeSet<Shown> {
    let triples = [(5, 3, false, false), (5, 3, false, true), (5, 3, true, false), (5, 3, true, true)];
    let pairs = [(4, 2, false, false), (4, 2, true, false), (5, 2, false, false), (5, 2, true, false)];
    [(0, 0, false, false)].into_iter().chain(pairs).chain(triples).collect()
}

/// Every sheet of up to three operators, by rules of sides.
#[test]
fn every_small_sheet() {
    let mut seen = BTreeSet::new();
    for kinds in (0..=3).flat_map(|n| (0..1 << n).map(move |prefixes| kinds_of_bits(n, prefixes))) {
        for rules in all_rules(&kinds) {
            let sheet = Sheet::of_rules(&kinds, &rules);
            let answer = sheet.explained();
            let explanation = tihvomen::explain(sheet.n(), &[&kinds[..], &rules].concat());
            assert_eq!(explanation.as_ref().map(|it| it.as_bytes()), Ok(&answer[..]), "{kinds:02x?} {rules:02x?}");
            seen.insert(shown(&sheet, &answer));
        }
    }
    assert_eq!(seen, all_shown());
}

/// The number 1, 2 or 3 that a staging gives, or the answer.
fn expected(n: u8, bytes: &[u8]) -> Result<(Sheet, Vec<u8>), u8> {
    let number = Book::new().reply(&Call::Stage { n, bytes: bytes.to_vec() }).number;
    if (1..=3).contains(&number) {
        return Err(number);
    }
    let (kinds, rules) = bytes.split_at(n.into());
    let sheet = Sheet::of_rules(kinds, rules);
    let answer = sheet.explained();
    assert_eq!(answer[0], number, "the verdict of {kinds:02x?} {rules:02x?}");
    Ok((sheet, answer))
}

/// The call writes the answer where it fits, else nothing. Answers its number.
fn held_against(
    random: &mut Random,
    answer: Result<&[u8], u8>,
    call: impl FnOnce(&mut [u8]) -> Result<usize, Refusal>,
) -> u8 {
    let room = random.below(2 * MOST_EXPLAINED);
    let mut expected = random.bytes(room);
    let mut out = expected.clone();
    let answer = answer.and_then(|answer| if answer.len() > room { Err(10) } else { Ok(answer) });
    if let Ok(answer) = answer {
        expected[..answer.len()].copy_from_slice(answer);
    }
    let length = call(&mut out).map_err(Refusal::number);
    assert_eq!((length, out), (answer.map(<[u8]>::len), expected));
    length.err().unwrap_or(0)
}

/// Sheets with priorities among their rules, in order and not, in both forms and with any room for the answer. Where there are n
/// kinds, the list form is as the bytes.
#[test]
fn random_sheets() {
    let mut random = Random::new(7);
    let (mut shown_by_some, mut numbers) = (BTreeSet::new(), BTreeSet::new());
    for _ in 0..SHEETS {
        let staging = stagings::any(&mut random, &[]);
        let (n, bytes) = (staging.n, staging.bytes());
        let expected = expected(n, &bytes);
        shown_by_some.extend(expected.iter().map(|(sheet, answer)| shown(sheet, answer)));
        let answer = expected.as_ref().map(|(_, answer)| &answer[..]).map_err(|&number| number);
        numbers.insert(held_against(&mut random, answer, |out| tihvomen::explain_into(n, &bytes, out)));
        if staging.kinds.len() == usize::from(n) && staging.rules.len() % 3 == 0 {
            let rules = listed(&staging.rules);
            let by_lists = |out: &mut [u8]| tihvomen::explain_rules_into(n, &staging.kinds, &rules, out);
            held_against(&mut random, answer, by_lists);
        }
    }
    assert_eq!(shown_by_some, all_shown());
    assert_eq!(numbers, BTreeSet::from([0, 1, 2, 3, 10]));
}
