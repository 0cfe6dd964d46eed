//! Conditions that are run: what each meaning makes of its values, the ends of the range, brackets, depth, refusals.
#![cfg(feature = "alloc")]
use tihvomen::{Panel, Refusal, MOST_TOKENS, PLACES};

const LOWEST: i32 = i32::MIN;
const HIGHEST: i32 = i32::MAX;

/// Operator o means o + 1. The first nine are infix, the last two prefix.
const MEANINGS: [u8; 11] = [1, 2, 3, 4, 5, 6, 7, 8, 9, 10, 11];
const KINDS: [u8; 11] = [0, 0, 0, 0, 0, 0, 0, 0, 0, 1, 1];
const OR: u8 = 0;
const AND: u8 = 1;
const LESS: u8 = 2;
const SUM: u8 = 5;
const DIFFERENCE: u8 = 6;
const LARGER: u8 = 8;
const NOT: u8 = 9;
const MINUS: u8 = 10;

/// The kinds of rule by which all operators group with each other. By the first, a prefix operator takes as little as it can, by the
/// second as much.
const LEFT: u8 = 2;
const RIGHT: u8 = 3;

/// The kinds and the rules of the sheet.
fn sheet(kind: u8) -> Vec<u8> {
    let rules: Vec<u8> = (0..11).flat_map(|a| (0..11).flat_map(move |b| [kind, a, b])).collect();
    [&KINDS[..], &rules].concat()
}

/// A panel that holds the row's tree at place 3.
fn holding(kind: u8, row: &[u8]) -> Panel {
    let mut panel = Panel::new();
    panel.stage(11, &sheet(kind)).unwrap();
    panel.switch().unwrap();
    panel.put_row(3, row).unwrap();
    panel
}

/// What the row comes to, where its operators group to the left.
fn value(row: &[u8], readings: &[i32]) -> Result<i32, Refusal> {
    holding(LEFT, row).evaluate(3, &MEANINGS, readings)
}

/// Two values, then what each meaning makes of them in the order of their numbers.
#[test]
fn each_meaning() {
    let cases = [
        (0, 0, [0, 0, 0, 1, 1, 0, 0, 0, 0]),
        (0, 1, [1, 0, 1, 1, 0, 1, -1, 0, 1]),
        (1, 0, [1, 0, 0, 0, 0, 1, 1, 0, 1]),
        (-1, 2, [1, 1, 1, 1, 0, 1, -3, -1, 2]),
        (7, 7, [1, 1, 0, 1, 1, 14, 0, 7, 7]),
        (3_000, 1_200, [1, 1, 0, 0, 0, 4_200, 1_800, 1_200, 3_000]),
        (HIGHEST, 1, [1, 1, 0, 0, 0, HIGHEST, HIGHEST - 1, 1, HIGHEST]),
        (1, HIGHEST, [1, 1, 1, 1, 0, HIGHEST, LOWEST + 2, 1, HIGHEST]),
        (HIGHEST, -1, [1, 1, 0, 0, 0, HIGHEST - 1, HIGHEST, -1, HIGHEST]),
        (LOWEST, 1, [1, 1, 1, 1, 0, LOWEST + 1, LOWEST, LOWEST, 1]),
        (-1, LOWEST, [1, 1, 0, 0, 0, LOWEST, HIGHEST, LOWEST, -1]),
        (0, LOWEST, [1, 0, 0, 0, 0, LOWEST, HIGHEST, LOWEST, 0]),
        (LOWEST, 0, [1, 0, 1, 1, 0, LOWEST, LOWEST, LOWEST, 0]),
        (LOWEST, HIGHEST, [1, 1, 1, 1, 0, -1, LOWEST, LOWEST, HIGHEST]),
        (HIGHEST, LOWEST, [1, 1, 0, 0, 0, -1, HIGHEST, LOWEST, HIGHEST]),
        (HIGHEST, HIGHEST, [1, 1, 0, 1, 1, HIGHEST, 0, HIGHEST, HIGHEST]),
        (LOWEST, LOWEST, [1, 1, 0, 1, 1, LOWEST, 0, LOWEST, LOWEST]),
    ];
    for (a, b, expected) in cases {
        for (operator, expected) in (0..).zip(expected) {
            let got = value(&[0x80, operator, 0x81], &[a, b]);
            assert_eq!(got, Ok(expected), "meaning {} of {a} and {b}", operator + 1);
        }
    }
}

/// "Meaning 10, not, and 11, minus"; "minus of the lowest number is the highest".
#[test]
fn each_meaning_of_a_prefix_operator() {
    for (a, not, minus) in
        [(0, 1, 0), (1, 0, -1), (-7, 0, 7), (HIGHEST, 0, -HIGHEST), (LOWEST, 0, HIGHEST), (LOWEST + 1, 0, HIGHEST)]
    {
        assert_eq!(value(&[NOT, 0x80], &[a]), Ok(not));
        assert_eq!(value(&[MINUS, 0x80], &[a]), Ok(minus));
        assert_eq!(value(&[NOT, NOT, 0x80], &[a]), Ok(1 - not));
        assert_eq!(value(&[MINUS, MINUS, 0x80], &[a]), Ok(if a == LOWEST { -HIGHEST } else { a }));
        assert_eq!(value(&[MINUS, NOT, 0x80], &[a]), Ok(-not));
    }
    // The sheet says what the operator takes, unless brackets do.
    let (bare, readings) = ([MINUS, 0x80, DIFFERENCE, 0x81], [7, 5]);
    let mut panel = holding(LEFT, &bare);
    assert_eq!(panel.evaluate(3, &MEANINGS, &readings), Ok(-12));
    panel.stage(11, &sheet(RIGHT)).unwrap();
    assert_eq!(panel.evaluate(3, &MEANINGS, &readings), Ok(-12));
    panel.switch().unwrap();
    assert_eq!(panel.evaluate(3, &MEANINGS, &readings), Ok(-2));
    assert_eq!(value(&[MINUS, 0x20, 0x80, DIFFERENCE, 0x81, 0x21], &readings), Ok(-2));
}

/// "13 is also given where an operator's meaning doesn't suit its kind."
#[test]
fn meanings_of_the_other_kind() {
    for meaning in 0..=255 {
        let mut meanings = MEANINGS;
        meanings[usize::from(SUM)] = meaning;
        meanings[usize::from(NOT)] = meaning;
        let unless_in = |range: std::ops::RangeInclusive<u8>| (!range.contains(&meaning)).then_some(Refusal::NoMeaning);
        assert_eq!(holding(LEFT, &[0x80, SUM, 0x80]).evaluate(3, &meanings, &[3]).err(), unless_in(1..=9), "{meaning}");
        assert_eq!(holding(LEFT, &[NOT, 0x80]).evaluate(3, &meanings, &[3]).err(), unless_in(10..=11), "{meaning}");
    }
}

/// Not only at the top: what is past an end there may come back from it above.
#[test]
fn the_range_ends_at_each_node() {
    let there_and_back = [0x80, SUM, 0x81, DIFFERENCE, 0x81];
    assert_eq!(value(&there_and_back, &[HIGHEST, 1]), Ok(HIGHEST - 1));
    assert_eq!(value(&there_and_back, &[LOWEST, -1]), Ok(LOWEST + 1));
    assert_eq!(value(&there_and_back, &[LOWEST, LOWEST]), Ok(0));
    assert_eq!(value(&[0x80, DIFFERENCE, 0x81, SUM, 0x81], &[LOWEST, 1]), Ok(LOWEST + 1));
    assert_eq!(value(&[0x80, SUM, 0x20, 0x81, DIFFERENCE, 0x81, 0x21], &[HIGHEST, 1]), Ok(HIGHEST));
    let of_a_sum = [0x82, DIFFERENCE, 0x20, 0x80, SUM, 0x81, 0x21];
    assert_eq!(value(&of_a_sum, &[HIGHEST, HIGHEST, 0]), Ok(-HIGHEST));
    assert_eq!(value(&of_a_sum, &[LOWEST, LOWEST, 0]), Ok(HIGHEST));
}

#[test]
fn brackets_and_sheets_group() {
    let (bare, readings) = ([0x80, DIFFERENCE, 0x81, DIFFERENCE, 0x82], [7, 5, 3]);
    let mut panel = holding(LEFT, &bare);
    assert_eq!(panel.evaluate(3, &MEANINGS, &readings), Ok(-1));
    panel.stage(11, &sheet(RIGHT)).unwrap();
    panel.switch().unwrap();
    assert_eq!(panel.evaluate(3, &MEANINGS, &readings), Ok(5));
    assert_eq!(value(&[0x80, DIFFERENCE, 0x20, 0x81, DIFFERENCE, 0x82, 0x21], &readings), Ok(5));
    assert_eq!(value(&[0x20, 0x20, 0x80, 0x21, DIFFERENCE, 0x81, 0x21, DIFFERENCE, 0x82], &readings), Ok(-1));
    assert_eq!(value(&[0x20, 0x20, 0x80, 0x21, 0x21], &[-7]), Ok(-7));
}

#[test]
fn each_place_has_its_own_value() {
    let readings: Vec<i32> = (0..PLACES).map(|place| 1_000 + i32::from(place)).collect();
    let mut panel = Panel::new();
    for place in 0..PLACES {
        panel.put_row(place, &[0x80 + place]).unwrap();
    }
    for (place, &reading) in (0..PLACES).zip(&readings) {
        assert_eq!(panel.evaluate(place, &[], &readings), Ok(reading));
    }
}

/// Records of 255 bytes, all operators on one side; and as many brackets as a row takes.
#[test]
fn deepest_trees() {
    let comb = |operator: u8| [&[0x80][..], &[operator, 0x81].repeat(127)].concat();
    for (kind, operator, readings, expected) in [
        (LEFT, SUM, [1, 1], 128),
        (RIGHT, SUM, [1, 1], 128),
        (LEFT, DIFFERENCE, [1_000, 1], 873),
        (RIGHT, DIFFERENCE, [1_000, 1], 999),
        (LEFT, SUM, [0, HIGHEST], HIGHEST),
        (RIGHT, SUM, [0, LOWEST], LOWEST),
        (LEFT, LARGER, [5, -5], 5),
        (RIGHT, LARGER, [5, -5], 5),
    ] {
        let panel = holding(kind, &comb(operator));
        assert_eq!(panel.fetch_record(3).unwrap().len(), MOST_TOKENS);
        assert_eq!(panel.evaluate(3, &MEANINGS, &readings), Ok(expected), "kind {kind}, operator {operator}");
        assert_eq!(panel.evaluate(3, &MEANINGS[..usize::from(operator)], &readings), Err(Refusal::NoMeaning));
        assert_eq!(panel.evaluate(3, &MEANINGS, &readings[..1]), Err(Refusal::NoReading));
    }
    let nested = [[0x20].repeat(127), vec![0x80], [0x21].repeat(127)].concat();
    assert_eq!(value(&nested, &[-5]), Ok(-5));
    for (operator, expected) in [(NOT, 1), (MINUS, -5)] {
        assert_eq!(value(&[vec![operator; 254], vec![0x80]].concat(), &[-5]), Ok(expected));
    }
}

#[test]
fn operators_without_a_meaning() {
    let panel = holding(LEFT, &[0x80, LARGER, 0x81]);
    assert_eq!(panel.evaluate(3, &MEANINGS, &[3, 4]), Ok(4));
    assert_eq!(panel.evaluate(3, &MEANINGS[..8], &[3, 4]), Err(Refusal::NoMeaning));
    for strange in [0, 10, 11, 128, 255] {
        let mut meanings = MEANINGS;
        meanings[usize::from(LARGER)] = strange;
        assert_eq!(panel.evaluate(3, &meanings, &[3, 4]), Err(Refusal::NoMeaning), "{strange}");
    }
    // Those that the tree does not have may mean anything, however many they are.
    let mut others = [255; 300];
    others[usize::from(LARGER)] = 8;
    assert_eq!(panel.evaluate(3, &others, &[3, 4]), Ok(3));
    assert_eq!(holding(LEFT, &[0x20, 0x80, 0x21]).evaluate(3, &[], &[3]), Ok(3));
}

#[test]
fn readings_beyond_the_list() {
    let row = [0x80, SUM, 0x81];
    assert_eq!(value(&row, &[3, 4]), Ok(7));
    assert_eq!(value(&row, &[3]), Err(Refusal::NoReading));
    assert_eq!(value(&row, &[]), Err(Refusal::NoReading));
    let readings: Vec<i32> = (0..200).collect();
    assert_eq!(value(&[0xFF], &readings), Ok(127));
    assert_eq!(value(&[0xFF], &readings[..128]), Ok(127));
    assert_eq!(value(&[0xFF], &readings[..127]), Err(Refusal::NoReading));
}

/// The whole tree counts, also the part that an "or" after a 1 or an "and" after a 0 need not look at.
#[test]
fn nothing_is_passed_over() {
    let mut no_less = MEANINGS;
    no_less[usize::from(LESS)] = 0;
    for (operator, first) in [(OR, 1), (AND, 0)] {
        for row in [
            [0x80, operator, 0x20, 0x81, LESS, 0x82, 0x21],
            [0x20, 0x81, LESS, 0x82, 0x21, operator, 0x80],
            [0x82, LESS, 0x20, 0x80, operator, 0x81, 0x21],
        ] {
            let panel = holding(LEFT, &row);
            assert_eq!(panel.evaluate(3, &no_less, &[first, 1, 2]), Err(Refusal::NoMeaning));
            assert_eq!(panel.evaluate(3, &MEANINGS, &[first, 1]), Err(Refusal::NoReading));
            // 13 comes before 14, wherever in the tree the two stand.
            assert_eq!(panel.evaluate(3, &no_less, &[first, 1]), Err(Refusal::NoMeaning));
            assert_eq!(panel.evaluate(3, &no_less, &[]), Err(Refusal::NoMeaning));
        }
    }
}

/// 8 and 9 come before 13 and 14.
#[test]
fn places_come_first() {
    let mut panel = holding(LEFT, &[0x80, SUM, 0x81]);
    let before = panel.clone();
    for place in [PLACES, 255] {
        assert_eq!(panel.evaluate(place, &[], &[]), Err(Refusal::Place));
    }
    assert_eq!(panel.evaluate(4, &[], &[]), Err(Refusal::Empty));
    assert_eq!(panel.evaluate(3, &[], &[]), Err(Refusal::NoMeaning));
    assert_eq!(panel.evaluate(3, &MEANINGS, &[3, 4]), Ok(7));
    assert!(panel == before);
    panel.drop_place(3).unwrap();
    assert_eq!(panel.evaluate(3, &MEANINGS, &[3, 4]), Err(Refusal::Empty));
}
