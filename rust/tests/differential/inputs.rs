//! Random rows, records, claims, meanings and readings: good ones, nearly good ones and damaged ones.
use crate::random::Random;
use crate::tree::{is_of_kind, is_reading, Tree, CLOSING, INFIX, OPENING, PREFIX};

/// What a random tree is made of. `lean` 0 is deep to the left, 1 deep to the right, else in between; `brackets` and `prefixes`
/// say how many nodes of a hundred are such.
pub struct Make {
    infix: Vec<u8>,
    prefix: Vec<u8>,
    pub lean: usize,
    pub brackets: usize,
    pub prefixes: usize,
}

impl Make {
    /// Of operators of these kinds.
    pub fn of(kinds: &[u8], lean: usize, brackets: usize, prefixes: usize) -> Make {
        let of_kind = |kind| (0..32).filter(|&operator| is_of_kind(kinds, operator, kind)).collect();
        Make { infix: of_kind(INFIX), prefix: of_kind(PREFIX), lean, brackets, prefixes }
    }
}

/// A tree whose row has `tokens` tokens; without prefix operators an odd number.
pub fn tree(random: &mut Random, make: &Make, tokens: usize) -> Tree {
    let has_prefix = !make.prefix.is_empty();
    if tokens < 2 || tokens == 2 && !has_prefix {
        return Tree::Reading(0x80 | random.byte());
    }
    if has_prefix && (tokens == 2 || random.below(100) < make.prefixes) {
        let operator = make.prefix[random.below(make.prefix.len())];
        return Tree::Prefix(operator, Box::new(tree(random, make, tokens - 1)));
    }
    if make.infix.is_empty() || random.below(100) < make.brackets {
        return Tree::Bracket(Box::new(tree(random, make, tokens - 2)));
    }
    let left = match make.lean {
        0 => tokens - 2,
        1 => 1,
        _ if has_prefix => 1 + random.below(tokens - 2),
        _ => 1 + 2 * random.below((tokens - 1) / 2),
    };
    let operator = make.infix[random.below(make.infix.len())];
    let left_tree = tree(random, make, left);
    let right_tree = tree(random, make, tokens - 1 - left);
    Tree::Node(operator, Box::new(left_tree), Box::new(right_tree))
}

/// A tree of any size that the calls take, and now and then of a few tokens too many.
pub fn any_tree(random: &mut Random, kinds: &[u8]) -> Tree {
    let mut tokens = match random.below(12) {
        0 => 255,
        1 => 239 + 2 * random.below(40),
        2 | 3 => 1 + 2 * random.below(128),
        _ => 1 + 2 * random.below(8),
    };
    let lean = random.below(6);
    let brackets = [0, 0, 5, 5, 10, 10, 30, 100][random.below(8)];
    let mut prefixes = 0;
    if kinds.contains(&PREFIX) {
        prefixes = [5, 20, 20, 20, 50, 90][random.below(6)];
        tokens -= random.below(2).min(tokens - 1);
    }
    tree(random, &Make::of(kinds, lean, brackets, prefixes), tokens)
}

/// The same bytes, or now and then damaged ones.
pub fn perhaps_damaged(random: &mut Random, bytes: Vec<u8>) -> Vec<u8> {
    match random.below(3) {
        0 => damaged(random, bytes),
        _ => bytes,
    }
}

/// One to three bytes changed, left out, put in, or in another order.
pub fn damaged(random: &mut Random, mut bytes: Vec<u8>) -> Vec<u8> {
    for _ in 0..1 + random.below(3) {
        let at = random.below(bytes.len());
        let fresh = match random.below(5) {
            0 => OPENING,
            1 => CLOSING,
            2 => random.byte() & 3,
            3 => random.byte() | 0x80,
            _ => random.byte(),
        };
        match random.below(5) {
            0 => bytes.insert(at, fresh),
            _ if bytes.is_empty() => bytes.push(fresh),
            1 => drop(bytes.remove(at)),
            2 => bytes.truncate(at),
            3 => {
                let other = random.below(bytes.len());
                bytes.swap(at, other);
            }
            _ => bytes[at] = fresh,
        }
    }
    bytes
}

/// A row with a record that is claimed for it: mostly the one that `built` gives of the row, which is nothing where the row is
/// refused, or that of any tree of the row; else one that is nearly so, or one of both is damaged.
pub fn claim(random: &mut Random, kinds: &[u8], built: impl Fn(&[u8]) -> Vec<u8>) -> (Vec<u8>, Vec<u8>) {
    let tree = any_tree(random, kinds);
    let row = tree.row();
    let record = if random.once_in(3) { tree.record() } else { built(&row) };
    match random.below(12) {
        0 => (row, any_tree(random, kinds).record()),
        1 => (row, altered(random, kinds, record)),
        2 => (row, bracketed(random, record)),
        3 => (damaged(random, row), record),
        4 => (row, damaged(random, record)),
        5 => (damaged(random, row), damaged(random, record)),
        _ => (row, record),
    }
}

/// The record with another reading, or another operator of the same kind, in the place of one.
fn altered(random: &mut Random, kinds: &[u8], mut record: Vec<u8>) -> Vec<u8> {
    let at = random.below(record.len());
    let Some(byte) = record.get_mut(at) else { return record };
    let alike = |other: u8| match kinds.get(usize::from(*byte)) {
        Some(&kind) => is_of_kind(kinds, other, kind),
        None => is_reading(*byte) && is_reading(other) || other == *byte,
    };
    let others: Vec<u8> = (0..=u8::MAX).filter(|&other| alike(other)).collect();
    *byte = others[random.below(others.len())];
    record
}

/// The record with brackets around one of its nodes.
fn bracketed(random: &mut Random, mut record: Vec<u8>) -> Vec<u8> {
    record.insert(random.below(record.len()), OPENING);
    record
}

/// A meaning for each of the 32 operators: from 1 to 9, and 10 or 11 for a prefix one.
pub fn all_meanings(random: &mut Random, kinds: &[u8]) -> Vec<u8> {
    let meaning = |operator| match is_of_kind(kinds, operator, PREFIX) {
        false => 1 + random.below(9) as u8,
        true => 10 + random.below(2) as u8,
    };
    (0..32).map(meaning).collect()
}

/// The same; now and then with one that is none or of the other kind, or a list that is too short, empty or too long.
pub fn meanings(random: &mut Random, kinds: &[u8]) -> Vec<u8> {
    let mut meanings = all_meanings(random, kinds);
    let at = random.below(32);
    match random.below(20) {
        0 => meanings[at] = 0,
        1 => meanings[at] = 9 + random.below(4) as u8,
        2 => meanings[at] = random.byte(),
        3 => meanings.truncate(at),
        4 => meanings.clear(),
        5 => meanings.extend(random.bytes(at)),
        6 => meanings.swap(at, random.below(32)),
        _ => (),
    }
    meanings
}

/// A value for each of the 128 readings.
pub fn all_readings(random: &mut Random) -> Vec<i32> {
    (0..128).map(|_| value(random)).collect()
}

/// At or near an end of the range, a holdover limit, any at all, or small.
fn value(random: &mut Random) -> i32 {
    match random.below(8) {
        0 | 1 => [i32::MIN, i32::MIN + 1, i32::MAX - 1, i32::MAX][random.below(4)],
        2 => [1_200, 14_400][random.below(2)],
        3 => i32::from_le_bytes([random.byte(), random.byte(), random.byte(), random.byte()]),
        _ => random.below(9) as i32 - 4,
    }
}

/// The same; now and then for fewer readings, for none, or more than there are.
pub fn readings(random: &mut Random) -> Vec<i32> {
    let mut readings = all_readings(random);
    match random.below(8) {
        0 => readings.truncate(random.below(128)),
        1 => readings.truncate(127 - random.below(4)),
        2 => readings.clear(),
        3 => readings.push(value(random)),
        _ => (),
    }
    readings
}
