//! A stream of frames for the line programs: sheets, switches, puts, fetches, judges, repairs, drops, images and damaged lines.
use crate::inputs;
use crate::random::Random;
use crate::stagings;

/// So many lines with operators of these kinds, the first ones of which every sheet has; the same lines every time.
pub fn stream(lines: usize, kinds: &[u8]) -> Vec<u8> {
    let mut random = Random::new(7);
    let mut text = Vec::new();
    let mut n = 0;
    let mut staged = false;
    for line in 0..lines {
        // A switch after each sheet, and now and then another.
        let frame = if staged || random.once_in(1000) {
            staged = false;
            vec![10]
        } else if line == 0 || random.once_in(60) {
            staged = true;
            sheet(&mut random, kinds, &mut n)
        } else {
            call(&mut random, &kinds[..usize::from(n)])
        };
        let from = text.len();
        for byte in frame {
            text.extend(format!("{byte:02x}").bytes());
        }
        if random.once_in(50) {
            damage(&mut random, &mut text, from);
        }
        text.push(b'\n');
    }
    text
}

/// A sheet, mostly with more operators than before so that it is not in use.
fn sheet(random: &mut Random, kinds: &[u8], n: &mut u8) -> Vec<u8> {
    let (count, rules) = if random.once_in(6) {
        stagings::any_rules(random, *n)
    } else {
        *n = (*n).max([2, 4, 8, 16, 32][random.below(5)]);
        (*n, stagings::good_rules(random, *n))
    };
    let mut own = kinds.to_vec();
    own.resize(count.into(), 0);
    [vec![1, count], own, rules].concat()
}

fn call(random: &mut Random, kinds: &[u8]) -> Vec<u8> {
    let place = random.below(17) as u8;
    match random.below(20) {
        0..=4 => [vec![2, place], row(random, kinds)].concat(),
        5..=7 => [vec![6, place], record(random, kinds)].concat(),
        8 => vec![3, place],
        9..=11 => vec![4, place],
        12 | 13 => vec![5, place],
        14 | 15 => [vec![7], record(random, kinds)].concat(),
        16..=18 => [vec![8], record(random, kinds)].concat(),
        _ => vec![9, place],
    }
}

/// A row; one in fifteen is damaged.
fn row(random: &mut Random, kinds: &[u8]) -> Vec<u8> {
    let row = inputs::any_tree(random, kinds).row();
    if random.once_in(5) {
        inputs::perhaps_damaged(random, row)
    } else {
        row
    }
}

/// A record; one in fifteen is damaged.
fn record(random: &mut Random, kinds: &[u8]) -> Vec<u8> {
    let record = inputs::any_tree(random, kinds).record();
    if random.once_in(5) {
        inputs::perhaps_damaged(random, record)
    } else {
        record
    }
}

/// One character changed, left out or put in.
fn damage(random: &mut Random, text: &mut Vec<u8>, from: usize) {
    let at = from + random.below(text.len() - from);
    let character = *b"0123456789abcdefABCDEF\r g".get(random.below(25)).unwrap();
    match random.below(3) {
        0 => text[at] = character,
        1 => drop(text.remove(at)),
        _ => text.insert(at, character),
    }
}
