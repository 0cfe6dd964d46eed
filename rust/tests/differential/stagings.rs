//! Random sheets: kinds and rules that are accepted, nearly accepted, damaged, or in conflict with held trees.
use crate::inputs::damaged;
use crate::random::Random;
use crate::tree::{INFIX, PREFIX};

/// What a staging is given. The byte form has the kinds and rules one after the other, the list form side by side.
pub struct Staging {
    pub n: u8,
    pub kinds: Vec<u8>,
    pub rules: Vec<u8>,
}

impl Staging {
    /// The bytes after n.
    pub fn bytes(&self) -> Vec<u8> {
        [&self.kinds[..], &self.rules].concat()
    }
}

/// Kinds of n operators: a third of the time all infix, else with some prefix ones or many.
pub fn kinds(random: &mut Random, n: u8) -> Vec<u8> {
    let one_in = match random.below(6) {
        0 | 1 => return vec![INFIX; n.into()],
        2 | 3 => 4,
        4 => 2,
        _ => 8,
    };
    (0..n).map(|_| if random.once_in(one_in) { PREFIX } else { INFIX }).collect()
}

/// A sheet of n operators that is accepted.
pub fn good(random: &mut Random, n: u8) -> Staging {
    let kinds = kinds(random, n);
    Staging { n, kinds, rules: good_rules(random, n) }
}

/// A sheet that is in order or not; mostly it has the operators in use, and of the same kinds.
pub fn any(random: &mut Random, in_use: &[Option<u8>]) -> Staging {
    let least = in_use.iter().rposition(Option::is_some).map_or(0, |last| last as u8 + 1);
    let (n, mut rules) = any_rules(random, least);
    let mut kinds = kinds(random, n);
    if n <= 32 && random.once_in(8) {
        rules = sided_rules(random, n);
    }
    if !random.once_in(8) {
        let same = kinds.iter_mut().zip(in_use);
        same.for_each(|(kind, used)| *kind = used.unwrap_or(*kind));
    }
    let at = random.below(kinds.len());
    match random.below(40) {
        0 => kinds.truncate(at),
        1 => kinds.insert(at, random.below(3) as u8),
        2 if !kinds.is_empty() => kinds[at] = random.byte(),
        3 if !kinds.is_empty() => kinds[at] = PREFIX + 1,
        4 if !kinds.is_empty() => kinds[at] ^= INFIX ^ PREFIX,
        _ => (),
    }
    Staging { n, kinds, rules }
}

/// Rules that are accepted, whatever the kinds: operators in groups, one group over the next, each group left or right within
/// itself.
pub fn good_rules(random: &mut Random, n: u8) -> Vec<u8> {
    let groups = 1 + random.below(usize::from(n).max(1));
    let group: Vec<usize> = (0..n).map(|_| random.below(groups)).collect();
    let kind: Vec<u8> = (0..groups).map(|_| 2 + random.below(2) as u8).collect();
    let mut rules = Vec::new();
    for a in 0..n {
        for b in 0..n {
            let (over, below) = (group[usize::from(a)], group[usize::from(b)]);
            if over == below {
                rules.push([kind[over], a, b]);
            } else if over < below && random.once_in(8) {
                rules.extend([[2, a, b], [3, a, b]]);
            } else if over < below {
                rules.push([1, a, b]);
            }
        }
    }
    if random.once_in(3) && !rules.is_empty() {
        for _ in 0..random.below(2049 - rules.len()) {
            rules.push(rules[random.below(rules.len())]);
        }
    }
    random.shuffle(&mut rules);
    rules.concat()
}

/// Rules that are nearly accepted: one left out, added, or of another kind; or three operators in a round.
fn near_rules(random: &mut Random, n: u8) -> Vec<u8> {
    let mut rules = good_rules(random, n);
    let at = 3 * random.below(rules.len() / 3);
    match random.below(4) {
        _ if rules.is_empty() => (),
        0 => drop(rules.drain(at..at + 3)),
        1 => rules[at] = 1 + random.below(3) as u8,
        2 => rules.extend([1 + random.below(3) as u8, random.below(n.into()) as u8, random.below(n.into()) as u8]),
        _ => rules.swap(at + 1, at + 2),
    }
    rules
}

/// Accepted rules of which some priorities are left out: mostly those that others lead to.
fn chained_rules(random: &mut Random, n: u8) -> Vec<u8> {
    let mut order: Vec<u8> = (0..n).collect();
    random.shuffle(&mut order);
    let mut rules = Vec::new();
    for (at, &a) in order.iter().enumerate() {
        rules.push([2 + random.below(2) as u8, a, a]);
        for (further, &b) in order[at + 1..].iter().enumerate() {
            if further == 0 && !random.once_in(40) || random.once_in(4) {
                rules.push([1, a, b]);
            }
        }
    }
    random.shuffle(&mut rules);
    rules.concat()
}

/// Three operators or more, each left with itself, each over the next and the last over the first.
fn round_rules(random: &mut Random, n: u8) -> Vec<u8> {
    let mut rules: Vec<[u8; 3]> = (0..n).map(|a| [2, a, a]).collect();
    rules.extend((0..n).map(|a| [1, a, (a + 1) % n]));
    random.shuffle(&mut rules);
    rules.concat()
}

/// Rules of sides alone, one for each two operators: the first closes before the second, or yields to it. They are accepted,
/// whatever the kinds; half the time one pair is then decided the other way.
fn sided_rules(random: &mut Random, n: u8) -> Vec<u8> {
    let groups = 1 + random.below(usize::from(n).max(1));
    let group: Vec<usize> = (0..n).map(|_| random.below(groups)).collect();
    let is_left: Vec<bool> = (0..groups).map(|_| random.once_in(2)).collect();
    let pairs = usize::from(n) * usize::from(n);
    let other_way = if random.once_in(2) { random.below(pairs) } else { pairs };
    let mut rules = Vec::new();
    for pair in 0..pairs {
        let (a, b) = (pair / usize::from(n), pair % usize::from(n));
        let closes = group[a] < group[b] || group[a] == group[b] && is_left[group[a]];
        let (a, b) = (a as u8, b as u8);
        rules.push(if closes != (pair == other_way) { [2, a, b] } else { [3, b, a] });
    }
    random.shuffle(&mut rules);
    rules.concat()
}

/// n and rules, in order or not; mostly with `least` operators or more.
pub fn any_rules(random: &mut Random, least: u8) -> (u8, Vec<u8>) {
    let most = [2, 3, 4, 8, 33][random.below(5)];
    let any = random.below(most) as u8;
    let n = if random.once_in(4) { any } else { any.max(least) };
    let mut rules = match random.below(12) {
        0 => near_rules(random, n),
        3 | 4 => chained_rules(random, n),
        1 => round_rules(random, n),
        2 if n > 0 => {
            let rule = |random: &mut Random| {
                [1 + random.below(3) as u8, random.below(n.into()) as u8, random.below(n.into()) as u8]
            };
            (0..random.below(12)).flat_map(|_| rule(random)).collect()
        }
        _ => good_rules(random, n),
    };
    match random.below(40) {
        0 => rules.truncate(random.below(rules.len())),
        1 => rules = damaged(random, rules),
        2 => return (33 + random.byte() % 200, rules),
        3 => rules.resize(6144 + random.below(3), 1),
        4 => return (n.saturating_sub(1), rules),
        _ => (),
    }
    (n, rules)
}
