//! The same sheets in both forms, as bytes and as lists of kinds and of rules, on panels that hold trees.
use crate::inputs;
use crate::random::Random;
use crate::stagings::{self, Staging};
use tihvomen::{Panel, Refusal, Rule};

const SHEETS: usize = 20_000;

/// A panel with some trees, under an accepted sheet; and the kinds of its operators.
fn held(random: &mut Random) -> (Panel, Vec<u8>) {
    let mut panel = Panel::new();
    let n = 1 + random.below(32) as u8;
    let staging = stagings::good(random, n);
    panel.stage(n, &staging.bytes()).expect("a good sheet is accepted");
    panel.switch().expect("no tree is held");
    for place in 0..random.below(16) as u8 {
        // A tree of too many tokens is refused; the place is then empty.
        let _ = panel.put_record(place, &inputs::any_tree(random, &staging.kinds).record());
    }
    (panel, staging.kinds)
}

/// Rules of three bytes as a list.
pub fn listed(bytes: &[u8]) -> Vec<Rule> {
    bytes.chunks_exact(3).map(|rule| Rule { kind: rule[0], first: rule[1], second: rule[2] }).collect()
}

/// The list form has a list of kinds of its own: any number of them but n is 2, after 1. Else it is as the bytes.
fn expected(panel: &mut Panel, staging: &Staging) -> Result<(), Refusal> {
    if staging.n > 32 || staging.rules.len() > 6144 {
        return Err(Refusal::Oversize);
    }
    if staging.kinds.len() != usize::from(staging.n) {
        return Err(Refusal::Torn);
    }
    panel.stage(staging.n, &staging.bytes())
}

/// The number of a result: 0 is success.
fn number(result: Result<(), Refusal>) -> usize {
    result.map_or_else(|refusal| refusal.number().into(), |()| 0)
}

#[test]
fn both_forms_give_the_same() {
    let mut random = Random::new(6);
    let (mut panel, mut kinds) = held(&mut random);
    let (mut stagings_seen, mut switches_seen) = ([0; 16], [0; 16]);
    for step in 0..SHEETS {
        if step % 40 == 0 {
            (panel, kinds) = held(&mut random);
        }
        let in_use: Vec<Option<u8>> = kinds.iter().copied().map(Some).collect();
        let mut staging = stagings::any(&mut random, &in_use);
        if random.once_in(50) {
            // One list of the most rules, one of a rule more.
            staging.rules = [2, 0, 0].repeat(2048 + random.below(2));
        }
        staging.rules.truncate(staging.rules.len() / 3 * 3);
        let (n, given) = (staging.n, (&staging.kinds, &staging.rules));
        let (mut by_bytes, mut by_list) = (panel.clone(), panel.clone());
        let staged = expected(&mut by_bytes, &staging);
        let rules = listed(&staging.rules);
        assert_eq!(by_list.stage_rules(n, &staging.kinds, &rules), staged, "n = {n}, kinds and rules {given:02x?}");
        assert!(by_list == by_bytes, "the panels differ: n = {n}, kinds and rules {given:02x?}");
        assert!(staged.is_ok() || by_list == panel, "a refused staging changed the panel");
        stagings_seen[number(staged)] += 1;
        let switched = by_list.switch();
        assert_eq!(by_bytes.switch(), switched, "n = {n}, kinds and rules {given:02x?}");
        assert!(by_list == by_bytes, "the panels differ after a switch: n = {n}, kinds and rules {given:02x?}");
        switches_seen[number(switched)] += 1;
        panel = by_list;
        if switched.is_ok() {
            assert!(staged.is_ok(), "what is in use stays so: a sheet that was refused before is refused");
            kinds = staging.kinds;
        }
    }
    for (name, seen, numbers) in
        [("stage", stagings_seen, &[0, 1, 2, 3, 4, 5][..]), ("switch", switches_seen, &[0, 11, 15])]
    {
        for (number, &count) in seen.iter().enumerate() {
            assert_eq!(count > 0, numbers.contains(&number), "{name}: number {number}");
        }
    }
}
