//! Binding powers, worked out by hand.
//!
//! "Show that a closes before b exactly when b's left power is at most a's right power, and so that each accepted infix sheet is a
//! ladder of levels, each level wholly left or wholly right."
use tihvomen::{Panel, Powers, Refusal, Rule, INFIX, MOST_OPERATORS, PREFIX};

/// A panel with this sheet in force.
fn panel(kinds: &[u8], rules: &[Rule]) -> Panel {
    let mut panel = Panel::new();
    panel.stage_rules(kinds.len() as u8, kinds, rules).unwrap();
    panel.switch().unwrap();
    panel
}

/// The powers of all operators; none for one that is refused with 3.
fn powers(panel: &Panel) -> Vec<Option<(u8, u8)>> {
    let told = |operator| match panel.powers(operator) {
        Ok(Powers { left, right }) => Some((left, right)),
        Err(refusal) => {
            assert_eq!(refusal, Refusal::Stranger);
            None
        }
    };
    (0..panel.operators()).map(told).collect()
}

#[test]
fn worked_out_by_hand() {
    // Or, and, not: the first sheet of README.md.
    let or_and_not = [Rule::priority(2, 1), Rule::priority(1, 0), Rule::left(1, 1), Rule::left(0, 0)];
    assert_eq!(powers(&panel(&[INFIX, INFIX, PREFIX], &or_and_not)), [Some((2, 2)), Some((4, 4)), None]);
    // 02 lies above 00 by way of a prefix operator, which is not counted.
    let through = [Rule::priority(2, 1), Rule::priority(1, 0), Rule::left(2, 2), Rule::left(0, 0)];
    assert_eq!(powers(&panel(&[INFIX, PREFIX, INFIX], &through)), [Some((2, 2)), None, Some((4, 4))]);
    // A level that groups to the right above one that groups to the left: both close before 01, and only 00 lies above it.
    let right_above_left = [Rule::right(0, 0), Rule::priority(0, 1), Rule::left(1, 1)];
    assert_eq!(powers(&panel(&[INFIX, INFIX], &right_above_left)), [Some((4, 3)), Some((2, 2))]);
    // No operators, and only prefix ones.
    assert_eq!(powers(&Panel::new()), []);
    assert_eq!(powers(&panel(&[PREFIX; 2], &[])), [None, None]);
}

/// Rules over operators in groups, a lower group over a higher one; a group with an odd number groups to the right.
fn grouped(group: &[usize]) -> Vec<Rule> {
    let rule = |a: usize, b: usize| match group[a].cmp(&group[b]) {
        std::cmp::Ordering::Less => Some(Rule::priority(a as u8, b as u8)),
        std::cmp::Ordering::Equal if group[a] % 2 == 1 => Some(Rule::right(a as u8, b as u8)),
        std::cmp::Ordering::Equal => Some(Rule::left(a as u8, b as u8)),
        std::cmp::Ordering::Greater => None,
    };
    (0..group.len()).flat_map(|a| (0..group.len()).filter_map(move |b| rule(a, b))).collect()
}

/// Sheets of 32 operators in groups of equal size, without prefix ones and with some: the groups, the kinds, the panel.
fn sheets() -> impl Iterator<Item = (Vec<usize>, Vec<u8>, Panel)> {
    (0..2 * MOST_OPERATORS).map(|case| {
        let (size, prefixed) = (1 + usize::from(case / 2), case % 2 == 1);
        let group: Vec<usize> = (0..usize::from(MOST_OPERATORS)).map(|operator| operator / size).collect();
        let kinds: Vec<u8> = (0..MOST_OPERATORS).map(|operator| u8::from(prefixed && operator % 5 == 3)).collect();
        let panel = panel(&kinds, &grouped(&group));
        (group, kinds, panel)
    })
}

/// The powers are those of the groups: 2, and 2 more for each infix operator of a group below.
#[test]
fn powers_of_groups() {
    for (group, kinds, panel) in sheets() {
        let told: Vec<Option<(u8, u8)>> = (0..group.len())
            .map(|a| {
                let below = (0..group.len()).filter(|&c| kinds[c] == INFIX && group[c] > group[a]).count() as u8;
                let left = 2 + 2 * below;
                (kinds[a] == INFIX).then_some((left, left - (group[a] % 2) as u8))
            })
            .collect();
        assert_eq!(powers(&panel), told);
    }
}

/// "64 is the highest": of operators that each lie above all that follow.
#[test]
fn the_highest_power() {
    let (_, _, panel) = sheets().next().unwrap();
    assert_eq!(panel.powers(0), Ok(Powers { left: 64, right: 64 }));
    assert_eq!(panel.powers(1), Ok(Powers { left: 62, right: 61 }));
    assert_eq!(panel.powers(31), Ok(Powers { left: 2, right: 1 }));
}

/// "3, also for an operator that isn't infix": for every byte that is no infix operator of the sheet in force, whatever is staged.
#[test]
fn strangers() {
    for (_, kinds, panel) in sheets() {
        for operator in 0..=u8::MAX {
            let is_infix = kinds.get(usize::from(operator)) == Some(&INFIX);
            assert_eq!(panel.powers(operator).is_ok(), is_infix);
            assert_eq!(panel.powers(operator).err(), (!is_infix).then_some(Refusal::Stranger));
        }
    }
    let mut panel = panel(&[INFIX], &[Rule::left(0, 0)]);
    panel.stage_rules(2, &[PREFIX, INFIX], &[Rule::left(0, 1), Rule::right(1, 1)]).unwrap();
    assert_eq!(powers(&panel), [Some((2, 2))]);
    assert_eq!(panel.powers(1), Err(Refusal::Stranger));
    panel.switch().unwrap();
    assert_eq!(powers(&panel), [None, Some((2, 1))]);
}
