//! Places over 15 and more than 32 operators: refused for every value that the argument can have, before all else.
use tihvomen::{
    explain, explain_rules, Panel, Refusal, Rule, IMAGE_BYTES, INFIX, MOST_OPERATORS, MOST_RULES, PLACES, PREFIX,
};

/// Two infix operators: 01 over 00, each left with itself; a tree at every place.
fn filled() -> Panel {
    let mut panel = Panel::new();
    panel.stage(2, &[0, 0, 1, 1, 0, 2, 1, 1, 2, 0, 0]).unwrap();
    panel.switch().unwrap();
    for place in 0..PLACES {
        panel.put_row(place, &[0x80 + place, 0, 0x81, 1, 0x82]).unwrap();
    }
    panel
}

/// Every call that takes a place answers this, with arguments that are right and with such that are wrong.
fn refused_at(panel: &mut Panel, place: u8) {
    let out = &mut [0x5a; 300];
    for row in [&[0x80][..], &[], &[0x7f], &[0x80; 256]] {
        assert_eq!(panel.put_row(place, row), Err(Refusal::Place));
        assert_eq!(panel.put_record(place, row), Err(Refusal::Place));
        assert_eq!(panel.put_claim(place, row, &[0x80]), Err(Refusal::Place));
        assert_eq!(panel.put_claim(place, &[0x80], row), Err(Refusal::Place));
    }
    assert_eq!(panel.drop_place(place), Err(Refusal::Place));
    assert_eq!(panel.image(place), Err(Refusal::Place));
    for room in [0, 300] {
        assert_eq!(panel.fetch_record_into(place, &mut out[..room]), Err(Refusal::Place));
        assert_eq!(panel.fetch_row_into(place, &mut out[..room]), Err(Refusal::Place));
        assert_eq!(panel.image_into(place, &mut out[..room]), Err(Refusal::Place));
    }
    assert_eq!(panel.evaluate(place, &[1, 3], &[1; 16]), Err(Refusal::Place));
    assert_eq!(panel.evaluate(place, &[], &[]), Err(Refusal::Place));
    #[cfg(feature = "alloc")]
    {
        assert_eq!(panel.fetch_record(place), Err(Refusal::Place));
        assert_eq!(panel.fetch_row(place), Err(Refusal::Place));
    }
    assert_eq!(*out, [0x5a; 300]);
}

#[test]
fn places_over_15() {
    for mut panel in [Panel::new(), filled()] {
        let before = panel.clone();
        for place in PLACES..=u8::MAX {
            refused_at(&mut panel, place);
        }
        assert_eq!(panel, before);
    }
}

#[test]
fn places_up_to_15() {
    let mut panel = filled();
    for place in 0..PLACES {
        assert_eq!(panel.fetch_record_into(place, &mut [0; 5]), Ok(5));
        assert_eq!(panel.fetch_row_into(place, &mut [0; 5]), Ok(5));
        assert_eq!(panel.image(place).map(|image| image[2]), Ok(0x80 + place));
        assert_eq!(panel.evaluate(place, &[9, 9], &[7; 16]), Ok(7));
        assert_eq!(panel.put_record(place, &[0x80]), Ok(()));
        assert_eq!(panel.put_claim(place, &[0x81], &[0x81]), Ok(()));
        assert_eq!(panel.drop_place(place), Ok(()));
    }
    assert!((0..PLACES).all(|place| panel.image(place) == Ok([0; IMAGE_BYTES])));
}

#[test]
fn more_than_32_operators() {
    for mut panel in [Panel::new(), filled()] {
        let before = panel.clone();
        for n in MOST_OPERATORS + 1..=u8::MAX {
            let kinds = vec![INFIX; n.into()];
            // No rule, one that is right, torn bytes, a kind that does not exist; with kind bytes and without.
            for rules in [&[][..], &[2, 0, 0], &[2, 0], &[9, 0, 0]] {
                for sheet in [&[&kinds, rules].concat()[..], rules] {
                    assert_eq!(panel.stage(n, sheet), Err(Refusal::Oversize));
                    assert_eq!(explain(n, sheet), Err(Refusal::Oversize));
                }
            }
            for rule in [Rule::left(0, 0), Rule { kind: 9, first: 0, second: 0 }] {
                for (kinds, rules) in [(&kinds[..], &[][..]), (&kinds, &[rule]), (&[], &[rule])] {
                    assert_eq!(panel.stage_rules(n, kinds, rules), Err(Refusal::Oversize));
                    assert_eq!(explain_rules(n, kinds, rules), Err(Refusal::Oversize));
                }
            }
        }
        assert_eq!(panel, before);
    }
}

#[test]
fn up_to_32_operators_and_2048_rules() {
    for n in 0..=MOST_OPERATORS {
        let rules: Vec<Rule> = (0..n).flat_map(|a| (0..n).map(move |b| Rule::left(a, b))).collect();
        for kind in [INFIX, PREFIX] {
            let mut panel = Panel::new();
            assert_eq!(panel.stage_rules(n, &vec![kind; n.into()], &rules), Ok(()));
            assert!(explain_rules(n, &vec![kind; n.into()], &rules).is_ok_and(|it| it.verdict().is_ok()));
            assert_eq!((panel.operators(), panel.switch(), panel.operators()), (0, Ok(()), n));
        }
    }
    let mut panel = Panel::new();
    let rules = [Rule::left(0, 0); MOST_RULES + 1];
    assert_eq!(panel.stage_rules(1, &[INFIX], &rules), Err(Refusal::Oversize));
    assert_eq!(panel.stage_rules(1, &[], &rules), Err(Refusal::Oversize));
    assert_eq!(panel.stage_rules(1, &[], &rules[1..]), Err(Refusal::Torn));
    assert_eq!(panel.stage_rules(1, &[INFIX], &rules[1..]), Ok(()));
}
