//! The fast panel gives the proved one's answers: numbers and whole outputs, call by call over many runs.
use tihvomen_bench::fast;
use tihvomen_bench::inputs::{any_tree, claim, meanings, perhaps_damaged, readings};
use tihvomen_bench::line::Lines;
use tihvomen_bench::random::Random;
use tihvomen_bench::stagings::{self, Staging};

/// A call to both panels with equal outputs; equal numbers, lengths and outputs after it.
fn written(
    random: &mut Random,
    proved: impl FnOnce(&mut [u8]) -> Result<usize, tihvomen::Refusal>,
    fast: impl FnOnce(&mut [u8]) -> fast::Answer,
) {
    let room = random.below(300);
    let mut one = random.bytes(room);
    let mut other = one.clone();
    assert_eq!(proved(&mut one).map_err(|refusal| refusal.number()), fast(&mut other));
    assert_eq!(one, other);
}

fn record(random: &mut Random, kinds: &[u8]) -> Vec<u8> {
    let record = any_tree(random, kinds).record();
    perhaps_damaged(random, record)
}

fn row(random: &mut Random, kinds: &[u8]) -> Vec<u8> {
    let row = any_tree(random, kinds).row();
    perhaps_damaged(random, row)
}

/// The record that is built of a row; nothing where it is refused.
fn built(panel: &fast::Panel, row: &[u8]) -> Vec<u8> {
    let mut out = [0; 300];
    panel.build(row, &mut out).map_or(Vec::new(), |length| out[..length].to_vec())
}

/// The kinds of the sheet in force, and of the staged one.
struct Kinds {
    in_force: Vec<u8>,
    staged: Vec<u8>,
}

/// A sheet staged on both.
fn stage(random: &mut Random, proved: &mut tihvomen::Panel, fast: &mut fast::Panel, kinds: &mut Kinds) {
    let in_use: Vec<Option<u8>> = kinds.in_force.iter().copied().map(Some).collect();
    let mut staging = stagings::any(random, &in_use);
    if random.once_in(2) {
        let n = kinds.in_force.len() as u8;
        staging = Staging { n, kinds: kinds.in_force.clone(), rules: stagings::good_rules(random, n) };
    }
    let (n, bytes) = (staging.n, staging.bytes());
    let accepted = fast.stage(n, &bytes);
    assert_eq!(proved.stage(n, &bytes).map_err(|refusal| refusal.number()), accepted);
    if accepted.is_ok() {
        // In the byte form the kinds are the first n bytes.
        kinds.staged = bytes[..usize::from(n)].to_vec();
    }
    written(random, |out| tihvomen::explain_into(n, &bytes, out), |out| fast::explain(n, &bytes, out));
}

/// A switch of both.
fn switch(random: &mut Random, proved: &mut tihvomen::Panel, fast: &mut fast::Panel, kinds: &mut Kinds) {
    let accepted = fast.switch();
    assert_eq!(proved.switch().map_err(|refusal| refusal.number()), accepted);
    if accepted.is_ok() {
        kinds.in_force.clone_from(&kinds.staged);
    }
    for place in 0..16 {
        written(random, |out| proved.fetch_record_into(place, out), |out| fast.fetch_record(place, out));
    }
}

/// One call to both.
fn call(random: &mut Random, proved: &mut tihvomen::Panel, fast: &mut fast::Panel, all_kinds: &mut Kinds) {
    let place = random.below(18) as u8;
    let number = |refusal: tihvomen::Refusal| refusal.number();
    let kinds = &all_kinds.in_force;
    match random.below(22) {
        0 | 1 => stage(random, proved, fast, all_kinds),
        2 | 3 => switch(random, proved, fast, all_kinds),
        4 | 5 => {
            let row = row(random, kinds);
            assert_eq!(proved.put_row(place, &row).map_err(number), fast.put_row(place, &row));
        }
        6 | 7 => {
            let record = record(random, kinds);
            assert_eq!(proved.put_record(place, &record).map_err(number), fast.put_record(place, &record));
        }
        8 => assert_eq!(proved.drop_place(place).map_err(number), fast.drop_place(place)),
        9 => written(random, |out| proved.fetch_row_into(place, out), |out| fast.fetch_row(place, out)),
        10 => written(random, |out| proved.image_into(place, out), |out| fast.image(place, out)),
        11 => {
            let row = row(random, kinds);
            written(random, |out| proved.build_into(&row, out), |out| fast.build(&row, out));
        }
        12 => {
            let record = record(random, kinds);
            written(random, |out| proved.repair_into(&record, out), |out| fast.repair(&record, out));
        }
        13 => {
            let record = record(random, kinds);
            written(random, |out| proved.yield_row_into(&record, out), |out| fast.yield_row(&record, out));
        }
        14 => {
            let record = record(random, kinds);
            written(random, |out| proved.shortest_row_into(&record, out), |out| fast.shortest_row(&record, out));
        }
        15 => {
            let record = record(random, kinds);
            assert_eq!(proved.judge(&record).map_err(number), fast.judge(&record));
        }
        16 | 17 => {
            let (meanings, readings) = (meanings(random, kinds), readings(random));
            let value = proved.evaluate(place, &meanings, &readings).map_err(number);
            assert_eq!(value, fast.evaluate(place, &meanings, &readings));
        }
        18 => {
            let operator = random.below(34) as u8;
            let powers = proved.powers(operator).map(|powers| (powers.left, powers.right));
            assert_eq!(powers.map_err(number), fast.powers(operator));
        }
        19 | 20 => {
            // Now and then with an operator that the sheet lacks.
            let mut kinds = kinds.clone();
            if kinds.len() < 32 && random.once_in(8) {
                kinds.push(random.below(2) as u8);
            }
            let (row, record) = claim(random, &kinds, |row| built(fast, row));
            assert_eq!(proved.put_claim(place, &row, &record).map_err(number), fast.put_claim(place, &row, &record));
            written(random, |out| proved.fetch_record_into(place, out), |out| fast.fetch_record(place, out));
        }
        _ => {
            let record = record(random, kinds);
            for (side, right) in [(tihvomen::Side::Left, false), (tihvomen::Side::Right, true)] {
                assert_eq!(proved.operand(&record, side).map_err(number), fast.operand(&record, right));
            }
        }
    }
}

#[test]
fn the_fast_panel_agrees() {
    for seed in 0..4000 {
        let mut random = Random::new(seed);
        let (mut proved, mut fast) = (tihvomen::Panel::new(), fast::Panel::default());
        let n = random.below(33) as u8;
        let staging = stagings::good(&mut random, n);
        assert_eq!((proved.stage(n, &staging.bytes()), fast.stage(n, &staging.bytes())), (Ok(()), Ok(())));
        let mut kinds = Kinds { in_force: Vec::new(), staged: staging.kinds };
        switch(&mut random, &mut proved, &mut fast, &mut kinds);
        for _ in 0..150 {
            call(&mut random, &mut proved, &mut fast, &mut kinds);
        }
    }
}

/// Every sheet over one and two operators, of every kind, with one rule or none for each pair.
#[test]
fn small_sheets_agree() {
    for n in 1..=2u8 {
        let pairs: Vec<[u8; 2]> = (0..n).flat_map(|a| (0..n).map(move |b| [a, b])).collect();
        for code in 0..4usize.pow(pairs.len() as u32) {
            let of_pairs = pairs.iter().enumerate().map(|(at, pair)| ((code >> (2 * at) & 3) as u8, pair));
            let rules: Vec<u8> =
                of_pairs.filter(|(kind, _)| *kind > 0).flat_map(|(kind, pair)| [kind, pair[0], pair[1]]).collect();
            for prefixes in 0..1u8 << n {
                let kinds: Vec<u8> = (0..n).map(|operator| prefixes >> operator & 1).collect();
                let bytes = [kinds, rules.clone()].concat();
                let proved = tihvomen::Panel::new().stage(n, &bytes).map_err(|refusal| refusal.number());
                assert_eq!(proved, fast::Panel::default().stage(n, &bytes), "{n} {bytes:02x?}");
                let random = &mut Random::new(code as u64);
                written(random, |out| tihvomen::explain_into(n, &bytes, out), |out| fast::explain(n, &bytes, out));
            }
        }
    }
}

/// The listing of docs/REFERENCE.md, section 8, and lines of a wrong length.
#[test]
fn lines_are_answered() {
    let run = "01020000010100020101020000 0a 02038000810182 0403 0304 01020000010001020101020000 0A 0403 0a";
    let replies = "00 00 00 000080018182 09 00 00 000100808182 0f";
    let longest = "00".repeat(6178);
    let wrong =
        ["", "0", "0403\r", "01", "02", "0400ff", "0a00", "0b", "04FF", longest.as_str(), &format!("{longest}0")];
    let mut lines = Lines::default();
    let mut answered = Vec::new();
    run.split(' ').chain(wrong).for_each(|line| lines.reply(line.as_bytes(), &mut answered));
    let expected = format!("{replies} 0c 0c 0c 0c 0c 0c 0c 0c 08 0c 01").replace(' ', "\n") + "\n";
    assert_eq!(String::from_utf8(answered).unwrap(), expected);
}
