//! Prints a table of nanoseconds a call: the proved panel, the fast one, and the ratio.
use std::hint::black_box;
use tihvomen::{Refusal, Side};
use tihvomen_bench::cases::{kinds, meanings, readings, records, rows, sheet, Shape, SHAPES, TOKENS};
use tihvomen_bench::fast::{self, Answer};
use tihvomen_bench::timing::by_turns;

/// The proved panel and the fast one, in the same state.
struct Both {
    proved: tihvomen::Panel,
    fast: fast::Panel,
}

/// Times a call over the inputs and prints a line. Both panels must give the same first.
fn line<T: PartialEq + std::fmt::Debug>(
    name: &str,
    inputs: &[Vec<u8>],
    mut proved: impl FnMut(&[u8]) -> Result<T, Refusal>,
    mut fast: impl FnMut(&[u8]) -> Result<T, u8>,
) {
    for input in inputs {
        assert_eq!(proved(input).map_err(Refusal::number), fast(input), "{name}: {input:02x?}");
    }
    let (here, there) = by_turns(
        inputs.len(),
        || inputs.iter().for_each(|input| drop(black_box(proved(black_box(input))))),
        || inputs.iter().for_each(|input| drop(black_box(fast(black_box(input))))),
    );
    println!("| {name} | {here:.0} | {there:.0} | {:.2} |", here / there);
}

/// The same for a call that writes an answer: the outputs must be the same too.
fn written(
    name: &str,
    inputs: &[Vec<u8>],
    proved: impl Fn(&[u8], &mut [u8]) -> Result<usize, Refusal>,
    fast: impl Fn(&[u8], &mut [u8]) -> Answer,
) {
    let (mut one, mut other) = ([0; 300], [0; 300]);
    for input in inputs {
        let accepted = proved(input, &mut one).is_ok() && fast(input, &mut other).is_ok();
        assert!(accepted && one == other, "{name}: {input:02x?}");
    }
    line(name, inputs, |input| proved(input, &mut one), |input| fast(input, &mut other));
}

fn stage(both: &mut Both, name: &str, prefixed: bool, groups: u8) {
    let Both { proved, fast } = both;
    line(name, &[sheet(prefixed, groups)], |sheet| proved.stage(32, sheet), |sheet| fast.stage(32, sheet));
}

/// Why the same sheet is refused: it is not, so all rows of two and three operators are looked at.
fn explain(name: &str, prefixed: bool, groups: u8) {
    let proved = |sheet: &[u8], out: &mut [u8]| tihvomen::explain_into(32, sheet, out);
    written(name, &[sheet(prefixed, groups)], proved, |sheet, out| fast::explain(32, sheet, out));
}

/// The switch to the sheet that is staged. A switch empties the stage, so each is made on a copy; the copying is timed too.
fn switch(both: &Both, name: &str) {
    let Both { proved, fast } = both;
    let (mut one, mut other) = (proved.clone(), fast.clone());
    let switch_proved = |_: &[u8]| {
        one.clone_from(proved);
        one.switch()
    };
    let switch_fast = |_: &[u8]| {
        other.clone_from(fast);
        other.switch()
    };
    line(name, &[Vec::new()], switch_proved, switch_fast);
    let (mut record, mut same) = ([0; 300], [0; 300]);
    for place in 0..16 {
        assert_eq!(one.fetch_record_into(place, &mut record).ok(), other.fetch_record(place, &mut same).ok());
        assert_eq!(record, same);
    }
}

/// Build, repair, judge, yield, the shortest row and the right operand.
fn trees(both: &Both, size: &str, tokens: usize, shape: Shape) {
    let Both { proved, fast } = both;
    let (rows, records) = (rows(tokens, shape), records(tokens, shape));
    written(&format!("build, {size}"), &rows, |row, out| proved.build_into(row, out), |row, out| fast.build(row, out));
    let repair = |record: &[u8], out: &mut [u8]| proved.repair_into(record, out);
    written(&format!("repair, {size}"), &records, repair, |record, out| fast.repair(record, out));
    line(&format!("judge, {size}"), &records, |record| proved.judge(record), |record| fast.judge(record));
    let yield_row = |record: &[u8], out: &mut [u8]| proved.yield_row_into(record, out);
    written(&format!("yield, {size}"), &records, yield_row, |record, out| fast.yield_row(record, out));
    let shortest = |record: &[u8], out: &mut [u8]| proved.shortest_row_into(record, out);
    written(&format!("shortest row, {size}"), &records, shortest, |record, out| fast.shortest_row(record, out));
    let operand = |record: &[u8]| proved.operand(record, Side::Right).map(<[u8]>::len);
    line(&format!("operand, {size}"), &records, operand, |record| fast.operand(record, true).map(<[u8]>::len));
}

/// Each row with the record that is built of it.
fn claims(both: &mut Both, size: &str, rows: &[Vec<u8>]) {
    let Both { proved, fast } = both;
    let mut out = [0; 300];
    let built = |row: &Vec<u8>| fast.build(row, &mut out).map(|length| out[..length].to_vec());
    let records: Vec<Vec<u8>> = rows.iter().map(built).collect::<Result<_, u8>>().expect("the rows are accepted");
    let positions: Vec<Vec<u8>> = (0..).take(rows.len()).map(|at| vec![at]).collect();
    let claim = |at: &[u8]| (&rows[usize::from(at[0])], &records[usize::from(at[0])]);
    assert!(positions.iter().map(|at| claim(at)).all(|(row, record)| fast.put_claim(3, row, record).is_ok()));
    let put_proved = |at: &[u8]| {
        let (row, record) = claim(at);
        proved.put_claim(3, row, record)
    };
    let put_fast = |at: &[u8]| {
        let (row, record) = claim(at);
        fast.put_claim(3, row, record)
    };
    line(&format!("put claim, {size}"), &positions, put_proved, put_fast);
}

/// Put, the two fetches, the image and the evaluation; the places then hold sixteen rows.
fn places(both: &mut Both, size: &str, tokens: usize, shape: Shape) {
    let rows = rows(tokens, shape);
    claims(both, size, &rows);
    let Both { proved, fast } = both;
    line(&format!("put row, {size}"), &rows, |row| proved.put_row(3, row), |row| fast.put_row(3, row));
    for (place, row) in (0..16).zip(&rows) {
        assert!(proved.put_row(place, row).is_ok() && fast.put_row(place, row).is_ok());
    }
    let places: Vec<Vec<u8>> = (0..16).map(|place| vec![place]).collect();
    let fetch_record = |place: &[u8], out: &mut [u8]| proved.fetch_record_into(place[0], out);
    written(&format!("fetch record, {size}"), &places, fetch_record, |place, out| fast.fetch_record(place[0], out));
    let fetch_row = |place: &[u8], out: &mut [u8]| proved.fetch_row_into(place[0], out);
    written(&format!("fetch row, {size}"), &places, fetch_row, |place, out| fast.fetch_row(place[0], out));
    let image = |place: &[u8], out: &mut [u8]| proved.image_into(place[0], out);
    written(&format!("image, {size}"), &places, image, |place, out| fast.image(place[0], out));
    let (meanings, readings) = (meanings(&kinds(shape == Shape::Prefixed)), readings());
    let evaluate = |place: &[u8]| proved.evaluate(place[0], &meanings, &readings);
    line(&format!("evaluate, {size}"), &places, evaluate, |place| fast.evaluate(place[0], &meanings, &readings));
}

/// The powers of all 32 operators; a prefix one is refused.
fn powers(both: &Both, name: &str) {
    let Both { proved, fast } = both;
    let operators: Vec<Vec<u8>> = (0..32).map(|operator| vec![operator]).collect();
    let told = |operator: &[u8]| proved.powers(operator[0]).map(|powers| (powers.left, powers.right));
    line(name, &operators, told, |operator| fast.powers(operator[0]));
}

fn fresh() -> Both {
    Both { proved: tihvomen::Panel::new(), fast: fast::Panel::default() }
}

/// The staged sheet, that of eight groups, is put in force, and staged again for the switches.
fn put_in_force(both: &mut Both, prefixed: bool) {
    let (Both { proved, fast }, sheet) = (both, sheet(prefixed, 8));
    assert!(proved.switch().is_ok() && fast.switch().is_ok());
    assert!(proved.stage(32, &sheet).is_ok() && fast.stage(32, &sheet).is_ok());
}

fn main() {
    println!("| call | proved, ns | fast, ns | ratio |\n|---|---|---|---|");
    let mut both = fresh();
    stage(&mut both, "stage, 32 operators, 1,024 rules", false, 1);
    stage(&mut both, "stage, 32 operators, 576 rules", false, 8);
    explain("explain, 32 operators, 1,024 rules", false, 1);
    explain("explain, 32 operators, 576 rules", false, 8);
    put_in_force(&mut both, false);
    powers(&both, "powers, 32 operators");
    for tokens in TOKENS {
        for (shape_name, shape) in SHAPES {
            let size = format!("{tokens} tokens, {shape_name}");
            trees(&both, &size, tokens, shape);
            places(&mut both, &size, tokens, shape);
        }
        switch(&both, &format!("switch, under sixteen trees of {tokens} tokens"));
    }
    both = fresh();
    stage(&mut both, "stage, 32 operators, 8 of them prefix, 576 rules", true, 8);
    explain("explain, 32 operators, 8 of them prefix, 576 rules", true, 8);
    put_in_force(&mut both, true);
    powers(&both, "powers, 32 operators, 8 of them prefix");
    for tokens in [63, 255] {
        let size = format!("{tokens} tokens, random, with prefix operators");
        trees(&both, &size, tokens, Shape::Prefixed);
        places(&mut both, &size, tokens, Shape::Prefixed);
        switch(&both, &format!("switch, under sixteen trees of {tokens} tokens, with prefix operators"));
    }
}
