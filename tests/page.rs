//! The page examples/holdover.c in Rust, built outside of the repository by bin/test-bindings: it prints the same.
use std::fmt::Display;
use tihvomen::{Panel, Refusal, Rule, INFIX, PREFIX};

const LESS: u8 = 0x00;
const OR: u8 = 0x01;
const AND: u8 = 0x02;
const NOT: u8 = 0x03;

/// What the operators mean here, 00 first: less, or, and, not.
const MEANINGS: [u8; 4] = [3, 1, 2, 10];

/// What is said of a call: that it was accepted, or why not.
fn said<T>(result: Result<T, Refusal>) -> String {
    result.map_or_else(|refusal| refusal.to_string(), |_| "accepted".to_string())
}

fn print(what: &str, said: impl Display) {
    println!("{what}: {said}");
}

/// Stages a sheet and switches it in: "less" binds tightest, then "not", then `tighter`, then `looser`; "not" is prefix, and the
/// others group to the left. Priority leads on: "less" is over `tighter` too.
fn change_sheet(panel: &mut Panel, tighter: u8, looser: u8) -> Result<(), Refusal> {
    let rules = [
        Rule::priority(LESS, NOT),
        Rule::priority(NOT, tighter),
        Rule::priority(tighter, looser),
        Rule::left(LESS, LESS),
        Rule::left(OR, OR),
        Rule::left(AND, AND),
    ];
    panel.stage_rules(4, &[INFIX, INFIX, INFIX, PREFIX], &rules)?;
    panel.switch()
}

/// Runs the condition at two sites with limits of their own.
fn print_sites(panel: &Panel) {
    for limit in [14_400, 1_200] {
        let alarm = match panel.evaluate(3, &MEANINGS, &[limit, 3_000, 1, 5]) {
            Ok(0) => "no alarm".to_string(),
            Ok(_) => "alarm".to_string(),
            Err(refusal) => format!("refused, {refusal}"),
        };
        print(&format!("  with a limit of {limit} seconds"), alarm);
    }
}

fn main() {
    let row = [0x80, LESS, 0x81, OR, 0x82, AND, NOT, 0x83];
    let mut panel = Panel::new();

    println!("3000 seconds in holdover, the antenna lost, five peers in reach");
    print("\"and\" first", said(change_sheet(&mut panel, AND, OR)));
    print("the row", said(panel.put_row(3, &row)));
    print_sites(&panel);

    print("\"or\" first", said(change_sheet(&mut panel, OR, AND)));
    print_sites(&panel);

    print("meanings for three operators", said(panel.evaluate(3, &MEANINGS[..3], &[0; 4])));
    print("values for three readings", said(panel.evaluate(3, &MEANINGS, &[0; 3])));
    print("another place", said(panel.evaluate(4, &MEANINGS, &[0; 4])));
}
