//! Explanations as text for a reader, written by hand.
use tihvomen::{explain, Explanation};

fn bytes(text: &str) -> Vec<u8> {
    text.split(' ').map(|byte| u8::from_str_radix(byte, 16).unwrap()).collect()
}

fn explained(n: u8, sheet: &str) -> Explanation {
    explain(n, &bytes(sheet)).unwrap()
}

/// Each operator closes before the next, and the last before the first. docs/REFERENCE.md shows it, indented by four.
#[test]
fn a_circle() {
    let circle = "00 00 00 02 00 00 02 01 01 02 02 02 02 00 01 03 00 01 02 01 02 03 01 02 02 02 00 03 02 00";
    let text = r"double: under these rules some row has two or more conflict-free trees
operators 00 01 02
row 80 00 81 01 82 02 83
tree 00 80 02 01 81 82 83
       00
      /  \
    80    02
         /  \
       01    83
      /  \
    81    82
tree 02 01 00 80 81 82 83
             02
            /  \
          01    83
         /  \
       00    82
      /  \
    80    81";
    assert_eq!(explained(3, circle).to_string(), text);
    let indented: String = text.lines().map(|line| format!("    {line}\n")).collect();
    assert!(include_str!("../../docs/REFERENCE.md").contains(&indented));
}

#[test]
fn a_prefix_operator() {
    let text = r"double: under these rules some row has two or more conflict-free trees
operators 01 00
row 01 80 00 81
tree 01 00 80 81
       01
       |
       00
      /  \
    80    81
tree 00 01 80 81
       00
      /  \
    01    81
    |
    80";
    assert_eq!(explained(2, "00 01 02 00 00").to_string(), text);
}

/// The operators 00 to 1d are prefix; they close before 1e, and 1e closes before all infix ones, but 1f takes in their operands.
#[test]
fn a_prefix_operator_and_two_infix_ones() {
    let kinds = [vec![1; 30], vec![0; 2]].concat();
    let mut rules: Vec<[u8; 3]> = (0..32).map(|first| [2, first, 0x1e]).collect();
    rules.extend((0..32).map(|first| if first < 0x1e { [3, 0x1f, first] } else { [2, first, 0x1f] }));
    let text = r"double: under these rules some row has two or more conflict-free trees
operators 00 1e 1f
row 00 80 1e 81 1f 82
tree 00 1f 1e 80 81 82
          00
          |
          1f
         /  \
       1e    82
      /  \
    80    81
tree 1f 1e 00 80 81 82
          1f
         /  \
       1e    82
      /  \
    00    81
    |
    80";
    assert_eq!(explain(32, &[kinds, rules.concat()].concat()).unwrap().to_string(), text);
}

#[test]
fn no_tree() {
    let text = "dead: under these rules some row has no conflict-free tree\noperators 00 00\nrow 80 00 81 00 82";
    assert_eq!(explained(1, "00 02 00 00 03 00 00").to_string(), text);
    let text = "dead: under these rules some row has no conflict-free tree\noperators 01 00\nrow 01 80 00 81";
    assert_eq!(explained(2, "00 01 02 00 00 02 01 00 03 00 01").to_string(), text);
}

#[test]
fn nothing_wrong() {
    let text = "accepted: under these rules each row has one conflict-free tree and no second";
    assert_eq!(explained(1, "00 02 00 00").to_string(), text);
    assert_eq!(explained(1, "01").to_string(), text);
}

/// For a programmer: the answer's bytes, and no others.
#[test]
fn debug_shows_the_bytes() {
    assert_eq!(format!("{:?}", explained(1, "01")), "Explanation([0])");
    assert_eq!(format!("{:02x?}", explained(1, "00 01 00 00")), "Explanation([04, 80, 00, 81, 00, 82])");
}
