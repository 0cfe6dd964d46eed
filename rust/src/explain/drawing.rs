//! A tree as text: each operator above its operands, with `/` and `\` to the two of an infix one, `|` to that of a prefix one.
use crate::sizes::FIRST_READING;
use core::fmt;

/// Room for every tree of seven nodes.
const LINES: usize = 13;
const COLUMNS: usize = 18;

/// The operands of an infix operator begin at least so many columns to the left and to the right of it.
const NEAREST: usize = 3;

/// A drawn tree. Its leftmost character is in column 0.
pub struct Drawing {
    cells: [[u8; COLUMNS]; LINES],
    /// So many lines have something in them.
    height: usize,
    /// The column where the digits of the top node begin.
    top: usize,
}

impl Drawing {
    /// The tree of a record without brackets, of at most seven bytes. The test tells prefix operators from infix ones.
    pub fn of_record(record: &[u8], is_prefix: impl Fn(u8) -> bool) -> Drawing {
        drawn(record, &is_prefix).0
    }

    /// A node alone.
    fn node(byte: u8, top: usize) -> Drawing {
        let mut cells = [[b' '; COLUMNS]; LINES];
        for (at, digit) in [byte >> 4, byte & 15].into_iter().enumerate() {
            cells[0][top + at] = b"0123456789abcdef"[usize::from(digit)];
        }
        Drawing { cells, height: 1, top }
    }

    /// A prefix operator over its operand.
    fn prefix(operator: u8, only: &Drawing) -> Drawing {
        let mut drawing = Drawing::node(operator, only.top);
        drawing.cells[1][only.top] = b'|';
        drawing.lay(only, 2, only.top);
        drawing
    }

    /// An infix operator over its operands, which come as near as they can.
    fn infix(operator: u8, left: &Drawing, right: &Drawing) -> Drawing {
        let mut apart = NEAREST;
        while !left.is_clear_of(right, 2 * apart) {
            apart += 1;
        }
        let top = (left.top + apart).max(right.top.saturating_sub(apart));
        let mut drawing = Drawing::node(operator, top);
        let operands = apart - 1;
        for line in 1..operands {
            drawing.cells[line][top - line] = b'/';
            drawing.cells[line][top + 1 + line] = b'\\';
        }
        drawing.lay(left, operands, top - apart);
        drawing.lay(right, operands, top + apart);
        drawing
    }

    /// Lays another drawing over this one, with its top node in that line and column.
    fn lay(&mut self, other: &Drawing, line: usize, column: usize) {
        for (from, to) in other.cells[..other.height].iter().zip(&mut self.cells[line..]) {
            for (at, &cell) in from.iter().enumerate().filter(|(_, &cell)| cell != b' ') {
                to[column + at - other.top] = cell;
            }
        }
        self.height = self.height.max(line + other.height);
    }

    /// Whether the two keep a column between them in every line, with the other's top so many columns further to the right.
    fn is_clear_of(&self, other: &Drawing, columns: usize) -> bool {
        let is_drawn = |&cell: &u8| cell != b' ';
        self.cells.iter().zip(&other.cells).all(|(here, there)| {
            match (here.iter().rposition(is_drawn), there.iter().position(is_drawn)) {
                (Some(last), Some(first)) => last + other.top + 1 < first + self.top + columns,
                _ => true,
            }
        })
    }

    /// Writes a line break before each line, then four spaces; no line ends with a space.
    pub fn write_indented(&self, to: &mut impl fmt::Write) -> fmt::Result {
        for line in &self.cells[..self.height] {
            to.write_str("\n    ")?;
            line.trim_ascii_end().iter().try_for_each(|&cell| to.write_char(cell.into()))?;
        }
        Ok(())
    }
}

/// The tree at the front of the bytes, and what is left of them.
fn drawn<'a>(bytes: &'a [u8], is_prefix: &impl Fn(u8) -> bool) -> (Drawing, &'a [u8]) {
    let (&first, rest) = bytes.split_first().expect("the library gives whole trees");
    if first >= FIRST_READING {
        return (Drawing::node(first, 0), rest);
    }
    let (left, rest) = drawn(rest, is_prefix);
    if is_prefix(first) {
        return (Drawing::prefix(first, &left), rest);
    }
    let (right, rest) = drawn(rest, is_prefix);
    (Drawing::infix(first, &left, &right), rest)
}

#[cfg(test)]
mod tests {
    extern crate std;
    use super::Drawing;
    use std::string::String;
    use std::vec::Vec;
    use std::{format, vec};

    /// In these trees 03 is a prefix operator.
    fn drawing(record: &[u8]) -> String {
        let mut text = String::new();
        Drawing::of_record(record, |operator| operator == 3).write_indented(&mut text).unwrap();
        text
    }

    #[test]
    fn the_first_tree_of_readme() {
        let text = r"
       00
      /  \
    80    01
         /  \
       03    82
       |
       81";
        assert_eq!(drawing(&[0, 0x80, 1, 3, 0x81, 0x82]), text);
    }

    /// Operands that would touch are further apart.
    #[test]
    fn wide_operands() {
        let text = r"
            01
           /  \
          /    \
         /      \
       00        02
      /  \      /  \
    80    81  82    83";
        assert_eq!(drawing(&[1, 0, 0x80, 0x81, 2, 0x82, 0x83]), text);
    }

    /// All records of trees of so many nodes.
    fn records(nodes: usize) -> Vec<Vec<u8>> {
        if nodes < 2 {
            return vec![vec![0xff; nodes]; nodes];
        }
        let mut found: Vec<Vec<u8>> = records(nodes - 1).into_iter().map(|only| [vec![3], only].concat()).collect();
        for left in 1..nodes - 1 {
            for left_record in records(left) {
                let rights = records(nodes - 1 - left).into_iter();
                found.extend(rights.map(|right| [&[1], &left_record[..], &right].concat()));
            }
        }
        found
    }

    /// There is room for every tree of up to seven nodes, and all of them are to be seen.
    #[test]
    fn every_tree_of_seven_nodes() {
        for record in (1..=7).flat_map(records) {
            let text = drawing(&record);
            let mut seen: Vec<&str> = text.split(|character: char| !character.is_ascii_hexdigit()).collect();
            seen.retain(|label| !label.is_empty());
            seen.sort_unstable();
            let mut nodes: Vec<String> = record.iter().map(|node| format!("{node:02x}")).collect();
            nodes.sort_unstable();
            assert_eq!(seen, nodes, "{text}");
            assert!(text.lines().all(|line| line == line.trim_end()), "{text}");
        }
    }
}
