//! Document 01's book, with document 02's requests: it is fed the calls alone and finds every number and answer itself.
use crate::evaluate::evaluate;
use crate::expression::Expression;
use crate::sheet::Sheet;
use crate::tree::{is_of_kind, is_operator, is_reading, Side, Tree, CLOSING, INFIX, OPENING, PREFIX};

/// A call with its arguments. `bytes` are the kinds and rules of a sheet, `room` is the length of the lent output.
#[derive(Clone, Debug)]
pub enum Call {
    Stage { n: u8, bytes: Vec<u8> },
    Switch,
    PutRow { place: u8, row: Vec<u8> },
    PutRecord { place: u8, record: Vec<u8> },
    PutClaim { place: u8, row: Vec<u8>, record: Vec<u8> },
    Drop { place: u8 },
    FetchRecord { place: u8, room: usize },
    FetchRow { place: u8, room: usize },
    Image { place: u8, room: usize },
    Build { row: Vec<u8>, room: usize },
    Repair { record: Vec<u8>, room: usize },
    Yield { record: Vec<u8>, room: usize },
    Judge { record: Vec<u8> },
    Operand { record: Vec<u8>, side: Side },
    ShortestRow { record: Vec<u8>, room: usize },
    Evaluate { place: u8, meanings: Vec<u8>, readings: Vec<i32> },
    Powers { operator: u8 },
}

/// A call's number, and what it answers: output bytes, the count as one byte, the value as four, both powers, or the operand's part.
#[derive(Clone, Debug, PartialEq)]
pub struct Reply {
    pub number: u8,
    pub answer: Vec<u8>,
    /// Where an operand's part begins; 0 for all else.
    pub offset: usize,
}

/// An answer, or the number of the first refusal that applies.
type Found = Result<Vec<u8>, u8>;

#[derive(Clone)]
pub struct Book {
    pub sheet: Sheet,
    /// The sheet that is noted beside, where one is.
    pub staged: Option<Sheet>,
    pub slots: [Option<Vec<u8>>; 16],
}

impl Book {
    pub fn new() -> Book {
        Book { sheet: Sheet::of_rules(&[], &[]), staged: None, slots: Default::default() }
    }

    /// What the call is answered, read off the book as it stands before the call.
    pub fn reply(&self, call: &Call) -> Reply {
        let mut offset = 0;
        let found = match call {
            Call::Stage { n, bytes } => sheet_number(*n, bytes).map(|_| Vec::new()),
            Call::Switch => self.switch().map(|_| Vec::new()),
            Call::PutRow { place, row } => self.place(*place).and_then(|_| self.row(row)).map(|_| Vec::new()),
            Call::PutRecord { place, record } => {
                self.place(*place).and_then(|_| self.record(record)).map(|_| Vec::new())
            }
            Call::PutClaim { place, row, record } => {
                self.place(*place).and_then(|_| self.claim(row, record)).map(|_| Vec::new())
            }
            Call::Drop { place } => self.held(*place).map(|_| Vec::new()),
            Call::FetchRecord { place, room } => self.held(*place).and_then(|row| fits(self.built(row), *room)),
            Call::FetchRow { place, room } => self.held(*place).and_then(|row| fits(row.clone(), *room)),
            Call::Image { place, room } => self.place(*place).and_then(|slot| fits(self.image(slot), *room)),
            Call::Build { row, room } => self.row(row).and_then(|row| fits(self.built(&row), *room)),
            Call::Repair { record, room } => self.record(record).and_then(|tree| fits(self.built(&tree.row()), *room)),
            Call::Yield { record, room } => self.record(record).and_then(|tree| fits(tree.row(), *room)),
            Call::ShortestRow { record, room } => {
                self.record(record).and_then(|tree| fits(self.sheet.shortest_row(&tree.row()), *room))
            }
            Call::Judge { record } => self.record(record).map(|tree| vec![self.sheet.conflicts(&tree) as u8]),
            Call::Evaluate { place, meanings, readings } => self.held(*place).and_then(|row| {
                let value = evaluate(&self.sheet.tree_of(row), meanings, readings)?;
                Ok(value.to_be_bytes().to_vec())
            }),
            Call::Powers { operator } => self.sheet.powers(*operator).map(Vec::from),
            Call::Operand { record, side } => self.record(record).map(|tree| {
                let part = tree.operand(*side).map_or(Vec::new(), Tree::record);
                offset = if *side == Side::Left { 1 } else { record.len() - part.len() };
                part
            }),
        };
        match found {
            Ok(answer) => Reply { number: 0, answer, offset },
            Err(number) => Reply { number, answer: Vec::new(), offset: 0 },
        }
    }

    /// The book after a call with this number.
    pub fn note(&mut self, call: &Call, number: u8) {
        if number != 0 {
            return;
        }
        match call {
            Call::Stage { n, bytes } => {
                let (kinds, rules) = bytes.split_at(usize::from(*n));
                self.staged = Some(Sheet::of_rules(kinds, rules));
            }
            Call::Switch => self.sheet = self.staged.take().expect("a switch without a staged sheet is 15"),
            Call::PutRow { place, row } | Call::PutClaim { place, row, .. } => {
                self.slots[usize::from(*place)] = Some(row.clone());
            }
            Call::PutRecord { place, record } => {
                self.slots[usize::from(*place)] = self.sheet.tree_of_record(record).map(|tree| tree.row());
            }
            Call::Drop { place } => self.slots[usize::from(*place)] = None,
            _ => (),
        }
    }

    /// The record of the row's conflict-free tree.
    pub fn built(&self, row: &[u8]) -> Vec<u8> {
        self.sheet.tree_of(row).record()
    }

    /// Record length, record, then 00; all 00 when empty.
    pub fn image(&self, slot: &Option<Vec<u8>>) -> Vec<u8> {
        let record = slot.as_ref().map_or(Vec::new(), |row| self.built(row));
        let mut image = vec![record.len() as u8];
        image.extend(record);
        image.resize(256, 0);
        image
    }

    /// Switch: 15, 11.
    fn switch(&self) -> Result<(), u8> {
        let kinds = &self.staged.as_ref().ok_or(15)?.kinds;
        let used = self.kinds_in_use();
        if (0..).zip(used).any(|(operator, kind)| kind.is_some_and(|kind| !is_of_kind(kinds, operator, kind))) {
            return Err(11);
        }
        Ok(())
    }

    /// The kinds of the operators that held trees use, in the operators' order; none for the others.
    pub fn kinds_in_use(&self) -> Vec<Option<u8>> {
        let is_used = |operator: u8| self.slots.iter().flatten().flatten().any(|&token| token == operator);
        (0..).zip(&self.sheet.kinds).map(|(operator, &kind)| is_used(operator).then_some(kind)).collect()
    }

    /// Row: 1, 3, 6.
    fn row(&self, row: &[u8]) -> Found {
        if row.len() > 255 {
            return Err(1);
        }
        if row.iter().any(|&token| !self.has_meaning(token)) {
            return Err(3);
        }
        if Expression::of_row(row, &self.sheet.kinds).is_none() {
            return Err(6);
        }
        Ok(row.to_vec())
    }

    /// Record: 1 (its bytes), 3, 7, 1 (its row).
    fn record(&self, record: &[u8]) -> Result<Tree, u8> {
        if record.len() > 255 {
            return Err(1);
        }
        if record.iter().any(|&byte| !self.has_meaning(byte) || byte == CLOSING) {
            return Err(3);
        }
        let tree = self.sheet.tree_of_record(record).ok_or(7)?;
        if tree.row().len() > 255 {
            return Err(1);
        }
        Ok(tree)
    }

    /// Claim: the row's list, the record's list, 16, 17.
    fn claim(&self, row: &[u8], record: &[u8]) -> Result<(), u8> {
        let row = self.row(row)?;
        let tree = self.record(record)?;
        if tree.row() != row {
            return Err(16);
        }
        if self.sheet.conflicts(&tree) != 0 {
            return Err(17);
        }
        Ok(())
    }

    fn has_meaning(&self, token: u8) -> bool {
        is_operator(token) && token < self.sheet.n() || token == OPENING || token == CLOSING || is_reading(token)
    }

    /// The place's slot: 8.
    fn place(&self, place: u8) -> Result<&Option<Vec<u8>>, u8> {
        self.slots.get(usize::from(place)).ok_or(8)
    }

    /// The row in the place's slot: 8, 9.
    fn held(&self, place: u8) -> Result<&Vec<u8>, u8> {
        self.place(place)?.as_ref().ok_or(9)
    }
}

/// Sheet: 1, 2, 3, 4, 5.
fn sheet_number(n: u8, bytes: &[u8]) -> Result<(), u8> {
    let count = usize::from(n);
    let rules = bytes.get(count..).unwrap_or(&[]);
    if n > 32 || rules.len() > 6144 {
        return Err(1);
    }
    if bytes.len() < count || rules.len() % 3 != 0 {
        return Err(2);
    }
    let kinds = &bytes[..count];
    let strange_kind = kinds.iter().any(|kind| ![INFIX, PREFIX].contains(kind));
    if strange_kind || rules.chunks(3).any(|rule| !(1..=3).contains(&rule[0]) || rule[1] >= n || rule[2] >= n) {
        return Err(3);
    }
    match Sheet::of_rules(kinds, rules).verdict() {
        0 => Ok(()),
        verdict => Err(verdict),
    }
}

/// 10 where the answer does not fit.
fn fits(answer: Vec<u8>, room: usize) -> Found {
    if room < answer.len() {
        return Err(10);
    }
    Ok(answer)
}
