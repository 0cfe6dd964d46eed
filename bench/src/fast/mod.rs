//! The panel for speed: bit rows, a stack of waiting operators, no recursion, no allocation. A call answers a length or a number.

mod claim;
mod evaluate;
mod explain;
mod prefixed;
mod record;
mod row;
mod sheet;

pub use explain::explain;
use sheet::Sheet;

pub type Answer = Result<usize, u8>;

/// The sheet in force, the stage, the images of the places, and how many tokens each held row has.
#[derive(Clone)]
pub struct Panel {
    sheet: Sheet,
    stage: Sheet,
    is_staged: bool,
    places: [[u8; 256]; 16],
    tokens: [u8; 16],
}

impl Default for Panel {
    fn default() -> Panel {
        let sheet = Sheet::fresh();
        Panel { stage: sheet.clone(), sheet, is_staged: false, places: [[0; 256]; 16], tokens: [0; 16] }
    }
}

impl Panel {
    #[inline(never)]
    pub fn stage(&mut self, n: u8, bytes: &[u8]) -> Result<(), u8> {
        self.stage = sheet::judge(n, bytes)?;
        self.is_staged = true;
        Ok(())
    }

    #[inline(never)]
    pub fn switch(&mut self) -> Result<(), u8> {
        if !self.is_staged {
            return Err(15);
        }
        // The operators that the staged sheet lacks, or has with another kind.
        let gone = self.sheet.all & (!self.stage.all | self.sheet.prefixes ^ self.stage.prefixes);
        if gone != 0 && self.in_use(gone) {
            return Err(11);
        }
        self.sheet.clone_from(&self.stage);
        self.is_staged = false;
        for place in 0..16 {
            self.rebuild(place);
        }
        Ok(())
    }

    /// Whether a held tree uses one of these operators.
    fn in_use(&self, operators: u32) -> bool {
        let is_one = |byte: u8| byte < 32 && operators >> byte & 1 == 1;
        let held = |image: &[u8; 256]| image[1..1 + usize::from(image[0])].iter().any(|&byte| is_one(byte));
        self.places.iter().any(held)
    }

    /// The held tree becomes the conflict-free tree of its row.
    fn rebuild(&mut self, place: usize) {
        let (length, tokens) = (usize::from(self.places[place][0]), usize::from(self.tokens[place]));
        // A tree of at most three bytes is the only one of its row.
        if length <= 3 {
            return;
        }
        let mut row = [0; 256];
        record::write_row(&self.sheet, &self.places[place][1..1 + length], &mut row);
        row::build(&self.sheet, &row[..tokens], &mut self.places[place][1..1 + length]);
    }

    #[inline(never)]
    pub fn put_row(&mut self, place: u8, row: &[u8]) -> Result<(), u8> {
        if place > 15 {
            return Err(8);
        }
        let length = row::check(&self.sheet, row)?;
        self.store(usize::from(place), row, length);
        Ok(())
    }

    #[inline(never)]
    pub fn put_record(&mut self, place: u8, bytes: &[u8]) -> Result<(), u8> {
        if place > 15 {
            return Err(8);
        }
        let tokens = record::check(&self.sheet, bytes)?;
        let mut row = [0; 256];
        record::write_row(&self.sheet, bytes, &mut row);
        self.store(usize::from(place), &row[..tokens], bytes.len());
        Ok(())
    }

    #[inline(never)]
    pub fn put_claim(&mut self, place: u8, row: &[u8], bytes: &[u8]) -> Result<(), u8> {
        let image = self.places.get_mut(usize::from(place)).ok_or(8)?;
        claim::check(&self.sheet, row, bytes)?;
        image[0] = bytes.len() as u8;
        image[1..1 + bytes.len()].copy_from_slice(bytes);
        image[1 + bytes.len()..].fill(0);
        self.tokens[usize::from(place)] = row.len() as u8;
        Ok(())
    }

    /// The place gets the image of the row's tree, whose record has `length` bytes.
    fn store(&mut self, place: usize, row: &[u8], length: usize) {
        let image = &mut self.places[place];
        image[0] = length as u8;
        row::build(&self.sheet, row, &mut image[1..1 + length]);
        image[1 + length..].fill(0);
        self.tokens[place] = row.len() as u8;
    }

    #[inline(never)]
    pub fn drop_place(&mut self, place: u8) -> Result<(), u8> {
        self.held(place)?;
        self.places[usize::from(place)] = [0; 256];
        Ok(())
    }

    /// The record held at a place.
    fn held(&self, place: u8) -> Result<&[u8], u8> {
        let image = self.places.get(usize::from(place)).ok_or(8)?;
        if image[0] == 0 {
            return Err(9);
        }
        Ok(&image[1..1 + usize::from(image[0])])
    }

    #[inline(never)]
    pub fn fetch_record(&self, place: u8, out: &mut [u8]) -> Answer {
        let record = self.held(place)?;
        out.get_mut(..record.len()).ok_or(10)?.copy_from_slice(record);
        Ok(record.len())
    }

    #[inline(never)]
    pub fn fetch_row(&self, place: u8, out: &mut [u8]) -> Answer {
        let record = self.held(place)?;
        let tokens = usize::from(self.tokens[usize::from(place)]);
        record::write_row(&self.sheet, record, out.get_mut(..tokens).ok_or(10)?);
        Ok(tokens)
    }

    #[inline(never)]
    pub fn image(&self, place: u8, out: &mut [u8]) -> Answer {
        let image = self.places.get(usize::from(place)).ok_or(8)?;
        out.get_mut(..256).ok_or(10)?.copy_from_slice(image);
        Ok(256)
    }

    #[inline(never)]
    pub fn build(&self, row: &[u8], out: &mut [u8]) -> Answer {
        let length = row::check(&self.sheet, row)?;
        row::build(&self.sheet, row, out.get_mut(..length).ok_or(10)?);
        Ok(length)
    }

    #[inline(never)]
    pub fn repair(&self, bytes: &[u8], out: &mut [u8]) -> Answer {
        let tokens = record::check(&self.sheet, bytes)?;
        let out = out.get_mut(..bytes.len()).ok_or(10)?;
        let mut row = [0; 256];
        record::write_row(&self.sheet, bytes, &mut row);
        row::build(&self.sheet, &row[..tokens], out);
        Ok(bytes.len())
    }

    #[inline(never)]
    pub fn yield_row(&self, bytes: &[u8], out: &mut [u8]) -> Answer {
        let tokens = record::check(&self.sheet, bytes)?;
        record::write_row(&self.sheet, bytes, out.get_mut(..tokens).ok_or(10)?);
        Ok(tokens)
    }

    #[inline(never)]
    pub fn shortest_row(&self, bytes: &[u8], out: &mut [u8]) -> Answer {
        let tokens = record::check(&self.sheet, bytes)?;
        let (mut row, mut tree) = ([0; 256], [0; 256]);
        record::write_row(&self.sheet, bytes, &mut row);
        row::build(&self.sheet, &row[..tokens], &mut tree[..bytes.len()]);
        let tree = &tree[..bytes.len()];
        let length = match self.sheet.prefixes {
            0 => record::write_shortest(&self.sheet, tree, &mut row),
            _ => prefixed::write_shortest(&self.sheet, tree, &mut row),
        };
        out.get_mut(..length).ok_or(10)?.copy_from_slice(&row[..length]);
        Ok(length)
    }

    #[inline(never)]
    pub fn judge(&self, bytes: &[u8]) -> Result<u8, u8> {
        record::check(&self.sheet, bytes)?;
        Ok(match self.sheet.prefixes {
            0 => record::conflicts(&self.sheet, bytes),
            _ => prefixed::conflicts(&self.sheet, bytes),
        })
    }

    #[inline(never)]
    pub fn operand<'a>(&self, bytes: &'a [u8], right: bool) -> Result<&'a [u8], u8> {
        record::check(&self.sheet, bytes)?;
        Ok(record::operand(&self.sheet, bytes, right))
    }

    /// The left and the right power.
    #[inline(never)]
    pub fn powers(&self, operator: u8) -> Result<(u8, u8), u8> {
        self.sheet.powers(operator)
    }

    #[inline(never)]
    pub fn evaluate(&self, place: u8, meanings: &[u8], readings: &[i32]) -> Result<i32, u8> {
        evaluate::evaluate(&self.sheet, self.held(place)?, meanings, readings)
    }
}
