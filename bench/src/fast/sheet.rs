//! Judging a sheet: tables of bit rows, priority chained, and the tests of them a word at a time.

pub const OPENING: u8 = 0x20;
pub const CLOSING: u8 = 0x21;

/// No operator: stands for a reading or a bracket where a top is asked for.
pub const NONE: usize = 32;

// What a byte is, as bits that the row's and the record's checks add up.
/// It stands where an operand begins.
pub const BEGINS: u8 = 1;
/// An operand begins after it.
pub const ASKS: u8 = 2;
/// It has no meaning under the sheet.
pub const STRANGE: u8 = 4;

/// Bit b of `closes[a]`: R(a,b) is excluded. Bit a of `open[b]`: L(a,b) is. Both are 0 at `NONE`, and have no bit of a prefix
/// operator.
#[derive(Clone)]
pub struct Sheet {
    /// Which operators there are, and which of them are prefix operators.
    pub all: u32,
    pub prefixes: u32,
    pub closes: [u32; 33],
    pub open: [u32; 33],
    pub class: [u8; 256],
}

impl Sheet {
    pub fn fresh() -> Sheet {
        Sheet { all: 0, prefixes: 0, closes: [0; 33], open: [0; 33], class: CLASSES }
    }

    /// How many trees more are to come in a record after a byte: one for an infix operator, one less for a reading.
    #[inline]
    pub fn step(&self, byte: u8) -> i32 {
        let class = self.class[usize::from(byte)];
        i32::from(class >> 1 & 1) - i32::from(class & 1)
    }

    /// The left and the right power of an infix operator; or 3.
    #[inline]
    pub fn powers(&self, operator: u8) -> Result<(u8, u8), u8> {
        if operator > 31 || self.infix() >> operator & 1 == 0 {
            return Err(3);
        }
        let row = self.closes[usize::from(operator)];
        let below = |c: usize| row >> c & !(self.closes[c] >> operator) & 1;
        let left = 2 + 2 * (0..32).map(below).sum::<u32>() as u8;
        Ok((left, left - (row >> operator & 1 ^ 1) as u8))
    }

    /// The infix operators.
    #[inline]
    pub fn infix(&self) -> u32 {
        self.all & !self.prefixes
    }

    #[inline]
    pub fn is_prefix(&self, operator: u8) -> bool {
        self.prefixes >> (operator & 31) & 1 == 1
    }
}

const CLASSES: [u8; 256] = {
    let mut class = [STRANGE; 256];
    let mut byte = 0x80;
    while byte < 256 {
        class[byte] = BEGINS;
        byte += 1;
    }
    class[OPENING as usize] = BEGINS | ASKS;
    class[CLOSING as usize] = 0;
    class
};

/// The sheet of n operators, n kind bytes and rules, which are not judged; or 1, 2 or 3.
#[inline]
pub fn read(n: u8, bytes: &[u8]) -> Result<Sheet, u8> {
    let rules = bytes.get(usize::from(n)..).unwrap_or(&[]);
    if n > 32 || rules.len() > 6144 {
        return Err(1);
    }
    if bytes.len() < usize::from(n) || rules.len() % 3 != 0 {
        return Err(2);
    }
    let (mut prefixes, mut strange) = (0u32, false);
    for (operator, &kind) in bytes[..usize::from(n)].iter().enumerate() {
        strange |= kind > 1;
        prefixes |= u32::from(kind & 1) << operator;
    }
    // By kind: bit b of row a for a rule of a and b, and bit a of row b.
    let (mut ahead, mut back) = ([[0u32; 32]; 4], [[0u32; 32]; 4]);
    for rule in rules.chunks_exact(3) {
        let (kind, a, b) = (rule[0], rule[1], rule[2]);
        strange |= kind.wrapping_sub(1) > 2 || a >= n || b >= n;
        ahead[usize::from(kind & 3)][usize::from(a & 31)] |= 1 << (b & 31);
        back[usize::from(kind & 3)][usize::from(b & 31)] |= 1 << (a & 31);
    }
    if strange {
        return Err(3);
    }
    chain(&mut ahead[1][..usize::from(n)]);
    chain(&mut back[1][..usize::from(n)]);
    let mut sheet = Sheet { all: ((1u64 << n) - 1) as u32, prefixes, ..Sheet::fresh() };
    let infix = sheet.infix();
    for a in 0..32 {
        sheet.closes[a] = (ahead[1][a] | ahead[2][a]) & infix;
        sheet.open[a] = (back[1][a] | back[3][a]) & infix;
    }
    Ok(sheet)
}

/// The same, if it is accepted; or 1, 2, 3, 4 or 5.
pub fn judge(n: u8, bytes: &[u8]) -> Result<Sheet, u8> {
    let mut sheet = read(n, bytes)?;
    let infix = sheet.infix();
    let (closes, open) = (&sheet.closes[..usize::from(n)], &sheet.open[..usize::from(n)]);
    let mut both = 0;
    let mut either = infix;
    for (&closes, &open) in closes.iter().zip(open) {
        both |= closes & open;
        either &= closes | open;
    }
    if both != 0 {
        return Err(4);
    }
    if either != infix || !is_level(closes, infix) {
        return Err(5);
    }
    for operator in 0..n {
        sheet.class[usize::from(operator)] = if sheet.is_prefix(operator) { BEGINS | ASKS } else { ASKS };
    }
    Ok(sheet)
}

/// Where a row has k, it gets all that k's row has.
fn chain(rows: &mut [u32]) {
    for k in 0..rows.len() {
        let of_k = rows[k];
        for row in rows.iter_mut() {
            *row |= of_k & (*row >> k & 1).wrapping_neg();
        }
    }
}

/// If a closes before an infix b, b's row lies within a's, else a's within b's.
fn is_level(closes: &[u32], infix: u32) -> bool {
    let mut outside = 0;
    for &of_a in closes {
        for (b, &of_b) in closes.iter().enumerate() {
            let inner = if of_a >> b & 1 == 1 { of_b } else { of_a };
            outside |= (of_a ^ of_b) & inner & (infix >> b & 1).wrapping_neg();
        }
    }
    outside == 0
}
