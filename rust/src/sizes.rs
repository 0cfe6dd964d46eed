//! How many there are, how long things get, and which byte is which token or kind. Each is named once; the rest follows.

/// Places are numbered from 0 up to this.
pub const PLACES: u8 = 16;

/// A sheet has at most so many operators; they are the bytes from 0 up to their number.
pub const MOST_OPERATORS: u8 = 32;

/// The kind byte of an infix operator, which stands between two operands.
pub const INFIX: u8 = 0;

/// The kind byte of a prefix operator, which stands before its only operand.
pub const PREFIX: u8 = 1;

/// A sheet has at most so many rules.
pub const MOST_RULES: usize = 2048;

/// Room for every row and every record.
pub const MOST_TOKENS: usize = 255;

/// Room for every explanation of a sheet: the verdict, a row of seven tokens and two records of it.
pub const MOST_EXPLAINED: usize = 1 + 3 * 7;

/// The length of an image: a record's length and the record.
pub const IMAGE_BYTES: usize = 1 + MOST_TOKENS;

/// A line has at most so many characters: kind, number of operators, their kinds and rules of three bytes, two digits a byte.
pub const MOST_LINE: usize = 2 * (2 + MOST_OPERATORS as usize + 3 * MOST_RULES);

/// Room for every reply to a line: number and answer, two digits a byte.
pub const MOST_REPLY: usize = 2 * (1 + IMAGE_BYTES);

/// The bracket that opens, in a row; in a record it stands for the pair.
pub const OPENING: u8 = 0x20;

/// The bracket that closes, in a row.
pub const CLOSING: u8 = 0x21;

/// The first reading; all bytes from it on are readings.
pub const FIRST_READING: u8 = 0x80;

/// What a sheet takes, in words of 32 bits.
pub(crate) const SHEET_WORDS: usize = 36;

/// What the places take.
pub(crate) const STORE_BYTES: usize = PLACES as usize * IMAGE_BYTES;
