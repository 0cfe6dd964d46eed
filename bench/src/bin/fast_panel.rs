//! The program `panel` written for speed: input and output in blocks, one fast panel between them.
use std::io::{self, Read, Write};
use tihvomen_bench::line::{Lines, MOST_CHARACTERS};

const BLOCK: usize = 1 << 16;

/// Where the next line end stands, eight bytes at a time.
fn line_end(bytes: &[u8]) -> Option<usize> {
    const ENDS: u64 = 0x0A0A_0A0A_0A0A_0A0A;
    const LOWS: u64 = 0x0101_0101_0101_0101;
    const HIGHS: u64 = 0x8080_8080_8080_8080;
    for (block, eight) in bytes.chunks_exact(8).enumerate() {
        let word = u64::from_le_bytes(eight.try_into().unwrap()) ^ ENDS;
        let zeros = word.wrapping_sub(LOWS) & !word & HIGHS;
        if zeros != 0 {
            return Some(8 * block + zeros.trailing_zeros() as usize / 8);
        }
    }
    let tail = bytes.len() / 8 * 8;
    bytes[tail..].iter().position(|&byte| byte == b'\n').map(|at| tail + at)
}

fn main() -> io::Result<()> {
    let (mut input, mut output) = (io::stdin().lock(), io::stdout().lock());
    let mut lines = Lines::default();
    let mut replies = Vec::with_capacity(2 * BLOCK);
    // The beginning of a line whose end is not read yet. Of a line that is too long, no more than shows it is kept.
    let mut kept: Vec<u8> = Vec::with_capacity(BLOCK);
    let mut block = vec![0; BLOCK];
    loop {
        let count = input.read(&mut block)?;
        if count == 0 {
            break;
        }
        let mut rest = &block[..count];
        while let Some(end) = line_end(rest) {
            if kept.is_empty() {
                lines.reply(&rest[..end], &mut replies);
            } else {
                keep(&mut kept, &rest[..end]);
                lines.reply(&kept, &mut replies);
                kept.clear();
            }
            rest = &rest[end + 1..];
            if replies.len() >= BLOCK {
                output.write_all(&replies)?;
                replies.clear();
            }
        }
        keep(&mut kept, rest);
    }
    if !kept.is_empty() {
        lines.reply(&kept, &mut replies);
    }
    output.write_all(&replies)
}

fn keep(kept: &mut Vec<u8>, more: &[u8]) {
    let room = (MOST_CHARACTERS + 1).saturating_sub(kept.len());
    kept.extend_from_slice(&more[..more.len().min(room)]);
}
