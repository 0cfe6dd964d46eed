//! What the independent side takes from theory, held against longer rows and against all trees of a row.
use crate::expression::{Expression, Piece};
use crate::inputs::{self, Make};
use crate::random::Random;
use crate::sheet::{Sheet, ENOUGH_OPERATORS};
use crate::stagings;
use crate::tree::Side;

/// The kinds of n operators: a prefix one where the bit is set.
pub fn kinds_of_bits(n: u8, bits: usize) -> Vec<u8> {
    (0..n).map(|operator| (bits >> operator & 1) as u8).collect()
}

/// Rules of n operators that exclude the patterns whose bits are set: first L, then R, pair by pair.
fn rules_of_bits(n: u8, bits: u64) -> Vec<u8> {
    let mut rules = Vec::new();
    for a in 0..n {
        for b in 0..n {
            let pair = 2 * (u64::from(a) * u64::from(n) + u64::from(b));
            if bits >> pair & 1 == 1 {
                rules.extend([3, a, b]);
            }
            if bits >> (pair + 1) & 1 == 1 {
                rules.extend([2, a, b]);
            }
        }
    }
    rules
}

fn sheet_of_bits(kinds: &[u8], bits: u64) -> Sheet {
    Sheet::of_rules(kinds, &rules_of_bits(kinds.len() as u8, bits))
}

/// Every sheet over one and two operators, and many over three, of every kind: rows with more operators, and with prefix
/// operators anywhere, change no verdict.
#[test]
fn three_operators_decide() {
    for prefixes in 0..2 {
        for bits in 0..4 {
            let sheet = sheet_of_bits(&kinds_of_bits(1, prefixes), bits);
            assert_eq!(sheet.verdict(), sheet.verdict_upto(7));
        }
    }
    for prefixes in 0..4 {
        for bits in 0..256 {
            let sheet = sheet_of_bits(&kinds_of_bits(2, prefixes), bits);
            assert_eq!(sheet.verdict(), sheet.verdict_upto(6));
        }
    }
    let mut random = Random::new(1);
    for prefixes in 0..7 {
        let mut seen = [0; 6];
        for _ in 0..if prefixes == 0 { 3000 } else { 500 } {
            // Each pair is excluded one way, or now and then both ways or none: sheets near the accepted ones.
            let one_way = [1, 2, 1, 2, 1, 2, 1, 2, 1, 2, 0, 3];
            let bits = (0..9).fold(0, |bits, pair| bits | one_way[random.below(12)] << (2 * pair));
            let sheet = sheet_of_bits(&kinds_of_bits(3, prefixes), turned(bits));
            seen[usize::from(sheet.verdict())] += 1;
            assert_eq!(sheet.verdict(), sheet.verdict_upto(5));
        }
        assert!(seen[0] > 0 && seen[4] > 0 && seen[5] > 0, "{seen:?}");
    }
    let fewer = |sheet: &Sheet| sheet.verdict() != sheet.verdict_upto(ENOUGH_OPERATORS - 1);
    assert!((0..256).any(|bits| fewer(&sheet_of_bits(&[0, 0], bits))), "two operators are not enough");
}

/// The bits of L(b,a) and R(a,b) stand side by side in the argument; the answer has L(a,b) and R(a,b) side by side.
fn turned(bits: u64) -> u64 {
    let mut answer = 0;
    for a in 0..3 {
        for b in 0..3 {
            answer |= (bits >> (2 * (3 * a + b)) & 1) << (2 * (3 * b + a));
            answer |= (bits >> (2 * (3 * a + b) + 1) & 1) << (2 * (3 * a + b) + 1);
        }
    }
    answer
}

/// How many trees have each infix operator at the top; at 32, how many have none there.
type Tops = [usize; 33];

/// How many conflict-free trees a row has, of any length, counted up to 2: for each stretch of pieces and each infix operator at its
/// top, the trees of its left part times the trees of its right part. A stretch is counted twice: by itself, and where the infix
/// operator after it looks along its right edge for prefix operators.
fn conflict_free_trees(sheet: &Sheet, expression: &Expression) -> usize {
    let pieces = &expression.pieces;
    let mut counts = vec![vec![[[0; 33]; 2]; pieces.len() + 1]; pieces.len()];
    let allowed = |side, top: u8, tops: &Tops| {
        let keeps = |below: &usize| *below == 32 || !sheet.excluded(side, top, *below as u8);
        (0..33).filter(|below| tops[*below] > 0 && keeps(below)).map(|below| tops[below]).sum::<usize>()
    };
    for first in (0..pieces.len()).rev() {
        let alone = match &pieces[first] {
            Piece::Reading(_) => 1,
            Piece::Bracketed(inner) => conflict_free_trees(sheet, inner),
            _ => 0,
        };
        for past in first + 1..=pieces.len() {
            if matches!(pieces[first], Piece::Infix(_)) || pieces[past - 1].operator().is_some() {
                continue;
            }
            let after = pieces.get(past).and_then(Piece::operator);
            for (looked_at, looks) in [None, after].into_iter().enumerate() {
                let mut tops: Tops = [0; 33];
                tops[32] = match &pieces[first] {
                    Piece::Prefix(operator) if looks.is_some_and(|top| sheet.excluded(Side::Left, top, *operator)) => 0,
                    Piece::Prefix(operator) => {
                        allowed(Side::Right, *operator, &counts[first + 1][past][looked_at]).min(2)
                    }
                    _ if past == first + 1 => alone,
                    _ => 0,
                };
                for at in first + 1..past {
                    if let Piece::Infix(top) = pieces[at] {
                        let left = allowed(Side::Left, top, &counts[first][at][1]);
                        let right = allowed(Side::Right, top, &counts[at + 1][past][looked_at]);
                        let cell = &mut tops[usize::from(top)];
                        *cell = (*cell + left * right).min(2);
                    }
                }
                counts[first][past][looked_at] = tops;
            }
        }
    }
    counts[0][pieces.len()][0].iter().sum::<usize>().min(2)
}

/// Under sheets that the verdict accepts, rows up to full length have exactly one conflict-free tree.
#[test]
fn accepted_sheets_give_long_rows_one_tree() {
    let mut random = Random::new(2);
    for _ in 0..150 {
        let n = 1 + random.below(32) as u8;
        let staging = stagings::good(&mut random, n);
        let sheet = Sheet::of_rules(&staging.kinds, &staging.rules);
        assert_eq!(sheet.verdict(), 0);
        let tokens = [255, 101, 63, 31][random.below(4)];
        let row = inputs::tree(&mut random, &Make::of(&staging.kinds, 2, 5, 25), tokens).row();
        let expression = Expression::of_row(&row, &staging.kinds).unwrap();
        assert_eq!(conflict_free_trees(&sheet, &expression), 1, "{row:02x?}");
    }
}

/// The count over stretches is the count of all trees, on short rows under any sheet.
#[test]
fn counts_agree_with_all_trees() {
    let mut random = Random::new(3);
    for _ in 0..3000 {
        let n = 1 + random.below(3) as u8;
        let kinds = kinds_of_bits(n, random.below(8));
        let sheet = sheet_of_bits(&kinds, random.below(1 << 18) as u64);
        let tokens = 1 + 2 * random.below(7);
        let row = inputs::tree(&mut random, &Make::of(&kinds, 2, 15, 25), tokens).row();
        let expression = Expression::of_row(&row, &kinds).unwrap();
        let trees = expression.all_trees();
        assert_eq!(expression.tree_count(usize::MAX - 1), trees.len(), "{row:02x?}");
        let free = trees.iter().filter(|tree| sheet.conflicts(tree) == 0).count();
        assert_eq!(conflict_free_trees(&sheet, &expression), free.min(2), "{row:02x?}");
    }
}
