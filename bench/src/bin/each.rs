//! Makes the calls whose instructions are counted, each once for every input: trees of 255 tokens under eight groups of operators.
//! With the word `prefixed` as argument, trees with prefix operators.
use tihvomen::{Panel, Side};
use tihvomen_bench::cases::{kinds, meanings, readings, records, rows, sheet, Shape, SHAPES};

const TOKENS: usize = 255;

fn main() {
    let prefixed = std::env::args().nth(1).is_some_and(|word| word == "prefixed");
    let shapes = if prefixed { vec![Shape::Prefixed] } else { SHAPES.map(|(_, shape)| shape).to_vec() };
    let mut panel = Panel::new();
    let (mut built, mut out) = ([0; 300], [0; 300]);
    let (meanings, readings) = (meanings(&kinds(prefixed)), readings());
    assert!(panel.stage(32, &sheet(prefixed, 8)).is_ok() && panel.switch().is_ok());
    let mut made = 0;
    for shape in shapes {
        for (row, record) in rows(TOKENS, shape).iter().zip(&records(TOKENS, shape)) {
            let length = panel.build_into(row, &mut built).expect("the rows are accepted");
            let accepted = [
                panel.put_claim(3, row, &built[..length]).is_ok(),
                panel.put_row(3, row).is_ok(),
                panel.fetch_row_into(3, &mut out).is_ok(),
                panel.repair_into(record, &mut out).is_ok(),
                panel.yield_row_into(record, &mut out).is_ok(),
                panel.judge(record).is_ok(),
                panel.operand(record, Side::Right).is_ok(),
                panel.shortest_row_into(record, &mut out).is_ok(),
                panel.evaluate(3, &meanings, &readings).is_ok(),
            ];
            assert!(!accepted.contains(&false));
            made += 1;
        }
    }
    println!("{made}");
}
