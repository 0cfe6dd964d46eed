//! Prints the stream of frames that the line programs are timed on. The number of lines is the argument; with the word `prefixed`
//! after it, there are prefix operators among the others.
use std::io::Write;
use tihvomen_bench::{cases, frames};

fn main() -> std::io::Result<()> {
    let lines = std::env::args().nth(1).and_then(|count| count.parse().ok()).unwrap_or(200_000);
    let prefixed = std::env::args().nth(2).is_some_and(|word| word == "prefixed");
    std::io::stdout().write_all(&frames::stream(lines, &cases::kinds(prefixed)))
}
