//! Reads a rule and series from standard input and prints the answers.

use std::io::{stdin, stdout, BufWriter, Result};

fn main() -> Result<()> {
    second::judge_input(stdin().lock(), BufWriter::new(stdout().lock()))
}
