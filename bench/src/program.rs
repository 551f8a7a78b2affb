//! The program `judge` beside a straightforward Rust program that answers by the same tables.

use crate::timing::{best, report};
use crate::walking;
use second::generator::{states_text, Random, FIXED_SEED};
use second::FINITE;
use std::fs::{self, File};
use std::io::{self, BufRead, BufWriter, Write};
use std::path::Path;
use std::process::{Command, Stdio};

const PROGRAM: &str = concat!(env!("CARGO_MANIFEST_DIR"), "/../target/bin/judge");
const FOLDER: &str = concat!(env!("CARGO_MANIFEST_DIR"), "/target");
const LINES: usize = 1_000_000;
const DATES: usize = 40;

fn digit(byte: u8) -> Option<u8> {
    match byte {
        b'0'..=b'9' => Some(byte - b'0'),
        b'a'..=b'f' => Some(byte - b'a' + 10),
        _ => None,
    }
}

/// The dates of a line, if it is a series.
fn series(line: &[u8], dates: &mut Vec<u8>) -> bool {
    dates.clear();
    if line.len() % 2 != 0 || line.len() > 8192 {
        return false;
    }
    for pair in line.chunks(2) {
        let (Some(high), Some(low)) = (digit(pair[0]), digit(pair[1])) else {
            return false;
        };
        dates.push(high * 16 + low);
    }
    true
}

/// Answers standard input as `judge` does, for a rule that is read and built.
pub fn answer() -> io::Result<()> {
    let mut input = io::stdin().lock();
    let mut output = BufWriter::with_capacity(1 << 16, io::stdout().lock());
    let mut line = Vec::new();
    input.read_until(b'\n', &mut line)?;
    let text = line.strip_suffix(b"\n").unwrap_or(&line);
    let own = walking::tables_of(FINITE, text);
    let tables = own.lend();
    writeln!(
        output,
        "rule {} states {} edges",
        tables.states, tables.edge_count
    )?;
    let mut dates = Vec::new();
    let mut number = 0u64;
    loop {
        line.clear();
        if input.read_until(b'\n', &mut line)? == 0 {
            break;
        }
        number += 1;
        let text = line.strip_suffix(b"\n").unwrap_or(&line);
        let word = if !series(text, &mut dates) {
            "bad"
        } else if walking::walk(&tables, &dates) {
            "yes"
        } else {
            "no"
        };
        writeln!(output, "{number} {word}")?;
    }
    let mut fit = [0u8; 127];
    match second::fit(&tables, &mut fit).expect("good tables") {
        None => writeln!(output, "fit none"),
        Some(0) => writeln!(output, "fit empty"),
        Some(dates) => {
            let hex: String = fit[..dates]
                .iter()
                .map(|date| format!("{date:02x}"))
                .collect();
            writeln!(output, "fit {hex}")
        }
    }?;
    output.flush()
}

fn run(program: &Path, arguments: &[&str], input: &Path, output: &Path) {
    let status = Command::new(program)
        .args(arguments)
        .stdin(Stdio::from(File::open(input).expect("the input")))
        .stdout(Stdio::from(File::create(output).expect("the output")))
        .status();
    assert!(status.expect("an end").success());
}

fn compare(text: &[u8], random: &mut Random) {
    let states = walking::tables_of(FINITE, text).states;
    let input = Path::new(FOLDER).join("lines.txt");
    let outputs = [
        Path::new(FOLDER).join("proved.txt"),
        Path::new(FOLDER).join("rust.txt"),
    ];
    let mut bytes = text.to_vec();
    for _ in 0..LINES {
        bytes.push(b'\n');
        for _ in 0..DATES {
            bytes.extend(format!("{:02x}", random.byte()).bytes());
        }
    }
    fs::write(&input, bytes).expect("room for the input");
    let own = std::env::current_exe().expect("this program");
    let times = best(
        || run(Path::new(PROGRAM), &[], &input, &outputs[0]),
        || run(&own, &["judge"], &input, &outputs[1]),
    );
    let [proved, rust] = outputs.map(|output| fs::read(output).expect("an output"));
    assert!(proved == rust, "the outputs differ");
    let lines = LINES as f64;
    println!(
        "judge: {:.0} lines a second, Rust {:.0}",
        lines / times.0,
        lines / times.1
    );
    report(
        &format!("judge, {states} states, {DATES} dates a line"),
        "line",
        LINES,
        times,
    );
}

pub fn bench() {
    let mut random = Random::new(FIXED_SEED);
    compare(b"G (a -> F b)", &mut random);
    compare(b"G (a | X X X X b)", &mut random);
    compare(&states_text(128), &mut random);
}
