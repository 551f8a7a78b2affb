//! The program `judge`, from any input to any output.

use crate::fitting::{fit, FIT_SIZE};
use crate::profile::FINITE;
use crate::reading::read;
use crate::tables::{build_own, OwnTables};
use crate::tree::Refusal;
use crate::walking::judge_tables;
use std::io::{BufRead, Error, Result, Write};

const MOST_DATES: usize = 4096;

/// The next line without its newline; none at the end of the input.
fn next_line(input: &mut impl BufRead) -> Result<Option<Vec<u8>>> {
    let mut line = Vec::new();
    if input.read_until(b'\n', &mut line)? == 0 {
        return Ok(None);
    }
    if line.last() == Some(&b'\n') {
        line.pop();
    }
    Ok(Some(line))
}

fn hex_digit(byte: u8) -> Option<u8> {
    match byte {
        b'0'..=b'9' => Some(byte - b'0'),
        b'a'..=b'f' => Some(byte - b'a' + 10),
        _ => None,
    }
}

/// The series a line stands for; none for a bad line.
fn series_of(line: &[u8]) -> Option<Vec<u8>> {
    if line.len() % 2 == 1 || line.len() / 2 > MOST_DATES {
        return None;
    }
    line.chunks_exact(2)
        .map(|pair| Some(hex_digit(pair[0])? << 4 | hex_digit(pair[1])?))
        .collect()
}

fn tables_of_line(line: &[u8]) -> std::result::Result<OwnTables, Refusal> {
    let rule = read(FINITE, line)?;
    build_own(&rule).map_err(|number| Refusal::at(number, 0))
}

fn refused_line(refusal: Refusal) -> String {
    let line = format!("refused {} {}", refusal.number, refusal.place);
    match refusal.wanted {
        None => line,
        Some(wanted) => format!("{line} {}", wanted.word()),
    }
}

fn fit_word(found: Option<&[u8]>) -> String {
    match found {
        None => "none".to_string(),
        Some([]) => "empty".to_string(),
        Some(series) => series.iter().map(|date| format!("{date:02x}")).collect(),
    }
}

fn unexpected(number: u8) -> Error {
    Error::other(format!("built tables refused with {number}"))
}

fn report(tables: &OwnTables, mut input: impl BufRead, mut output: impl Write) -> Result<()> {
    writeln!(
        output,
        "rule {} states {} edges",
        tables.states, tables.edge_count
    )?;
    let mut number = 0u64;
    while let Some(line) = next_line(&mut input)? {
        number += 1;
        let answer = series_of(&line).map(|series| judge_tables(&tables.lend(), &series));
        let word = match answer.transpose().map_err(unexpected)? {
            None => "bad",
            Some(true) => "yes",
            Some(false) => "no",
        };
        writeln!(output, "{number} {word}")?;
    }
    let mut room = [0; FIT_SIZE];
    let length = fit(&tables.lend(), &mut room).map_err(unexpected)?;
    writeln!(
        output,
        "fit {}",
        fit_word(length.map(|length| &room[..length]))
    )
}

/// Judges every series of the input by the rule on its first line.
pub fn judge_input(mut input: impl BufRead, mut output: impl Write) -> Result<()> {
    let line = next_line(&mut input)?.unwrap_or_default();
    match tables_of_line(&line) {
        Ok(tables) => report(&tables, input, &mut output)?,
        Err(refusal) => writeln!(output, "{}", refused_line(refusal))?,
    }
    output.flush()
}
