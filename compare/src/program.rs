//! The program `judge`, as `rt check` and `rt ci` leave it, beside the second program.

use std::io::Write;
use std::process::{Command, Stdio};
use std::thread;

const PROGRAM: &str = concat!(env!("CARGO_MANIFEST_DIR"), "/../target/bin/judge");

/// What the program prints, its input given in pieces of so many bytes; none if it ends badly or complains.
fn library(input: &[u8], piece: usize) -> Option<Vec<u8>> {
    let mut child = Command::new(PROGRAM)
        .stdin(Stdio::piped())
        .stdout(Stdio::piped())
        .stderr(Stdio::piped())
        .spawn()
        .expect("the program, as rt check leaves it");
    let mut stdin = child.stdin.take().expect("a pipe");
    let output = thread::scope(|scope| {
        // A refused rule ends the program before all is read: a write that fails is no fault.
        scope.spawn(move || {
            let mut pieces = input.chunks(piece);
            let _ = pieces.try_for_each(|piece| stdin.write_all(piece));
        });
        child.wait_with_output().expect("an end")
    });
    (output.status.success() && output.stderr.is_empty()).then_some(output.stdout)
}

fn second(input: &[u8]) -> Vec<u8> {
    let mut output = Vec::new();
    second::judge_input(input, &mut output).expect("a write to memory");
    output
}

/// What the two print, both at work at once.
pub fn both(input: &[u8], piece: usize) -> (Option<Vec<u8>>, Option<Vec<u8>>) {
    thread::scope(|scope| {
        let library = scope.spawn(move || library(input, piece));
        let second = second(input);
        (library.join().expect("an outcome"), Some(second))
    })
}

/// What kind of answer each printed line is; the line of the counts is none.
pub fn answers(output: &[u8]) -> Vec<String> {
    let text = String::from_utf8_lossy(output);
    let kind = |line: &str| match line.split(' ').collect::<Vec<_>>()[..] {
        ["rule", ..] => None,
        ["refused", number, _] => Some(format!("refused {number}")),
        ["refused", number, _, wanted] => Some(format!("refused {number} {wanted}")),
        ["fit", "none" | "empty"] => Some(line.to_string()),
        ["fit", _] => Some("fit dates".to_string()),
        [_, word] => Some(word.to_string()),
        _ => Some(line.to_string()),
    };
    text.lines().filter_map(kind).collect()
}
