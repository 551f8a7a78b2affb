//! Ratios of the proved library to the same work in Rust, in one run.

mod building;
#[path = "../../compare/src/library.rs"]
#[allow(dead_code)]
mod library;
mod plain;
mod program;
mod reading;
mod timing;
mod walking;

fn main() {
    if std::env::args().nth(1).as_deref() == Some("judge") {
        program::answer().expect("a readable input and a writable output");
        return;
    }
    reading::bench();
    plain::bench();
    walking::bench();
    building::bench();
    program::bench();
}
