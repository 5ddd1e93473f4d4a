//! Reads an image on standard input and prints its listing, or the fault as `7 part record`; with the argument
//! `commands` reads commands and prints their answers, a `?` for `witness`; with `steps` the same, and `witness` is
//! answered with steps that this program finds.
//! A further argument may be `full` or `short`: which lines a session is tried to plant (runs.rs).

mod book;
mod calls;
mod image;
mod layer;
mod questions;
mod replay;
mod runs;
mod script;
mod steps;

use runs::Extent;
use std::io::{BufRead, Read, Write};

fn list(extent: Extent) {
    let mut bytes = Vec::new();
    std::io::stdin().read_to_end(&mut bytes).expect("standard input");
    let text = match image::read(&bytes) {
        Ok(book) => questions::listing(&book, extent),
        Err(fault) => format!("{fault}\n"),
    };
    std::io::stdout().write_all(text.as_bytes()).expect("standard output");
}

fn commands(extent: Extent, finding: bool) {
    let mut console = script::Console::new(extent, finding);
    let mut to = std::io::BufWriter::new(std::io::stdout().lock());
    for line in std::io::stdin().lock().split(b'\n') {
        to.write_all(&console.line(&line.expect("standard input"))).expect("standard output");
    }
}

fn main() {
    let (mut extent, mut script, mut finding) = (Extent::BySize, false, false);
    for word in std::env::args().skip(1) {
        match word.as_str() {
            "commands" => script = true,
            "steps" => (script, finding) = (true, true),
            "full" => extent = Extent::Full,
            "short" => extent = Extent::Short,
            _ => {
                eprintln!("not `commands`, `steps`, `full` or `short`: {word}");
                std::process::exit(2);
            }
        }
    }
    if script {
        commands(extent, finding);
    } else {
        list(extent);
    }
}
