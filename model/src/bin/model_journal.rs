//! The same as the program `journal`, by the model: standard input to standard output.

use std::io::{Read, Write};

fn main() {
    let mut input = Vec::new();
    // What was read before an error is the input.
    let _ = std::io::stdin().read_to_end(&mut input);
    let output = model::page::page(&input);
    std::io::stdout()
        .write_all(output.as_bytes())
        .expect("standard output takes the page");
}
