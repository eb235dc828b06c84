//! The line program of the second implementation: standard input to standard output.

use std::io::{Read, Write};

fn main() {
    let mut input = Vec::new();
    std::io::stdin().read_to_end(&mut input).expect("standard input");
    std::io::stdout().write_all(&second::lines::run(&input)).expect("standard output");
}
