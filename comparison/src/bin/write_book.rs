//! Puts the book on standard input to the static library's writer and prints its answer: `refused N`, or the written book in hexadecimal.

use std::io::{self, Read};

use comparison::vectors::write_line;
use kurvneist::raw;

/// No written book is longer than the one that was read.
fn written(book: &[u8]) -> Result<Vec<u8>, u8> {
    let mut output = vec![0; book.len()];
    let mut length = 0;
    match raw::write_book(book, &mut output, &mut length) {
        0 => {
            output.truncate(usize::try_from(length).expect("a length fits"));
            Ok(output)
        }
        number => Err(number),
    }
}

fn main() -> io::Result<()> {
    let mut book = Vec::new();
    io::stdin().read_to_end(&mut book)?;
    print!("{}", write_line(&written(&book)));
    Ok(())
}
