//! Posts a few lines by one book, which is read once: `cargo run --example lines`.

use std::error::Error;

use kurvneist::{Batch, Engine, Lines};

fn main() -> Result<(), Box<dyn Error>> {
    // both(end, Y) gives Y; both(tick(X), Y) gives tick(both(X, Y))
    let book = b"\x03\x02\x52\xc0\x94\x80\x10\x08\x01\x18\x80\x80\x30\x88\x04\x05\x08\x80";
    let mut lines = Lines::new();
    lines.push(&[2, 1, 0, 1, 0])?; // both(tick(end), tick(end))
    lines.push(&[7])?; // no operator of the book
    lines.push(&[2, 1, 0, 1, 1, 0])?; // both(tick(end), tick(tick(end)))
    let batch = Batch::new(book).budget(9).schedule(&[0; 100]);
    let mut engine = Engine::new();
    for posting in engine.post_lines(&batch, &lines)? {
        match posting {
            Ok(posting) => println!("{}: {:?}", posting.answer.ending, posting.term),
            Err(refusal) => println!("{refusal}"),
        }
    }
    Ok(())
}
