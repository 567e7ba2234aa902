//! Says of two books whether the order of their rules is free: `cargo run --example strict`.

use kurvneist::{strict_book, NotStrict};

fn main() {
    // both(end, Y) gives Y; both(tick(X), Y) gives tick(both(X, Y))
    let ticks = b"\x03\x02\x52\xc0\x94\x80\x10\x08\x01\x18\x80\x80\x30\x88\x04\x05\x08\x80";
    // The same, and both(X, end) gives X
    let argued =
        b"\x03\x02\x52\xc0\x94\x80\x18\x08\x01\x18\x80\x80\x30\x88\x04\x05\x08\x80\xa0\x00\x80";
    for book in [&ticks[..], argued] {
        match strict_book(book) {
            Ok(()) => println!("the order of the rules is free"),
            Err(NotStrict {
                pair: Some([first, second]),
                ..
            }) => println!("rules {first} and {second} match one term"),
            Err(fault) => println!("{fault}"),
        }
    }
}
