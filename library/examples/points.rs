//! Parks a run before a holiday and goes on with it after: `cargo run --example points`.

use std::error::Error;

use kurvneist::{round_robin, Engine, Points, Posting, Request};

fn main() -> Result<(), Box<dyn Error>> {
    // both(end, Y) gives Y; both(tick(X), Y) gives tick(both(X, Y))
    let book = b"\x03\x02\x52\xc0\x94\x80\x10\x08\x01\x18\x80\x80\x30\x88\x04\x05\x08\x80";
    // both(tick(end), tick(end)), of which twelve entries are carried out.
    let schedule = round_robin(2, 12);
    let request = Request::new(book, &[2, 1, 0, 1, 0]).units(2).budget(9);
    let mut engine = Engine::new();
    let mut points = Points::new();
    let posting = engine.park(&request.schedule(&schedule), b"may", &mut points)?;
    tell("parked", &posting);

    // The bytes are kept, in a file say.
    let mut points = Points::from_bytes(points.into_bytes())?;
    for name in points.names() {
        println!("there is {}", String::from_utf8_lossy(name));
    }
    let posting = engine.resume(b"may", &round_robin(2, 100), &mut points)?;
    tell("resumed", &posting);
    println!("names left: {}", points.names().count());
    Ok(())
}

fn tell(what: &str, posting: &Posting) {
    let answer = posting.answer;
    println!(
        "{what}: {}, entries {}, rewrites {}, term {:?}",
        answer.ending, answer.entries, answer.rewrites, posting.term
    );
}
