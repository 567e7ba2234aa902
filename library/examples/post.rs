//! Posts one line: `cargo run --example post`.

use kurvneist::{round_robin, Engine, Refusal, Request};

fn main() -> Result<(), Refusal> {
    // both(end, Y) gives Y; both(tick(X), Y) gives tick(both(X, Y))
    let book = b"\x03\x02\x52\xc0\x94\x80\x10\x08\x01\x18\x80\x80\x30\x88\x04\x05\x08\x80";
    let line = [2, 1, 0, 1, 0]; // both(tick(end), tick(end))
    let schedule = round_robin(2, 100);
    let request = Request::new(book, &line)
        .units(2)
        .budget(9)
        .schedule(&schedule);
    let mut engine = Engine::new();
    let posting = engine.post(&request)?;
    println!("{}: {:?}", posting.answer.ending, posting.term);
    let (granted, kept) = (posting.answer.granted, posting.answer.kept);
    println!("FORKs granted {granted}, kept {kept}");
    Ok(())
}
