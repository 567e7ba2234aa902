//! Posts a line and charges it, as a payment and as its refund: `cargo run --example fees`.

use kurvneist::{Engine, FeeTable, Fees, Refusal, Request};

fn main() -> Result<(), Refusal> {
    // both(end, Y) gives Y; both(tick(X), Y) gives tick(both(X, Y))
    let book = b"\x03\x02\x52\xc0\x94\x80\x10\x08\x01\x18\x80\x80\x30\x88\x04\x05\x08\x80";
    let line = [2, 1, 0, 1, 0]; // both(tick(end), tick(end)), posted as tick(tick(end))
    let request = Request::new(book, &line).budget(9).schedule(&[0; 100]);
    // Nothing for end, 3.5 per cent for tick; both has no rate.
    let table: FeeTable = [0, 350].into_iter().collect();
    let fees = Fees::new(table.as_bytes(), &[3333, 3333, 3334]);
    let mut engine = Engine::new();
    for amount in [10_100, -10_100, 2_000_000_000_000] {
        match engine.settle(&request, &fees, amount) {
            Ok(settled) => match settled.charge {
                Some(charge) => println!("{amount}: fee {}, {:?}", charge.fee, charge.parts()),
                None => println!("{amount}: {}", settled.posting.answer.ending),
            },
            Err(refusal) => println!("{amount}: {refusal}"),
        }
    }
    Ok(())
}
