//! Posts a payee as four people type it; all four come out alike: `cargo run --example payee`.

use kurvneist::{Engine, Refusal, Request};

fn main() -> Result<(), Refusal> {
    // 43 operators: 0 without arguments, and 1 to 42 with one each. One rule: 42(X) gives X, so that it doesn't matter
    // where words are parted.
    let book = [&[43, 0x02][..], &[0x22; 20], &[0x20, 0x11, 0x54, 0x20]].concat();
    // In ISO 8859-1, E9 is é and C9 its capital.
    let payees: [&[u8]; 4] = [
        b"Caf\xE9 \xC9toile",
        b"CAFE ETOILE",
        b" caf\xE9-\xE9toile.",
        b"CafeEtoile",
    ];
    let mut engine = Engine::new();
    for text in payees {
        let request = Request::new(&book, text).budget(9).schedule(&[0; 100]);
        let posting = engine.post_payee(&request)?;
        println!("{}: {:?}", posting.answer.ending, posting.term);
    }
    Ok(())
}
