//! Asks how long a schedule suffices, and runs on so many rounds: `cargo run --example bound`.

use kurvneist::{Bound, Engine, Refusal, Request};

fn main() -> Result<(), Refusal> {
    // both(end, Y) gives Y; both(tick(X), Y) gives tick(both(X, Y))
    let ticks = b"\x03\x02\x52\xc0\x94\x80\x10\x08\x01\x18\x80\x80\x30\x88\x04\x05\x08\x80";
    // A constant, and 1(X), which gives 1(1(X)), for ever.
    let growing = b"\x02\x02\x01\x00\xc0\x02\x01\x80";
    tell(&Request::new(ticks, &[2, 1, 0, 1, 0]).budget(9))?; // both(tick(end), tick(end))
    tell(&Request::new(growing, &[1, 0]))
}

fn tell(request: &Request) -> Result<(), Refusal> {
    let mut engine = Engine::new();
    let enough = match engine.bound(request)? {
        Bound::Told(enough) => enough,
        Bound::Unknown(ending) => {
            println!("not known: one unit ends {ending}");
            return Ok(());
        }
        _ => return Ok(()),
    };
    println!("S {}, F {}", enough.orders, enough.forks);
    for units in [1, 2, 8] {
        let schedule = enough.schedule(units);
        let posting = engine.post(&request.units(units).schedule(&schedule))?;
        let (ending, used) = (posting.answer.ending, posting.answer.entries);
        println!("{units}: {ending} after {used} of {}", schedule.len());
    }
    Ok(())
}
