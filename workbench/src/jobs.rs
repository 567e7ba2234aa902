//! Work on several threads, with its results in order.

use std::sync::mpsc::{sync_channel, Receiver, SyncSender};
use std::thread;

/// So many items may be under way for each thread.
const AHEAD: usize = 4;

/// Does `work` on each item of `next` on so many threads, each with a `state`
/// of its own, and hands the results to `put` in the items' order.
///
/// Item k goes to thread k modulo `jobs`, so that the order needs no sorting,
/// and the bound on what is under way keeps memory from growing with the items.
pub fn in_order<Item: Send, Made: Send, State, Failure>(
    jobs: usize,
    mut next: impl FnMut() -> Result<Option<Item>, Failure>,
    state: impl Fn() -> State + Sync,
    work: impl Fn(&mut State, Item) -> Made + Sync,
    mut put: impl FnMut(Made) -> Result<(), Failure>,
) -> Result<(), Failure> {
    thread::scope(|scope| {
        let mut lanes: Vec<(SyncSender<Item>, Receiver<Made>)> = Vec::new();
        for _ in 0..jobs {
            let (to, items) = sync_channel(AHEAD);
            let (results, from) = sync_channel(AHEAD);
            let (state, work) = (&state, &work);
            scope.spawn(move || {
                let mut state = state();
                // Nobody listens any more once the whole has failed.
                for item in items {
                    if results.send(work(&mut state, item)).is_err() {
                        break;
                    }
                }
            });
            lanes.push((to, from));
        }
        let (mut sent, mut done, mut more) = (0, 0, true);
        loop {
            while more && sent - done < jobs * AHEAD {
                match next()? {
                    Some(item) => {
                        let (to, _) = &lanes[sent % jobs];
                        to.send(item).expect("a thread takes items to the end");
                        sent += 1;
                    }
                    None => more = false,
                }
            }
            if done == sent {
                return Ok(());
            }
            let (_, from) = &lanes[done % jobs];
            put(from.recv().expect("a thread answers each item"))?;
            done += 1;
        }
    })
}
