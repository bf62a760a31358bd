//! Spreads work over two threads.

use std::sync::atomic::{AtomicU64, Ordering};
use std::thread;

/// Each thread makes a state of its own to work with; both come back. `work`
/// gets the number of a share, from 0 on.
pub fn shared<S: Send>(
    shares: u64,
    start: impl Fn() -> S + Sync,
    work: impl Fn(u64, &mut S) + Sync,
) -> [S; 2] {
    let next = AtomicU64::new(0);
    let thread = || {
        let mut state = start();
        loop {
            let share = next.fetch_add(1, Ordering::Relaxed);
            if share >= shares {
                return state;
            }
            work(share, &mut state);
        }
    };
    thread::scope(|scope| {
        let threads = [scope.spawn(thread), scope.spawn(thread)];
        threads.map(|thread| thread.join().expect("the work of a thread"))
    })
}
