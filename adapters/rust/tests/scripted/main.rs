//! A connection against a broker that plays a script: what is told whom, and when; and what needs no broker.

mod alone;
#[path = "../common/mod.rs"]
mod common;
mod consumers;
mod endings;
mod many;
mod publishes;
mod waits;

use std::{
    future::Future,
    pin::pin,
    sync::{
        atomic::{AtomicUsize, Ordering::SeqCst},
        Arc,
    },
    task::{Context, Poll, Wake, Waker},
    thread,
    time::{Duration, Instant},
};

#[derive(Default)]
struct Counter(AtomicUsize);

impl Wake for Counter {
    fn wake(self: Arc<Self>) {
        self.0.fetch_add(1, SeqCst);
    }
}

// Polls once: what is there, and how often its waker was called since.
fn polled<F: Future>(future: F, count: &Arc<Counter>) -> Poll<F::Output> {
    pin!(future).poll(&mut Context::from_waker(&Waker::from(count.clone())))
}

fn until(what: impl Fn() -> bool) -> bool {
    let end = Instant::now() + Duration::from_secs(30);
    while !what() && Instant::now() < end {
        thread::sleep(Duration::from_millis(5));
    }
    what()
}
