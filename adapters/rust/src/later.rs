//! What is done once a connection's lock is free: wakers are woken, delegates called, and what was the user's is dropped. A panic of theirs ends
//! there.

use crate::{
    channel::Opened,
    consumer::ConsumerDelegate,
    message::DeliveryResult,
    openings::Fed,
    runtime::{BoxFuture, Executor},
    shared::locked,
};
use std::{
    collections::VecDeque,
    mem,
    panic::{catch_unwind, AssertUnwindSafe},
    sync::{Arc, Mutex},
    task::Waker,
};

/// A delegate, and what it wasn't given yet.
pub struct Dispatch {
    delegate: Arc<dyn ConsumerDelegate>,
    // And whether it is being called.
    queue: Mutex<(VecDeque<DeliveryResult>, bool)>,
}

/// What is to be done. The fields behind the first two are dropped alone, since whose they are may want the lock then.
#[derive(Default)]
pub struct Later {
    pub wakers: Vec<Waker>,
    given: Vec<Arc<Dispatch>>,
    pub kept: Vec<Arc<Opened>>,
    pub ended: Vec<Arc<Dispatch>>,
    pub gone: Vec<Fed>,
}

impl Later {
    /// Hands something to a delegate, which is called once the lock is free.
    pub fn give(&mut self, dispatch: &Arc<Dispatch>, found: DeliveryResult) {
        let mut queue = locked(&dispatch.queue);
        queue.0.push_back(found);
        if !mem::replace(&mut queue.1, true) {
            self.given.push(dispatch.clone());
        }
    }

    /// Does it.
    pub fn happens(self, executor: &Arc<dyn Executor>) {
        for dispatch in self.given {
            let (given, on) = (dispatch.clone(), executor.clone());
            let future: BoxFuture = Box::pin(async move { given.run(&*on) });
            if catch_unwind(AssertUnwindSafe(|| executor.spawn_boxed(future))).is_err() {
                locked(&dispatch.queue).1 = false; // the executor took nothing: it is tried again with what comes next
            }
        }
        for waker in self.wakers {
            let _ = catch_unwind(AssertUnwindSafe(|| waker.wake()));
        }
    }
}

impl Dispatch {
    pub fn new(delegate: Arc<dyn ConsumerDelegate>) -> Arc<Dispatch> {
        Arc::new(Dispatch { delegate, queue: Mutex::default() })
    }

    // Calls the delegate for each message in its order, on the executor; what it gives runs there beside.
    fn run(&self, executor: &dyn Executor) {
        loop {
            let found = {
                let mut queue = locked(&self.queue);
                let found = queue.0.pop_front();
                queue.1 = found.is_some();
                found
            };
            let Some(found) = found else { return };
            if let Ok(future) = catch_unwind(AssertUnwindSafe(|| self.delegate.on_new_delivery(found))) {
                let _ = catch_unwind(AssertUnwindSafe(|| executor.spawn_boxed(future)));
            }
        }
    }
}

/// A call of the user's that is made once the lock is free, as a waker is.
pub struct Calls(pub Mutex<Option<Box<dyn FnOnce() + Send>>>);

impl std::task::Wake for Calls {
    fn wake(self: Arc<Self>) {
        if let Some(call) = locked(&self.0).take() {
            call();
        }
    }
}

impl Calls {
    pub fn waker(call: Box<dyn FnOnce() + Send>) -> Waker {
        Waker::from(Arc::new(Calls(Mutex::new(Some(call)))))
    }
}
