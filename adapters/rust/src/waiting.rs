//! How a thread waits in `block_on`: it stands in for the thread of the connection that its future waits for, or it is parked.
//!
//! A future that waits for a connection says so as it is polled. Who stands in at the socket hears what comes there for all, and is woken as any other.

use crate::{ffi, shared::Shared};
use std::{
    cell::RefCell,
    future::Future,
    io::{self, Read, Write},
    os::{fd::AsRawFd, unix::net::UnixStream},
    pin::pin,
    ptr,
    sync::{
        atomic::{AtomicU8, Ordering::AcqRel, Ordering::Acquire},
        Arc, OnceLock,
    },
    task::{Context, Poll, Wake, Waker},
    thread::{self, Thread},
};

/// What ends a wait at a socket, of one thread of one process.
struct Signal {
    calls: UnixStream,
    called: UnixStream,
    forks: usize,
}

impl Signal {
    fn new() -> io::Result<Signal> {
        let (calls, called) = UnixStream::pair()?;
        calls.set_nonblocking(true)?;
        called.set_nonblocking(true)?;
        Ok(Signal { calls, called, forks: ffi::forks() })
    }

    // This thread's, which is made once; none where there are no more files, or the thread ends.
    fn own() -> Option<Arc<Signal>> {
        thread_local!(static OWN: RefCell<Option<Arc<Signal>>> = const { RefCell::new(None) });
        let found = OWN.try_with(|own| {
            let mut own = own.borrow_mut();
            if own.as_ref().is_none_or(|it| it.forks != ffi::forks()) {
                *own = Signal::new().ok().map(Arc::new);
            }
            own.clone()
        });
        found.ok().flatten()
    }
}

const AWAKE: u8 = 0;
const WOKEN: u8 = 1;
const PARKED: u8 = 2;
const STANDS_IN: u8 = 3;

/// A thread in `block_on`.
pub struct Caller {
    thread: Thread,
    stage: AtomicU8,
    signal: OnceLock<Option<Arc<Signal>>>,
}

impl Wake for Caller {
    fn wake(self: Arc<Self>) {
        self.wake_by_ref()
    }

    fn wake_by_ref(self: &Arc<Self>) {
        match self.stage.swap(WOKEN, AcqRel) {
            PARKED => self.thread.unpark(),
            STANDS_IN => self.signal().into_iter().for_each(|it| drop((&it.calls).write(&[0]))),
            _ => {}
        }
    }
}

impl Caller {
    fn signal(&self) -> Option<&Signal> {
        self.signal.get_or_init(Signal::own).as_deref()
    }

    /// Whether it can wait at a socket.
    pub fn can_stand_in(&self) -> bool {
        self.signal().is_some()
    }

    /// Waits at a socket, unless it was woken: whether the socket can be read.
    pub fn waits_at(&self, socket: &impl AsRawFd, writing: bool) -> bool {
        let Some(signal) = self.signal() else { return false };
        if self.stage.compare_exchange(AWAKE, STANDS_IN, AcqRel, Acquire).is_err() {
            return false;
        }
        let (readable, called) = ffi::wait(socket.as_raw_fd(), writing, signal.called.as_raw_fd());
        let _ = self.stage.compare_exchange(STANDS_IN, AWAKE, AcqRel, Acquire);
        if called {
            let _ = (&signal.called).read(&mut [0; 64]);
        }
        readable
    }

    // Waits until it was woken; it stands in where nobody does so already.
    fn waits(&self, place: Option<Arc<Shared>>) {
        while self.stage.compare_exchange(WOKEN, AWAKE, AcqRel, Acquire).is_err() {
            if place.as_ref().is_some_and(|it| it.stand_in(self)) {
                continue;
            }
            if self.stage.compare_exchange(AWAKE, PARKED, AcqRel, Acquire).is_ok() {
                thread::park();
                let _ = self.stage.compare_exchange(PARKED, AWAKE, AcqRel, Acquire);
            }
        }
    }
}

// What is polled by this thread's `block_on`: by whose waker, and the connection that it waits for.
struct Polled {
    waker: *const (),
    place: Option<Arc<Shared>>,
}

thread_local!(static POLLED: RefCell<Polled> = const { RefCell::new(Polled { waker: ptr::null(), place: None }) });

// Sets what is polled, and once it is dropped what was before.
struct Polls(Polled);

impl Polls {
    fn by(waker: &Waker) -> Polls {
        Polls(POLLED.replace(Polled { waker: waker.data(), place: None }))
    }

    fn place(&self) -> Option<Arc<Shared>> {
        POLLED.with_borrow_mut(|it| it.place.take())
    }
}

impl Drop for Polls {
    fn drop(&mut self) {
        let before = Polled { waker: self.0.waker, place: self.0.place.take() };
        drop(POLLED.try_with(|it| it.replace(before)));
    }
}

/// Whether this is the waker by which this thread's `block_on` polls: it waits next.
pub fn is_own(waker: &Waker) -> bool {
    POLLED.try_with(|it| it.borrow().waker == waker.data()).unwrap_or(false)
}

/// What is polled by this waker waits for this connection.
pub fn waits_for(shared: &Arc<Shared>, waker: &Waker) {
    if is_own(waker) {
        let before = POLLED.try_with(|it| it.borrow_mut().place.replace(shared.clone()));
        drop(before);
    }
}

/// Runs a future on this thread to its end. While it waits for a connection alone, it reads the connection's socket in the place of its thread.
pub fn block_on<T>(future: impl Future<Output = T>) -> T {
    let mut future = pin!(future);
    let caller = Arc::new(Caller { thread: thread::current(), stage: AWAKE.into(), signal: OnceLock::new() });
    let waker = Waker::from(caller.clone());
    loop {
        let polls = Polls::by(&waker);
        let polled = future.as_mut().poll(&mut Context::from_waker(&waker));
        let place = polls.place();
        drop(polls);
        match polled {
            Poll::Ready(value) => return value,
            Poll::Pending => caller.waits(place),
        }
    }
}
