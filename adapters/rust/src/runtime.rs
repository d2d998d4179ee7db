//! Where futures run that nobody polls: those of delegates. Any executor will do; here is a small one of std alone.

use crate::{shared::locked, Result};
pub use crate::waiting::block_on;
use std::{
    collections::VecDeque,
    future::Future,
    panic::{catch_unwind, AssertUnwindSafe},
    pin::Pin,
    sync::{
        atomic::{
            AtomicU8,
            Ordering::{AcqRel, Acquire, Release},
        },
        Arc, Condvar, Mutex, OnceLock,
    },
    task::{Context, Poll, Wake, Waker},
    thread,
};

/// A future that somebody else runs.
pub type BoxFuture = Pin<Box<dyn Future<Output = ()> + Send>>;

/// What runs the futures of delegates. With tokio, whose handle is taken where its runtime is:
/// `let handle = tokio::runtime::Handle::current(); move |task| drop(handle.spawn(task))`.
pub trait Executor: Send + Sync + 'static {
    /// Runs it, soon, on a thread of its own.
    fn spawn_boxed(&self, future: BoxFuture);
}

impl<F: Fn(BoxFuture) + Send + Sync + 'static> Executor for F {
    fn spawn_boxed(&self, future: BoxFuture) {
        self(future)
    }
}

/// Threads that run tasks. They end with the last clone, once no task is left to be polled.
#[derive(Clone)]
pub struct Runtime(Arc<Owner>);

struct Owner(Arc<Pool>);

impl Drop for Owner {
    fn drop(&mut self) {
        locked(&self.0.ready).1 = true;
        self.0.more.notify_all();
    }
}

#[derive(Default)]
struct Pool {
    // The tasks that are to be polled, and whether nobody makes any more.
    ready: Mutex<(VecDeque<Arc<Task>>, bool)>,
    more: Condvar,
}

// A task is polled by one thread at a time; woken meanwhile, it is polled once more behind that.
const RESTS: u8 = 0;
const QUEUED: u8 = 1;
const RUNS: u8 = 2;
const WOKEN: u8 = 3;

struct Task {
    future: Mutex<Option<BoxFuture>>,
    stage: AtomicU8,
    pool: Arc<Pool>,
}

impl Wake for Task {
    fn wake(self: Arc<Self>) {
        let next = |stage| match stage {
            RESTS => Some(QUEUED),
            RUNS => Some(WOKEN),
            _ => None,
        };
        if self.stage.fetch_update(AcqRel, Acquire, next) == Ok(RESTS) {
            self.queue();
        }
    }
}

impl Task {
    fn queue(self: Arc<Self>) {
        let pool = self.pool.clone();
        locked(&pool.ready).0.push_back(self);
        pool.more.notify_one();
    }

    fn run(self: Arc<Self>) {
        self.stage.store(RUNS, Release);
        let waker = Waker::from(self.clone());
        let ended = {
            let mut place = locked(&self.future);
            let Some(future) = place.as_mut() else { return };
            // A task that panics ends alone.
            let polled = catch_unwind(AssertUnwindSafe(|| future.as_mut().poll(&mut Context::from_waker(&waker))));
            if matches!(polled, Ok(Poll::Pending)) { None } else { place.take() }
        };
        if ended.is_none() && self.stage.compare_exchange(RUNS, RESTS, AcqRel, Acquire).is_err() {
            self.stage.store(QUEUED, Release);
            self.queue();
        }
        let _ = catch_unwind(AssertUnwindSafe(|| drop(ended)));
    }
}

impl Pool {
    fn run(self: Arc<Self>) {
        loop {
            let mut ready = locked(&self.ready);
            let task = loop {
                match ready.0.pop_front() {
                    Some(task) => break task,
                    None if ready.1 => return,
                    None => ready = self.more.wait(ready).unwrap_or_else(|it| it.into_inner()),
                }
            };
            drop(ready);
            task.run();
        }
    }
}

/// A task's value, once it has ended. The task runs on where this is dropped.
pub struct JoinHandle<T>(Arc<Mutex<Joined<T>>>);

struct Joined<T> {
    value: Option<T>,
    waker: Option<Waker>,
    ended: bool,
}

impl<T> Future for JoinHandle<T> {
    type Output = T;

    fn poll(self: Pin<&mut Self>, cx: &mut Context<'_>) -> Poll<T> {
        let mut joined = locked(&self.0);
        match joined.value.take() {
            Some(value) => Poll::Ready(value),
            None if joined.ended => panic!("the task panicked, or its value was taken"),
            None => {
                joined.waker = Some(cx.waker().clone());
                Poll::Pending
            }
        }
    }
}

struct Ends<T>(Arc<Mutex<Joined<T>>>);

impl<T> Drop for Ends<T> {
    fn drop(&mut self) {
        let mut joined = locked(&self.0);
        joined.ended = true;
        let waker = joined.waker.take();
        drop(joined);
        if let Some(waker) = waker {
            waker.wake();
        }
    }
}

impl Runtime {
    /// So many threads.
    pub fn new(threads: usize) -> Result<Runtime> {
        let pool = Arc::new(Pool::default());
        for number in 0..threads {
            let pool = pool.clone();
            thread::Builder::new().name(format!("lapin-task-{number}")).spawn(move || pool.run())?;
        }
        Ok(Runtime(Arc::new(Owner(pool))))
    }

    /// Runs a future on them; dropped, what this answers runs on.
    pub fn spawn<T: Send + 'static>(&self, future: impl Future<Output = T> + Send + 'static) -> JoinHandle<T> {
        let joined = Arc::new(Mutex::new(Joined { value: None, waker: None, ended: false }));
        let ends = Ends(joined.clone());
        self.spawn_boxed(Box::pin(async move {
            let value = future.await;
            locked(&ends.0).value = Some(value);
        }));
        JoinHandle(joined)
    }

    /// Runs a future on this thread to its end.
    pub fn block_on<T>(&self, future: impl Future<Output = T>) -> T {
        block_on(future)
    }
}

impl Executor for Runtime {
    fn spawn_boxed(&self, future: BoxFuture) {
        Arc::new(Task { future: Mutex::new(Some(future)), stage: RESTS.into(), pool: self.0 .0.clone() }).wake();
    }
}

/// The threads that all connections of the process share, as many as there are processors.
pub fn default_runtime() -> Result<Runtime> {
    static SHARED: OnceLock<Runtime> = OnceLock::new();
    if let Some(runtime) = SHARED.get() {
        return Ok(runtime.clone());
    }
    let made = Runtime::new(thread::available_parallelism().map_or(2, |it| it.get()))?;
    Ok(SHARED.get_or_init(|| made).clone())
}
