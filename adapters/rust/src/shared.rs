//! One connection as all that have it share it: its state under one lock, and the steps that futures take.
//!
//! Each step is one hold of the lock. Wakers, delegates and what a user gave are called once it is free again. In a process that was forked
//! nothing is touched: there is no thread of this connection there, and the lock may stand as it was.

use crate::{
    channel::Opened,
    consumer::ConsumerDelegate,
    error::{Error, ErrorKind, Result},
    ffi::{self, Limits, Session},
    message::Delivery,
    later::{Dispatch, Later},
    runtime::Executor,
    state::{now, Reply, Rest, State},
    status::{ChannelState, ConnectionState},
    waiting,
};
use std::{
    collections::VecDeque,
    io::{self, Write},
    mem,
    os::unix::net::UnixStream,
    sync::{Arc, Mutex, MutexGuard},
    task::{Context, Poll, Waker},
    time::{Duration, Instant},
};

/// A lock is taken also where a thread panicked under it: what it guards is whole between two calls of the session.
pub fn locked<T: ?Sized>(mutex: &Mutex<T>) -> MutexGuard<'_, T> {
    mutex.lock().unwrap_or_else(|poisoned| poisoned.into_inner())
}

/// Above so many bytes that have not left, a publish waits.
pub const FULL: usize = 1 << 20;
/// How long the broker may take for the answer to a close.
const PATIENCE: Duration = Duration::from_secs(10);

pub struct Shared {
    pub vhost: String,
    pub username: String,
    executor: Arc<dyn Executor>,
    state: Mutex<State>,
    wake: UnixStream,
    forks: usize,
}

impl Shared {
    pub fn new(vhost: String, username: String, limits: Limits, executor: Arc<dyn Executor>, wake: UnixStream) -> Arc<Shared> {
        Arc::new(Shared { vhost, username, executor, state: Mutex::new(State::new(limits)), wake, forks: ffi::forks() })
    }

    fn is_forked(&self) -> bool {
        self.forks != ffi::forks()
    }

    /// Does something under the lock, and what follows from it behind it; none in a process that was forked.
    pub fn with<T>(&self, act: impl FnOnce(&mut State, &mut Later) -> T) -> Option<T> {
        if self.is_forked() {
            return None;
        }
        let mut later = Later::default();
        let value = act(&mut locked(&self.state), &mut later);
        later.happens(&self.executor);
        Some(value)
    }

    // The same of what can fail.
    pub fn step<T>(&self, act: impl FnOnce(&mut State, &mut Later) -> Result<T>) -> Result<T> {
        self.with(act).unwrap_or_else(|| Err(forked()))
    }

    // What was queued is to leave: at once by whoever is about to wait for it, where nobody else waits; by who queues it, where nothing left lately;
    // else by the thread, which takes together what many queue.
    pub fn leaves(self: &Arc<Self>, state: &mut State, later: &mut Later, at_once: bool) {
        let rested = state.dirty && state.rest == Rest::Sleeps;
        if !state.full && (if at_once { state.is_alone() } else { rested && now() > state.clock.sent + 1 }) {
            self.push(state, later);
            state.watch();
            if state.is_ending() {
                self.nudge(state);
            }
            return;
        }
        if at_once {
            self.nudge(state);
        } else if rested {
            state.alarm(true);
        }
    }

    /// The same, where one polls by this waker: in `block_on` it sends what is queued as it waits, and the thread looks only where it doesn't.
    pub fn leaves_by(self: &Arc<Self>, state: &mut State, later: &mut Later, waker: &Waker, at_once: bool) {
        if waiting::is_own(waker) {
            state.alarm(state.dirty);
        } else {
            self.leaves(state, later, at_once);
        }
    }

    /// Who polls waits next, by this waker.
    pub fn waits(self: &Arc<Self>, state: &mut State, later: &mut Later, waker: &Waker) {
        if state.dirty {
            self.leaves_by(state, later, waker, true);
        }
    }

    /// Sends what waits, as far as the socket takes it.
    pub fn push(self: &Arc<Self>, state: &mut State, later: &mut Later) {
        state.flush();
        state.look_at_leaving(self, later);
        state.make_room(later);
    }

    /// The thread looks.
    pub fn nudge(&self, state: &mut State) {
        if state.rest != Rest::Awake {
            state.rest = Rest::Awake;
            let _ = (&self.wake).write(&[0]);
        }
    }

    // ---- the connection

    pub fn connection_state(&self) -> ConnectionState {
        self.with(|state, _| state.connection_state()).unwrap_or(ConnectionState::Error)
    }

    pub fn is_blocked(&self) -> bool {
        self.with(|state, _| state.is_blocked()).unwrap_or(false)
    }

    pub fn limits(&self) -> Option<(Limits, Vec<u8>)> {
        self.with(|state, _| (state.limits, state.server_properties.clone()))
    }

    /// Called once the connection is lost; at once where it is.
    pub fn on_error(&self, call: Box<dyn FnMut(Error) + Send>) {
        let mut call = Some(call);
        let lost = self.with(|state, _| match &state.lost {
            Some(error) => Some(error.clone()).filter(|_| !state.closed),
            None => {
                state.on_error.extend(call.take());
                None
            }
        });
        if let (Some(error), Some(mut call)) = (lost.flatten(), call) {
            call(error);
        }
    }

    pub fn poll_opened(&self, cx: &mut Context<'_>) -> Poll<Result<()>> {
        let found = self.step(|state, _| match (&state.lost, &state.session) {
            (Some(error), _) => Err(error.clone()),
            (None, Some(_)) => Ok(true),
            (None, None) => {
                state.opened = Some(cx.waker().clone());
                Ok(false)
            }
        });
        match found {
            Ok(false) => Poll::Pending,
            found => Poll::Ready(found.map(|_| ())),
        }
    }

    pub fn close(self: &Arc<Self>, octets: &[u8]) -> Result<u64> {
        self.step(|state, later| {
            let ticket = state.ask(0, "connection.close", octets, false, false)?;
            state.closing = Some(Instant::now() + PATIENCE);
            // Its publishes have their outcomes by it.
            state.look_everywhere(self, later);
            Ok(ticket)
        })
    }

    /// Nobody has the connection any more.
    pub fn drop_connection(self: &Arc<Self>, octets: &[u8]) {
        let ticket = self.close(octets);
        self.with(|state, later| {
            match ticket {
                Ok(ticket) => state.forget(ticket),
                // It isn't open yet, or has ended: its thread ends.
                Err(_) => drop(state.closing.get_or_insert(Instant::now())),
            }
            // What was published is the kernel's before a program may end behind this.
            if !state.full {
                self.push(state, later);
            }
            self.nudge(state);
        });
    }

    // ---- channels and calls

    /// A place for a channel, its number, and its opening's ticket.
    pub fn open_channel(&self, octets: &[u8]) -> Result<(usize, u16, u64)> {
        self.step(|state, _| {
            if let Some(error) = &state.lost {
                return Err(error.clone());
            }
            let place = state.take_number().ok_or(ErrorKind::ChannelsLimitReached)?;
            let number = state.opening(place).map_or(0, |it| it.number);
            match state.ask(place, "channel.open", octets, false, false) {
                Ok(ticket) => Ok((place, number, ticket)),
                Err(error) => {
                    if let Some(opening) = state.opening(place) {
                        opening.is_held = false;
                    }
                    state.let_go(place);
                    Err(error)
                }
            }
        })
    }

    /// Nobody has the channel any more.
    pub fn drop_channel(self: &Arc<Self>, place: usize, octets: &[u8]) {
        self.with(|state, later| {
            let Some(opening) = state.opening(place) else { return };
            opening.is_held = false;
            let number = opening.number;
            if matches!(state.channel_state(number), ChannelState::Connected | ChannelState::Initial) {
                if let Ok(ticket) = state.ask(place, "channel.close", octets, false, false) {
                    state.forget(ticket);
                    state.look_at(place, self, later);
                }
                self.leaves(state, later, false);
            }
            state.let_go(place);
        });
    }

    pub fn channel_state(&self, place: usize) -> ChannelState {
        let found = self.with(|state, _| match state.opening(place).map(|it| (it.number, it.is_over())) {
            Some((number, false)) => state.channel_state(number),
            Some((_, true)) if state.lost.is_some() && !state.closed => ChannelState::Error,
            _ => ChannelState::Closed,
        });
        found.unwrap_or(ChannelState::Error)
    }

    /// Makes a call; its ticket.
    pub fn ask(self: &Arc<Self>, place: usize, method: &'static str, octets: &[u8], acks: bool, leaves: bool) -> Result<u64> {
        self.step(|state, later| {
            let ticket = state.ask(place, method, octets, acks, leaves)?;
            match method {
                // What is published from now on has an outcome.
                "confirm.select" => state.opening(place).into_iter().for_each(|it| it.selected = true),
                "channel.close" => state.look_at(place, self, later),
                _ => {}
            }
            Ok(ticket)
        })
    }

    pub fn poll_ticket(self: &Arc<Self>, ticket: u64, cx: &mut Context<'_>) -> Poll<Result<Reply>> {
        // Dropped behind the lock: a waker may be the last that has a task, whose end may want it.
        let mut before = None;
        let found = self.step(|state, later| {
            if state.tickets.get(&ticket).is_some_and(|it| it.leaves && it.found.is_none()) && state.lost.is_none() {
                state.stage(usize::MAX);
                state.look_at_leaving(self, later);
            }
            let Some(it) = state.tickets.get_mut(&ticket) else { return Err(ErrorKind::Refused("it was told before").into()) };
            let found = it.found.take();
            if found.is_some() {
                before = state.tickets.remove(&ticket).and_then(|it| it.waker);
            } else if let Some(error) = state.lost.clone() {
                before = state.tickets.remove(&ticket).and_then(|it| it.waker);
                state.waiting -= usize::from(before.is_some());
                return Err(error);
            } else {
                let is_new = it.waker.is_none();
                if is_new {
                    self.waits(state, later, cx.waker());
                }
                if let Some(it) = state.tickets.get_mut(&ticket) {
                    before = it.waker.replace(cx.waker().clone());
                    state.waiting += usize::from(is_new);
                }
            }
            if state.dirty {
                state.alarm(true);
            }
            found.transpose()
        });
        drop(before);
        match found {
            Ok(Some(reply)) => Poll::Ready(Ok(reply)),
            Ok(None) => {
                waiting::waits_for(self, cx.waker());
                Poll::Pending
            }
            Err(error) => Poll::Ready(Err(error)),
        }
    }

    /// Nobody waits for an answer any more: the call goes on, and what it brings goes back.
    pub fn drop_ticket(self: &Arc<Self>, ticket: u64) {
        let mut before = None;
        self.with(|state, later| {
            let Some(it) = state.tickets.get_mut(&ticket) else { return };
            before = it.waker.take();
            state.waiting -= usize::from(before.is_some());
            it.is_dropped = true;
            if let Some(found) = it.found.take() {
                let acks = it.acks;
                state.tickets.remove(&ticket);
                state.undo(found, acks, self, later);
            }
            self.leaves(state, later, false);
        });
    }

    // ---- consumers

    pub fn drop_consumer(self: &Arc<Self>, consumer: u64) {
        self.with(|state, later| {
            let Some(fed) = state.consumers.get_mut(&consumer) else { return };
            fed.is_dropped = true;
            if fed.ended {
                let place = fed.opening;
                later.gone.extend(state.consumers.remove(&consumer));
                state.let_go(place);
            } else if fed.dispatch.is_none() {
                state.abandon(consumer, self, later);
            }
            self.leaves(state, later, false);
        });
    }

    /// A clone of a consumer waits no more.
    pub fn drop_clone(&self, consumer: u64, clone: u64) {
        let mut before = None;
        self.with(|state, _| before = state.consumers.get_mut(&consumer).and_then(|it| it.wakers.remove(&clone)));
    }

    pub fn set_delegate(self: &Arc<Self>, consumer: u64, delegate: Arc<dyn ConsumerDelegate>, keeps: Arc<Opened>) {
        let mut replaced = None;
        self.with(|state, later| {
            let Some(fed) = state.consumers.get_mut(&consumer) else { return };
            let dispatch = Dispatch::new(delegate);
            let ready: VecDeque<_> = mem::take(&mut fed.ready);
            ready.into_iter().for_each(|it| later.give(&dispatch, it));
            if fed.ended {
                return;
            }
            replaced = Some((fed.dispatch.replace(dispatch), fed.keeps.replace(keeps)));
            state.feed(consumer, self, later);
        });
        drop(replaced);
    }

    /// The next message for a clone of a consumer; it is woken where there is none yet.
    pub fn poll_delivery(self: &Arc<Self>, consumer: u64, clone: u64, cx: &mut Context<'_>) -> Poll<Option<Result<Delivery>>> {
        let mut before = None;
        let found = self.with(|state, later| {
            let Some(fed) = state.consumers.get_mut(&consumer) else { return Some(Ok(None)) };
            let found = match fed.ready.pop_front() {
                Some(found) => Some(found),
                None if fed.ended => return Some(Ok(None)),
                None => state.delivery(consumer, self),
            };
            if found.is_none() {
                before = state.consumers.get_mut(&consumer).and_then(|it| it.wakers.insert(clone, cx.waker().clone()));
                self.waits(state, later, cx.waker());
            }
            found
        });
        drop(before);
        match found {
            Some(Some(Ok(delivery))) => Poll::Ready(delivery.map(Ok)),
            Some(Some(Err(error))) => Poll::Ready(Some(Err(error))),
            Some(None) => {
                waiting::waits_for(self, cx.waker());
                Poll::Pending
            }
            None => Poll::Ready(Some(Err(forked()))),
        }
    }

    /// Calls an acker by its number; whether that is sent.
    pub fn settle(self: &Arc<Self>, method: &'static str, call: impl FnOnce(&mut Session) -> u32) -> Result<bool> {
        self.step(|state, later| {
            let Some(session) = &mut state.session else { return Ok(false) };
            match call(session) {
                ffi::DONE => {
                    state.dirty = true;
                    self.leaves(state, later, false);
                    Ok(true)
                }
                ffi::GONE => Ok(false),
                status => Err(state.refusal(status, 0, method)),
            }
        })
    }
}

pub fn forked() -> Error {
    Error::io(io::ErrorKind::Unsupported, "this process was forked from the one that opened the connection")
}
