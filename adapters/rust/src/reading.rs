//! The reading of a connection's socket: under the lock, so that what comes is heard in its order whoever reads it. The connection's thread does so,
//! or one that waits in `block_on`, and which stands in for it; then the thread isn't woken by what comes.

use crate::{
    error::Error,
    later::Later,
    shared::Shared,
    state::{now, Rest, State},
    waiting::Caller,
};
use std::{
    io::{self, Read},
    mem,
    panic::{catch_unwind, AssertUnwindSafe},
    sync::Arc,
};

impl State {
    /// Reads what is there, once, and tells what it brings; whether there was something. What ends the connection is kept for its thread.
    pub fn read(&mut self, shared: &Arc<Shared>, later: &mut Later) -> bool {
        let mut bytes = mem::take(&mut self.bytes);
        bytes.resize(1 << 16, 0);
        let Some(mut socket) = self.socket.as_deref() else { return false };
        let found = socket.read(&mut bytes);
        if let Ok(length @ 1..) = found {
            self.clock.heard = now();
            if let Err(error) = self.hear(&bytes[..length], shared, later) {
                self.ended.get_or_insert(error);
            }
        }
        self.bytes = bytes;
        match found {
            Ok(length @ 1..) => return length > 0,
            Ok(0) => drop(self.ended.get_or_insert_with(|| Error::io(io::ErrorKind::ConnectionReset, "the broker hung up"))),
            Err(error) if matches!(error.kind(), io::ErrorKind::WouldBlock | io::ErrorKind::Interrupted) => {}
            Err(error) => drop(self.ended.get_or_insert(error.into())),
        }
        false
    }

    /// From now on the thread waits for what it has to.
    pub fn watch(&mut self) {
        let wanted = (self.stands_in.is_none(), self.full && self.stands_in != Some(true));
        let Some(watch) = self.watch.as_ref().filter(|_| self.watched != wanted) else { return };
        match watch.set(wanted.0, wanted.1) {
            Ok(()) => self.watched = wanted,
            Err(error) => drop(self.ended.get_or_insert(error.into())),
        }
    }
}

impl State {
    /// The thread looks within a millisecond, where it sleeps; or no more, where nothing is queued.
    pub fn alarm(&mut self, is_set: bool) {
        let is_set = is_set && self.rest == Rest::Sleeps;
        if self.alarmed != is_set {
            self.alarmed = is_set;
            self.watch.iter().for_each(|it| it.alarm(is_set));
        }
    }
}

impl Shared {
    /// Waits at the socket in the place of the connection's thread until something comes, or the caller is woken; false where that can't be, since
    /// another one does or the connection is at its end. What waits to leave is sent before.
    pub fn stand_in(self: &Arc<Self>, caller: &Caller) -> bool {
        let begun = self.with(|state, later| {
            let is_free = state.stands_in.is_none() && !state.is_ending() && caller.can_stand_in();
            if is_free {
                state.stands_in = Some(state.full);
                state.watch();
            }
            if state.dirty && !state.full {
                self.push(state, later);
            }
            state.alarm(state.dirty);
            if state.is_ending() {
                self.nudge(state);
            }
            if is_free {
                state.stands_in = Some(state.full);
                state.watch();
            }
            state.socket.clone().filter(|_| is_free).map(|it| (it, state.full))
        });
        let Some((socket, writing)) = begun.flatten() else { return false };
        let readable = caller.waits_at(&*socket, writing);
        let heard = catch_unwind(AssertUnwindSafe(|| self.with(|state, later| self.heard(state, later, readable))));
        if heard.is_err() {
            self.with(|state, _| {
                state.stands_in = None;
                state.ended.get_or_insert_with(|| Error::io(io::ErrorKind::Other, "a thread of the connection panicked"));
                state.watch();
                self.nudge(state);
            });
        }
        true
    }

    // The caller stands in no more: what came is heard, and what that wants to leave is sent.
    fn heard(self: &Arc<Self>, state: &mut State, later: &mut Later, readable: bool) {
        let writing = state.stands_in.take() == Some(true);
        if readable {
            state.read(self, later);
        }
        if state.dirty && !state.full || writing && state.full {
            state.full = false;
            self.push(state, later);
        }
        if state.is_ending() {
            self.nudge(state);
        }
        state.watch();
    }
}
