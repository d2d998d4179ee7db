//! The steps of publishes and their confirms.

use crate::{
    confirm::Confirmation,
    error::{ErrorKind, Result},
    later::Later,
    message::BasicReturnMessage,
    protocol::BasicProperties,
    publications::Polled,
    shared::{forked, Shared, FULL},
    state::State,
    status::{ChannelState, ConnectionState},
    types::ShortString,
    waiting,
};
use std::{
    sync::Arc,
    task::{Context, Poll, Waker},
};

/// With so many bytes of publishes, the one who publishes sends them.
const STAGED: usize = 1 << 15;

impl Shared {
    /// Publishes, where there is room: the number of the confirm; none where none was asked for.
    #[allow(clippy::too_many_arguments)]
    pub fn poll_publish(
        self: &Arc<Self>, cx: &mut Context<'_>, room: &mut u64, place: usize, names: [&ShortString; 2], marks: [bool; 2], payload: &[u8],
        properties: &BasicProperties,
    ) -> Poll<Result<Option<u64>>> {
        let found = self.step(|state, later| {
            if let Some(error) = &state.lost {
                return Err(error.clone());
            }
            if state.waiting_bytes() > FULL || state.is_blocked() {
                if *room == 0 {
                    state.made += 1;
                    *room = state.made;
                }
                let before = state.room.insert(*room, cx.waker().clone());
                self.waits(state, later, cx.waker());
                later.wakers.extend(before.filter(|it| !it.will_wake(cx.waker())));
                return Ok(None);
            }
            self.publish(state, later, cx.waker(), place, names, marks, payload, properties).map(Some)
        });
        match found {
            Ok(Some(confirm)) => Poll::Ready(Ok(confirm)),
            Ok(None) => {
                waiting::waits_for(self, cx.waker());
                Poll::Pending
            }
            Err(error) => Poll::Ready(Err(error)),
        }
    }

    #[allow(clippy::too_many_arguments)]
    fn publish(
        self: &Arc<Self>, state: &mut State, later: &mut Later, waker: &Waker, place: usize, names: [&ShortString; 2], marks: [bool; 2],
        payload: &[u8], properties: &BasicProperties,
    ) -> Result<Option<u64>> {
        properties.write(&mut state.properties).map_err(|why| ErrorKind::SerialisationError(why.into()))?;
        let closed = ErrorKind::InvalidChannelState(ChannelState::Closed, "basic.publish");
        let Some(number) = state.opening(place).map(|it| it.number) else { return Err(closed.into()) };
        let Some(session) = &mut state.session else { return Err(ErrorKind::InvalidConnectionState(ConnectionState::Connecting).into()) };
        let [exchange, key] = names.map(|it| it.as_bytes());
        let confirm = match session.publish(number, exchange, key, marks[0], marks[1], payload, &state.properties) {
            Ok(confirm) => confirm,
            Err(status) => return Err(state.refusal(status, place, "basic.publish")),
        };
        state.queued += payload.len() + 128;
        let parts = [exchange, key, &state.properties[..], payload];
        let selected = match state.openings.get_mut(place).and_then(|it| it.as_mut()) {
            Some(opening) if opening.selected => {
                opening.publications.add(confirm, marks[0].then_some(parts));
                true
            }
            _ => {
                session.forget(confirm);
                false
            }
        };
        state.dirty = true;
        if state.queued > STAGED && !state.full {
            self.push(state, later);
        }
        self.leaves_by(state, later, waker, false);
        Ok(selected.then_some(confirm))
    }

    /// Nobody waits for room any more.
    pub fn drop_room(&self, room: u64) {
        let mut before = None;
        self.with(|state, _| before = state.room.remove(&room));
    }

    pub fn poll_confirm(self: &Arc<Self>, place: usize, confirm: u64, cx: &mut Context<'_>) -> Poll<Result<Confirmation>> {
        let mut before = None;
        let found = self.with(|state, later| {
            let Some(opening) = state.opening(place) else { return Ok(Err(ErrorKind::Refused("it was told before").into())) };
            match opening.publications.poll(confirm, cx.waker()) {
                Polled::Found(found) => {
                    state.let_go(place);
                    Ok(found.told())
                }
                Polled::Gone => Ok(Err(ErrorKind::Refused("it was told before").into())),
                Polled::Waits(replaced) => {
                    self.waits(state, later, cx.waker());
                    state.waiting += usize::from(replaced.is_none());
                    before = replaced;
                    Err(())
                }
            }
        });
        drop(before);
        match found {
            Some(Ok(found)) => Poll::Ready(found),
            Some(Err(())) => {
                waiting::waits_for(self, cx.waker());
                Poll::Pending
            }
            None => Poll::Ready(Err(forked())),
        }
    }

    /// Nobody has a confirm any more: what it brings is told by the wait for all.
    pub fn drop_confirm(self: &Arc<Self>, place: usize, confirm: u64) {
        let mut before = None;
        self.with(|state, later| {
            let Some(opening) = state.opening(place) else { return };
            let (found, waker) = opening.publications.set_aside(confirm);
            if let Some(found) = found {
                opening.note(found);
            }
            state.waiting -= usize::from(waker.is_some());
            before = waker;
            state.let_go(place);
            self.leaves(state, later, false);
        });
    }

    pub fn poll_wait(self: &Arc<Self>, place: usize, wait: &mut u64, cx: &mut Context<'_>) -> Poll<Result<Vec<BasicReturnMessage>>> {
        let mut before = None;
        let found = self.step(|state, later| {
            if let Some(found) = state.wait(place) {
                return found.map(Some);
            }
            if *wait == 0 {
                state.made += 1;
                *wait = state.made;
            }
            before = state.opening(place).and_then(|it| it.waits.insert(*wait, cx.waker().clone()));
            self.waits(state, later, cx.waker());
            Ok(None)
        });
        drop(before);
        match found {
            Ok(Some(messages)) => Poll::Ready(Ok(messages)),
            Ok(None) => {
                waiting::waits_for(self, cx.waker());
                Poll::Pending
            }
            Err(error) => Poll::Ready(Err(error)),
        }
    }

    pub fn drop_wait(&self, place: usize, wait: u64) {
        let mut before = None;
        self.with(|state, _| before = state.opening(place).and_then(|it| it.waits.remove(&wait)));
    }
}
