//! Who is told what came: for each frame those alone whom it is about; for a close, a refusal and the loss, all whom these end.

use crate::{
    confirm::Confirmation,
    error::{Error, ErrorKind, Result},
    ffi,
    later::Later,
    message::BasicReturnMessage,
    publications::{Found, Outcome},
    returned,
    seen::About,
    shared::{Shared, FULL},
    state::{Reply, State},
    status::{ChannelState, ConnectionState},
};
use std::{ops::Range, sync::Arc};

impl State {
    /// Takes octets of the broker, and tells what they bring.
    pub fn hear(&mut self, bytes: &[u8], shared: &Arc<Shared>, later: &mut Later) -> Result<()> {
        let Some(session) = &mut self.session else { return Ok(()) };
        let mut status = session.receive(bytes);
        let mut again = 0;
        let was_refused = status == ffi::REFUSED;
        while status == ffi::REFUSED || status == ffi::KEPT && again < 3 {
            again += u32::from(status == ffi::KEPT);
            status = session.receive(&[]);
        }
        self.dirty = true;
        let mut events = std::mem::take(&mut self.events);
        let (numbers, openings) = (&self.numbers, &self.openings);
        self.seen.look(bytes, &mut events, |channel, tag| {
            let opening = numbers.get(&channel).and_then(|it| openings[*it].as_ref());
            opening.and_then(|it| it.tags.get(tag)).copied().unwrap_or(0)
        });
        for (channel, about) in events.drain(..) {
            if let Some(place) = self.numbers.get(&channel).copied() {
                self.tell(place, about, shared, later);
            }
        }
        self.events = events;
        if was_refused {
            self.look_everywhere(shared, later);
        }
        match status {
            ffi::DONE => Ok(()),
            ffi::NO_MEMORY | ffi::KEPT => Err(ErrorKind::NoMemory.into()),
            _ => Err(ErrorKind::ParsingError("what came is no frame".into()).into()),
        }
    }

    fn tell(&mut self, place: usize, about: About, shared: &Arc<Shared>, later: &mut Later) {
        match about {
            About::Settled { tag, multiple } => self.settled(place, tag, multiple, later),
            About::Returned => {
                if let Some(opening) = self.opening(place).filter(|it| it.selected) {
                    opening.publications.due += 1;
                }
            }
            About::Delivery(consumer) => {
                if let Some(opening) = self.opening(place) {
                    opening.current = consumer;
                }
            }
            About::Content => {
                let (current, waits) = self.opening(place).map_or((0, false), |it| (it.current, !it.calls.is_empty()));
                if waits {
                    self.answer_calls(place, shared, later);
                }
                match current {
                    0 => self.feed_all(place, shared, later),
                    consumer => self.feed(consumer, shared, later),
                }
            }
            About::Cancelled(consumer) => {
                self.answer_calls(place, shared, later);
                match consumer {
                    0 => self.feed_all(place, shared, later),
                    consumer => self.feed(consumer, shared, later),
                }
            }
            About::Closed if place == 0 => {
                self.note_close();
                self.look_everywhere(shared, later);
            }
            About::Closed => self.look_at(place, shared, later),
            About::Method => {
                self.answer_calls(place, shared, later);
                if place == 0 {
                    self.make_room(later);
                }
            }
        }
    }

    // The broker's close of the connection is why all of it ends.
    fn note_close(&mut self) {
        let is_closed = matches!(self.connection_state(), ConnectionState::Closed | ConnectionState::Error);
        let Some(session) = self.session.as_mut().filter(|_| is_closed && self.cause.is_none() && self.lost.is_none()) else { return };
        if let Some(code) = session.last_close(0) {
            session.answer(&mut self.answer);
            self.cause = Some(Error::of_code(code, self.answer[..].into()));
        }
    }

    /// All that stands in the connection is looked at.
    pub fn look_everywhere(&mut self, shared: &Arc<Shared>, later: &mut Later) {
        for place in 0..self.openings.len() {
            self.look_at(place, shared, later);
        }
        self.look_at_leaving(shared, later);
        self.make_room(later);
    }

    /// All that stands in a channel is looked at: it may have ended.
    pub fn look_at(&mut self, place: usize, shared: &Arc<Shared>, later: &mut Later) {
        let Some(opening) = self.opening(place) else { return };
        let mut calls = std::mem::take(&mut opening.calls);
        calls.retain(|ticket| !self.answer_call(*ticket, shared, later));
        if let Some(opening) = self.opening(place) {
            calls.append(&mut opening.calls); // (what was made meanwhile, as a cancel)
            opening.calls = calls;
        }
        let places = self.opening(place).map_or(0..0, |it| it.publications.uncovered());
        self.take_outcomes(place, places, later);
        self.feed_all(place, shared, later);
        let number = self.opening(place).map_or(0, |it| it.number);
        if matches!(self.channel_state(number), ChannelState::Closed | ChannelState::Error) {
            if let Some(opening) = self.opening(place) {
                opening.over.store(true, std::sync::atomic::Ordering::Release);
                later.wakers.extend(std::mem::take(&mut opening.waits).into_values());
            }
        }
        self.let_go(place);
    }

    // ---- calls

    // Calls of a channel are answered in their order.
    fn answer_calls(&mut self, place: usize, shared: &Arc<Shared>, later: &mut Later) {
        while let Some(ticket) = self.opening(place).and_then(|it| it.calls.front().copied()) {
            if !self.answer_call(ticket, shared, later) {
                return;
            }
            if let Some(opening) = self.opening(place) {
                opening.calls.pop_front();
            }
        }
    }

    /// Those that are answered as they leave are looked at once all has left the session.
    pub fn look_at_leaving(&mut self, shared: &Arc<Shared>, later: &mut Later) {
        while let Some(ticket) = self.leaving.front().copied() {
            if !self.answer_call(ticket, shared, later) {
                return;
            }
            self.leaving.pop_front();
        }
    }

    // Whether a call has its answer now, or nobody waits for one.
    fn answer_call(&mut self, ticket: u64, shared: &Arc<Shared>, later: &mut Later) -> bool {
        if self.tickets.get(&ticket).is_none_or(|it| it.found.is_some()) {
            return true;
        }
        let Some(found) = self.reply(ticket, shared) else { return false };
        let Some(it) = self.tickets.get_mut(&ticket) else { return true };
        if it.is_dropped {
            let (place, method, acks) = (it.opening, it.method, it.acks);
            self.tickets.remove(&ticket);
            self.undo(found, acks, shared, later);
            if method == "channel.open" {
                self.close_unheld(place);
            }
        } else {
            it.found = Some(found);
            if let Some(waker) = it.waker.take() {
                self.waiting -= 1;
                later.wakers.push(waker);
            }
        }
        true
    }

    // A channel that was opened for nobody is closed.
    fn close_unheld(&mut self, place: usize) {
        let Some(number) = self.opening(place).filter(|it| !it.is_held).map(|it| it.number) else { return };
        if self.channel_state(number) == ChannelState::Connected {
            let close = crate::methods::close(20, 40, 200, &"".into()).octets();
            if let Ok(ticket) = close.and_then(|it| self.ask(place, "channel.close", &it, false, false)) {
                self.forget(ticket);
            }
        }
    }

    /// What a call brought that nobody waits for goes back.
    pub fn undo(&mut self, found: Result<Reply>, acks: bool, shared: &Arc<Shared>, later: &mut Later) {
        match found {
            Ok(Reply::Got(Some(message))) => {
                if let (true, Some(session), Some(number)) = (acks, &mut self.session, message.delivery.acker.take()) {
                    session.reject(number, true);
                    self.dirty = true;
                }
            }
            Ok(Reply::Consumer(consumer, _)) => self.abandon(consumer, shared, later),
            _ => {}
        }
    }

    // ---- consumers

    /// Nobody has a consumer any more: it is cancelled, and what it was handed goes back.
    pub fn abandon(&mut self, consumer: u64, shared: &Arc<Shared>, later: &mut Later) {
        let Some(fed) = self.consumers.get_mut(&consumer) else { return };
        fed.is_dropped = true;
        let (opening, ended) = (fed.opening, fed.ended);
        let tag = crate::types::ShortString::from(&fed.tag[..]);
        let ready: Vec<_> = fed.ready.drain(..).collect();
        later.wakers.extend(std::mem::take(&mut fed.wakers).into_values());
        for delivery in ready.into_iter().flatten().flatten() {
            self.give_back(consumer, delivery.acker.take());
        }
        if !ended {
            let cancel = crate::methods::Method::new(60, 30).short(&tag).bits([false]).octets();
            if let Ok(ticket) = cancel.and_then(|it| self.ask(opening, "basic.cancel", &it, false, false)) {
                self.forget(ticket);
            }
        }
        self.feed(consumer, shared, later);
    }

    /// Nobody waits for the answer of the call that was made last, which brings nothing.
    pub fn forget(&mut self, ticket: u64) {
        if let (Some(it), Some(session)) = (self.tickets.remove(&ticket), &mut self.session) {
            session.forget_call(ticket);
            if let Some(opening) = self.opening(it.opening).filter(|it| it.calls.back() == Some(&ticket)) {
                opening.calls.pop_back();
            }
        }
    }

    fn give_back(&mut self, consumer: u64, acker: Option<u64>) {
        let acks = self.consumers.get(&consumer).is_some_and(|it| !it.no_ack);
        if let (Some(session), Some(acker), true) = (&mut self.session, acker, acks) {
            session.reject(acker, true);
            self.dirty = true;
        }
    }

    fn feed_all(&mut self, place: usize, shared: &Arc<Shared>, later: &mut Later) {
        let Some(opening) = self.opening(place).filter(|it| !it.consumers.is_empty()) else { return };
        for consumer in opening.consumers.iter().copied().collect::<Vec<_>>() {
            self.feed(consumer, shared, later);
        }
    }

    /// Hands a consumer what there is for it: to its delegate all, to one who waits the next one.
    pub fn feed(&mut self, consumer: u64, shared: &Arc<Shared>, later: &mut Later) {
        loop {
            let Some(fed) = self.consumers.get(&consumer).filter(|it| !it.ended) else { return };
            let is_dropped = fed.is_dropped && fed.dispatch.is_none();
            if !is_dropped && fed.dispatch.is_none() && (fed.wakers.is_empty() || !fed.ready.is_empty()) {
                return;
            }
            let Some(found) = self.delivery(consumer, shared) else { return };
            let Some(fed) = self.consumers.get_mut(&consumer) else { return };
            let (ended, place) = (fed.ended, fed.opening);
            match (&fed.dispatch, is_dropped) {
                (Some(dispatch), _) => later.give(dispatch, found),
                (None, true) => {
                    let acker = found.ok().flatten().and_then(|it| it.acker.take());
                    self.give_back(consumer, acker);
                }
                (None, false) => {
                    fed.ready.push_back(found);
                    later.wakers.extend(std::mem::take(&mut fed.wakers).into_values());
                }
            }
            let Some(fed) = self.consumers.get_mut(&consumer).filter(|_| ended) else { continue };
            later.kept.extend(fed.keeps.take());
            later.ended.extend(fed.dispatch.take());
            if fed.is_dropped {
                later.gone.extend(self.consumers.remove(&consumer));
                self.let_go(place);
            }
        }
    }

    // ---- publishes

    fn settled(&mut self, place: usize, tag: u64, multiple: bool, later: &mut Later) {
        let Some(opening) = self.opening(place) else { return };
        let places = opening.publications.covered(tag, multiple);
        let before = opening.publications.open;
        self.take_outcomes(place, places, later);
        let rest = self.opening(place).filter(|it| it.publications.open == before).map(|it| it.publications.uncovered());
        if let Some(rest) = rest {
            self.take_outcomes(place, rest, later);
        }
    }

    /// Takes the outcomes that are there of the publishes of these places, and tells them once all that came with them was given.
    fn take_outcomes(&mut self, place: usize, places: Range<usize>, later: &mut Later) {
        for at in places.clone() {
            let Some(confirm) = self.opening(place).and_then(|it| it.publications.open_at(at)) else { continue };
            if let Some(outcome) = self.outcome(place, confirm) {
                if let Some(opening) = self.opening(place) {
                    opening.publications.set(at, outcome);
                }
            }
        }
        let Some(opening) = self.openings.get_mut(place).and_then(|it| it.as_mut()) else { return };
        let (before, mut strays) = (later.wakers.len(), Vec::new());
        opening.publications.settle(places, &mut later.wakers, &mut strays);
        self.waiting -= later.wakers.len() - before;
        for found in strays {
            opening.note(found);
        }
        if opening.publications.open == 0 {
            later.wakers.extend(std::mem::take(&mut opening.waits).into_values());
        }
    }

    // The outcome of a publish. A message that came with it is given to whom it belongs.
    fn outcome(&mut self, place: usize, confirm: u64) -> Option<Outcome> {
        let may_have_message = self.opening(place).is_some_and(|it| it.publications.due > 0);
        match self.session.as_mut()?.outcome(confirm) {
            ffi::ACK => Some(Outcome::Ack),
            ffi::NACK => Some(Outcome::Nack),
            ffi::NOT_REQUESTED => Some(Outcome::NotRequested),
            ffi::NONE if may_have_message => self.outcome_with_message(place, confirm),
            ffi::NONE => self.lost.clone().map(|it| Outcome::Error(Box::new(it))),
            _ => Some(Outcome::Error(Box::new(self.error(place, "basic.publish")))),
        }
    }

    fn outcome_with_message(&mut self, place: usize, confirm: u64) -> Option<Outcome> {
        let outcome = match self.session.as_mut()?.confirmed(confirm) {
            Ok(ffi::ACK) => Outcome::Ack,
            Ok(ffi::NACK) => Outcome::Nack,
            Ok(ffi::NOT_REQUESTED) => Outcome::NotRequested,
            Err(ffi::PENDING) => return self.lost.clone().map(|it| Outcome::Error(Box::new(it))),
            Ok(_) | Err(ffi::REFUSED) => return Some(Outcome::Error(Box::new(self.error(place, "basic.publish")))),
            Err(_) => {
                self.lose(ErrorKind::NoMemory.into());
                return self.lost.clone().map(|it| Outcome::Error(Box::new(it)));
            }
        };
        if let (Some((message, properties)), Some(opening)) = (self.came_back(0), self.opening(place)) {
            let stray = opening.publications.give(message, &properties);
            opening.returned.extend(stray);
        }
        Some(outcome)
    }

    // A message that came back, of those that the session told of last. Where there is no memory for its octets the connection is lost.
    fn came_back(&mut self, place: usize) -> Option<returned::Returned> {
        let session = self.session.as_mut()?;
        match session.return_at(place) {
            Ok(numbers) => {
                session.answer(&mut self.answer);
                Some(returned::message(&numbers, &self.answer))
            }
            Err(ffi::PENDING) => None,
            Err(_) => {
                self.lose(ErrorKind::NoMemory.into());
                None
            }
        }
    }

    /// What nobody waits for is told, once each publish of the channel has its outcome: the messages that came back and that no confirm gives.
    pub fn wait(&mut self, place: usize) -> Option<Result<Vec<BasicReturnMessage>>> {
        let Some(number) = self.opening(place).map(|it| it.number) else { return Some(Ok(Vec::new())) };
        if self.opening(place).is_some_and(|it| it.publications.open > 0) {
            return None;
        }
        // (publishes of which no confirm was asked are done as they leave)
        while self.queued > 0 && self.stage(usize::MAX) {}
        let mut given = Vec::new();
        match self.session.as_mut().map(|it| it.unclaimed(number)) {
            Some(Ok(count)) => given.extend((0..count as usize).map_while(|it| self.came_back(it)).map(|it| it.0)),
            Some(Err(ffi::PENDING)) => return None,
            _ => {}
        }
        let mut error = self.lost.clone().or_else(|| self.cause.clone());
        if let Some(opening) = self.opening(place) {
            given.splice(0..0, std::mem::take(&mut opening.returned));
            error = opening.error.take().or(error);
        }
        // Whoever asked by it alone is told that nothing is known of a publish.
        Some(error.map_or(Ok(given), Err))
    }

    /// Those who wait to publish go on, where there is room.
    pub fn make_room(&mut self, later: &mut Later) {
        if !self.room.is_empty() && (self.lost.is_some() || self.waiting_bytes() < FULL / 2 && !self.is_blocked()) {
            later.wakers.extend(std::mem::take(&mut self.room).into_values());
        }
    }
}

impl crate::openings::Opening {
    /// The outcome of a confirm that nobody has any more.
    pub fn note(&mut self, found: Found) {
        match found.told() {
            Ok(Confirmation::Ack(message) | Confirmation::Nack(message)) => self.returned.extend(message),
            Ok(Confirmation::NotRequested) => {}
            Err(error) => drop(self.error.get_or_insert(error)),
        }
    }
}
