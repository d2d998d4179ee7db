//! What a connection has, under its lock: the session with the octets that are to leave, the channels, and who waits for what.
//!
//! Each call of the session is one step. Nothing here waits, and nothing of the user's is called: what is to be woken stands in a `Later`.

use crate::{
    acker::Acker,
    error::{Error, ErrorKind, Result},
    ffi::{self, Clock, Fields, Limits, Session, Watch},
    message::{BasicGetMessage, Delivery, DeliveryResult},
    openings::{Fed, Opening, Ticket},
    protocol::BasicProperties,
    seen::{About, Seen},
    shared::Shared,
    status::{ChannelState, ConnectionState},
    types::ShortString,
};
use std::{
    collections::{BTreeMap, HashMap, VecDeque},
    io::{self, Write},
    net::TcpStream,
    sync::Arc,
    task::Waker,
    time::Instant,
};

/// What a call was answered.
pub enum Reply {
    Done,
    Count(u64),
    Queue(ShortString, u32, u32),
    Consumer(u64, ShortString),
    Got(Option<BasicGetMessage>),
}

/// What the thread does. It dozes for a millisecond where something went on before, so that what is queued without a hurry needs no call.
#[derive(Clone, Copy, PartialEq)]
pub enum Rest {
    Awake,
    Dozes,
    Sleeps,
}

pub struct State {
    pub session: Option<Session>,
    pub socket: Option<Arc<TcpStream>>,
    /// What is to be sent, from `gone` on, and about how many octets of publishes the session has.
    pub out: Vec<u8>,
    pub gone: usize,
    pub queued: usize,
    pub dirty: bool,
    /// Whether the kernel takes nothing just now.
    pub full: bool,
    pub rest: Rest,
    /// Whether the thread looks within a millisecond, though it sleeps.
    pub alarmed: bool,
    /// What the thread waits for: whether for what can be read, and that it can be written; and whether another one stands in for it, for that too.
    pub watch: Option<Arc<Watch>>,
    pub watched: (bool, bool),
    pub stands_in: Option<bool>,
    /// What the socket is read into.
    pub bytes: Vec<u8>,
    pub clock: Clock,
    pub limits: Limits,
    pub server_properties: Vec<u8>,
    /// What ended the connection, once the session was told that it is lost; and that by which the broker closed it.
    pub lost: Option<Error>,
    pub cause: Option<Error>,
    /// Why nothing can be sent any more: what the broker still said is heard before the connection is lost by it.
    pub broken: Option<Error>,
    /// What the thread is to end the connection by.
    pub ended: Option<Error>,
    /// Until when a close of this side's may take, and whether the connection has ended by it.
    pub closing: Option<Instant>,
    pub closed: bool,
    pub answer: Vec<u8>,
    pub properties: Vec<u8>,
    pub tickets: HashMap<u64, Ticket>,
    pub leaving: VecDeque<u64>,
    /// How many wait for an answer or an outcome.
    pub waiting: usize,
    pub openings: Vec<Option<Box<Opening>>>,
    pub places: Vec<usize>,
    pub numbers: HashMap<u16, usize>,
    pub free: Vec<u16>,
    pub next_number: u16,
    pub consumers: HashMap<u64, Fed>,
    pub room: BTreeMap<u64, Waker>,
    pub made: u64,
    pub opened: Option<Waker>,
    pub on_error: Vec<Box<dyn FnMut(Error) + Send>>,
    pub seen: Seen,
    pub events: Vec<(u16, About)>,
}

impl State {
    pub fn new(limits: Limits) -> State {
        let base = Box::new(Opening { is_held: true, ..Opening::default() });
        State {
            session: None, socket: None, out: Vec::new(), gone: 0, queued: 0, dirty: false, full: false, rest: Rest::Awake,
            alarmed: false, watch: None, watched: (true, false), stands_in: None, bytes: Vec::new(), clock: Clock::default(), limits,
            server_properties: Vec::new(), lost: None, cause: None, broken: None, ended: None, closing: None, closed: false,
            answer: Vec::new(), properties: Vec::new(),
            tickets: HashMap::new(), leaving: VecDeque::new(), waiting: 0, openings: vec![Some(base)], places: Vec::new(),
            numbers: HashMap::from([(0, 0)]), free: Vec::new(), next_number: 1, consumers: HashMap::new(), room: BTreeMap::new(), made: 0, opened: None,
            on_error: Vec::new(), seen: Seen::default(), events: Vec::new(),
        }
    }

    // ---- errors

    /// The error of a status of the session's.
    pub fn refusal(&mut self, status: u32, opening: usize, method: &'static str) -> Error {
        match status {
            ffi::REFUSED => self.error(opening, method),
            ffi::NO_MEMORY => ErrorKind::NoMemory.into(),
            ffi::NOT_IN_GRAMMAR => ErrorKind::SerialisationError(format!("{method}: an argument that a call can't have")).into(),
            ffi::TOO_LONG => ErrorKind::SerialisationError(format!("{method}: longer than a frame may be")).into(),
            _ => self.lost.clone().unwrap_or_else(|| ErrorKind::InvalidConnectionState(ConnectionState::Closed).into()),
        }
    }

    /// The error that the session told last, with the broker's words where it closed by it.
    pub fn error(&mut self, opening: usize, method: &'static str) -> Error {
        let Some(session) = &mut self.session else { return ErrorKind::InvalidConnectionState(ConnectionState::Connecting).into() };
        let why = session.why();
        match why.kind {
            1 => ErrorKind::NoMemory.into(),
            3 => match (ChannelState::of(why.state), &self.lost) {
                (ChannelState::Error, Some(error)) => error.clone(),
                (state, _) => ErrorKind::InvalidChannelState(state, method).into(),
            },
            4 => {
                let words = self.words(opening, why.code);
                Error::of_code(why.code, words)
            }
            5 => self.lost.clone().unwrap_or_else(|| Error::io(io::ErrorKind::ConnectionAborted, "the connection is lost")),
            6 => Error::of_code(505, format!("class {}, method {}", why.class_id, why.method_id).into()),
            7 => Error::of_code(406, format!("tag {} was settled, behind {}", why.tag, why.current).into()),
            10 => ErrorKind::Refused("as many publishes are outstanding as the limit allows").into(),
            2 => ErrorKind::Refused("no number is left").into(),
            _ => ErrorKind::Refused("it was told before, or there is none").into(),
        }
    }

    // The words of the broker's last close of the channel, or else of the connection, where it has this code.
    fn words(&mut self, opening: usize, code: u16) -> ShortString {
        let number = self.openings.get(opening).and_then(|it| it.as_ref()).map_or(0, |it| it.number);
        let Some(session) = &mut self.session else { return ShortString::default() };
        for channel in [number, 0] {
            if session.last_close(channel) == Some(code) {
                session.answer(&mut self.answer);
                return ShortString::from(&self.answer[..]);
            }
        }
        ShortString::default()
    }

    pub fn lose(&mut self, error: Error) {
        if self.lost.is_some() {
            return;
        }
        self.closed = self.session.is_some() && self.connection_state() == ConnectionState::Closed;
        let closed = || ErrorKind::InvalidConnectionState(ConnectionState::Closed).into();
        let cause = self.cause.take();
        self.lost = Some(if self.closed { closed() } else { cause.unwrap_or(error) });
        if let Some(session) = &mut self.session {
            // (without memory once more; who waits is told by `lost` in any case)
            let _ = (0..3).any(|_| session.lost() != ffi::NO_MEMORY);
        }
        self.dirty = true;
    }

    // ---- states

    /// Whether the thread has to look, since the connection ends or is closed.
    pub fn is_ending(&self) -> bool {
        self.ended.is_some() || self.broken.is_some() || self.lost.is_some() || self.closing.is_some() || self.cause.is_some()
    }

    pub fn connection_state(&mut self) -> ConnectionState {
        match (&mut self.session, &self.lost) {
            (_, Some(_)) if self.closed => ConnectionState::Closed,
            (_, Some(_)) => ConnectionState::Error,
            (None, None) => ConnectionState::Connecting,
            (Some(session), None) => match ConnectionState::of(session.states(0).connection) {
                ConnectionState::Closed if self.closing.is_none() => ConnectionState::Error, // by the broker
                state => state,
            },
        }
    }

    pub fn channel_state(&mut self, number: u16) -> ChannelState {
        self.session.as_mut().map_or(ChannelState::Initial, |it| ChannelState::of(it.states(number).channel))
    }

    pub fn is_blocked(&mut self) -> bool {
        self.session.as_mut().is_some_and(|it| it.is_blocked())
    }

    pub fn opening(&mut self, place: usize) -> Option<&mut Opening> {
        self.openings.get_mut(place)?.as_deref_mut()
    }

    // ---- octets out

    /// Whether nobody waits for an answer or an outcome.
    pub fn is_alone(&self) -> bool {
        self.waiting == 0
    }

    pub fn waiting_bytes(&self) -> usize {
        self.out.len() - self.gone + self.queued
    }

    /// Frames that may leave become octets, until there are enough; whether there were any.
    pub fn stage(&mut self, enough: usize) -> bool {
        if self.gone >= 1 << 16 && 2 * self.gone >= self.out.len() {
            self.out.drain(..self.gone);
            self.gone = 0;
        }
        let Some(session) = &mut self.session else { return false };
        match session.send(enough, &mut self.out) {
            (ffi::DONE, length) => {
                if length < enough {
                    self.queued = 0;
                }
                length > 0
            }
            (ffi::NO_MEMORY, _) => {
                self.lose(ErrorKind::NoMemory.into());
                false
            }
            _ => {
                if self.lost.is_none() {
                    self.lose(Error::io(io::ErrorKind::InvalidData, "a frame can't leave"));
                }
                false
            }
        }
    }

    /// Sends what waits, as far as the socket takes it.
    pub fn flush(&mut self) {
        self.dirty = false;
        let Some(socket) = self.socket.clone() else { return };
        while self.lost.is_none() && self.broken.is_none() {
            if self.gone == self.out.len() {
                self.out.clear();
                self.gone = 0;
                if self.out.capacity() > 1 << 22 {
                    self.out = Vec::new();
                }
                if !self.stage(1 << 16) {
                    return;
                }
            }
            match (&*socket).write(&self.out[self.gone..]) {
                Ok(0) => return self.lose(Error::io(io::ErrorKind::ConnectionReset, "the broker hung up")),
                Ok(length) => {
                    self.gone += length;
                    self.clock.sent = now();
                }
                Err(error) if error.kind() == io::ErrorKind::Interrupted => {}
                Err(error) if error.kind() == io::ErrorKind::WouldBlock => {
                    self.full = true;
                    return;
                }
                // What the broker still said is heard by the thread, which finds the socket's end behind it.
                Err(error) => {
                    self.full = true;
                    self.broken = Some(error.into());
                    return;
                }
            }
        }
    }

    // ---- calls

    /// Makes a call; its ticket. What was made before leaves before it: the session has methods overtake publishes that haven't begun, and a close
    /// overtakes all.
    pub fn ask(&mut self, opening: usize, method: &'static str, octets: &[u8], acks: bool, leaves: bool) -> Result<u64> {
        if let Some(error) = &self.lost {
            return Err(error.clone());
        }
        let Some(number) = self.opening(opening).map(|it| it.number) else {
            return Err(ErrorKind::InvalidChannelState(ChannelState::Closed, method).into());
        };
        if self.dirty {
            self.stage(usize::MAX);
        }
        let Some(session) = &mut self.session else { return Err(ErrorKind::InvalidConnectionState(ConnectionState::Connecting).into()) };
        let ticket = match session.call(number, octets) {
            Ok(ticket) => ticket,
            Err(status) => return Err(self.refusal(status, opening, method)),
        };
        self.dirty = true;
        self.tickets.insert(ticket, Ticket { opening, method, acks, leaves, waker: None, found: None, is_dropped: false });
        if leaves {
            self.leaving.push_back(ticket);
        } else if let Some(opening) = self.opening(opening) {
            opening.calls.push_back(ticket);
        }
        Ok(ticket)
    }

    /// The answer of a call, if it is there.
    pub fn reply(&mut self, ticket: u64, shared: &Arc<Shared>) -> Option<Result<Reply>> {
        let (opening, method, acks) = self.tickets.get(&ticket).map(|it| (it.opening, it.method, it.acks))?;
        let mut fields = Fields::default();
        let session = self.session.as_mut()?;
        match session.reply(ticket, &mut fields) {
            ffi::DONE => {}
            ffi::PENDING => return self.lost.clone().map(Err),
            status => return Some(Err(self.refusal(status, opening, method))),
        }
        let number = self.opening(opening).map_or(0, |it| it.number);
        Some(Ok(match fields.kind {
            3 => {
                self.take_answer();
                let tag = self.answer[..].into();
                self.add_consumer(fields.number, opening, number, acks);
                Reply::Consumer(fields.number, tag)
            }
            4 => {
                self.take_answer();
                let delivery = self.delivery_of(&fields.message, opening, number, shared);
                Reply::Got(Some(BasicGetMessage { delivery, message_count: fields.messages }))
            }
            5 => Reply::Got(None),
            6 => {
                self.take_answer();
                Reply::Queue(self.answer[..].into(), fields.messages, fields.consumers)
            }
            7 | 8 => Reply::Count(fields.number),
            _ => Reply::Done,
        }))
    }

    fn take_answer(&mut self) {
        if let Some(session) = &mut self.session {
            session.answer(&mut self.answer);
        }
    }

    // A consumer is registered, by the tag that is the answer. One whose tag another one had takes its place.
    fn add_consumer(&mut self, consumer: u64, opening: usize, channel: u16, acks: bool) {
        let tag: Box<[u8]> = self.answer[..].into();
        let fed = Fed {
            opening, channel, tag: tag.clone(), no_ack: !acks, ready: VecDeque::new(), wakers: BTreeMap::new(), dispatch: None, keeps: None, ended: false,
            is_dropped: false,
        };
        self.consumers.insert(consumer, fed);
        if let Some(opening) = self.opening(opening) {
            opening.tags.insert(tag, consumer);
            opening.consumers.insert(consumer);
        }
    }

    /// What a consumer is handed next.
    pub fn delivery(&mut self, consumer: u64, shared: &Arc<Shared>) -> Option<DeliveryResult> {
        let (opening, channel) = self.consumers.get(&consumer).map(|it| (it.opening, it.channel))?;
        let mut message = ffi::Message::default();
        match self.session.as_mut()?.delivery(consumer, &mut message) {
            ffi::PENDING => None,
            ffi::DONE => {
                self.take_answer();
                Some(Ok(Some(self.delivery_of(&message, opening, channel, shared))))
            }
            ffi::GONE => {
                self.end_consumer(consumer);
                Some(Ok(None))
            }
            status => Some(Err(self.refusal(status, opening, "basic.consume"))),
        }
    }

    fn end_consumer(&mut self, consumer: u64) {
        let Some(fed) = self.consumers.get_mut(&consumer) else { return };
        fed.ended = true;
        let (opening, tag) = (fed.opening, std::mem::take(&mut fed.tag));
        if let Some(opening) = self.opening(opening) {
            opening.consumers.remove(&consumer);
            if opening.tags.get(&tag) == Some(&consumer) {
                opening.tags.remove(&tag);
            }
        }
    }

    /// The message that is the answer.
    fn delivery_of(&self, message: &ffi::Message, opening: usize, channel: u16, shared: &Arc<Shared>) -> Delivery {
        let over = self.openings.get(opening).and_then(|it| it.as_ref()).map(|it| it.over.clone()).unwrap_or_default();
        let (exchange, rest) = self.answer.split_at(message.exchange);
        let (routing_key, rest) = rest.split_at(message.routing_key);
        let (properties, body) = rest.split_at(message.properties);
        Delivery {
            delivery_tag: message.delivery_tag,
            exchange: exchange.into(),
            routing_key: routing_key.into(),
            redelivered: message.redelivered,
            properties: BasicProperties::read(properties),
            data: body.to_vec(),
            acker: Acker::new(message.acker, message.delivery_tag, channel, Some(shared.clone()), over),
        }
    }
}

/// Milliseconds of a clock that only goes on.
pub fn now() -> u64 {
    static BEGINNING: std::sync::OnceLock<Instant> = std::sync::OnceLock::new();
    BEGINNING.get_or_init(Instant::now).elapsed().as_millis() as u64 + 1
}
