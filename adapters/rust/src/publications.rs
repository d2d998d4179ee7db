//! The publishes of one opening of a channel whose outcomes aren't told yet, and the octets of the mandatory ones.
//!
//! They stand in their order. The session says each outcome; a settlement's tag says which to ask for. A returned message names no publish, and the
//! session gives it to the publish that is settled next: here it goes to the oldest mandatory one that it equals in exchange, routing key,
//! properties and body, and where the broker changed the properties, in the rest.

use crate::{confirm::Confirmation, error::Error, message::BasicReturnMessage};
use std::{
    collections::{hash_map::RandomState, HashMap, VecDeque},
    hash::BuildHasher,
    task::Waker,
};

/// What is known of a publish.
pub enum Outcome {
    Ack,
    Nack,
    NotRequested,
    Error(Box<Error>),
}

/// A mandatory publish's octets, one behind the other, and what came back of it.
struct Kept {
    octets: Box<[u8]>,
    ends: [usize; 3],
    hash: u64,
    is_chained: bool,
    back: Option<BasicReturnMessage>,
}

impl Kept {
    fn parts(&self) -> [&[u8]; 4] {
        let [one, two, three] = self.ends;
        [&self.octets[..one], &self.octets[one..two], &self.octets[two..three], &self.octets[three..]]
    }
}

/// A publish.
struct Publication {
    confirm: u64,
    tag: u64,
    kept: Option<Box<Kept>>,
    outcome: Option<Outcome>,
    waker: Option<Waker>,
    is_dropped: bool,
    // Its own message may be one that the session gives next.
    is_held: bool,
    is_told: bool,
}

/// What a settled publish is told: its outcome, and the message that came back.
pub struct Found(Outcome, Option<BasicReturnMessage>);

impl Found {
    pub fn told(self) -> Result<Confirmation, Error> {
        match self.0 {
            Outcome::Ack => Ok(Confirmation::Ack(self.1)),
            Outcome::Nack => Ok(Confirmation::Nack(self.1)),
            Outcome::NotRequested => Ok(Confirmation::NotRequested),
            Outcome::Error(error) => Err(*error),
        }
    }
}

/// What a poll finds: who waits from now on takes the place of who waited.
pub enum Polled {
    Found(Found),
    Waits(Option<Waker>),
    Gone,
}

#[derive(Default)]
pub struct Publications {
    all: VecDeque<Publication>,
    // Those before it have their outcomes.
    open_from: usize,
    /// How many have no outcome.
    pub open: usize,
    told: usize,
    tag: u64,
    // By the hashes of what may come back: the numbers of their confirms, the oldest first. Until something comes back nothing is hashed.
    chains: HashMap<u64, VecDeque<u64>>,
    hashed: u64,
    state: RandomState,
    // Those that are held, and those of them whose message came.
    held: Vec<u64>,
    released: Vec<u64>,
    /// Messages that came back and that the session has given to nobody yet.
    pub due: u64,
}

impl Publications {
    /// Adds a publish of these parts by the number of its confirm; those of a mandatory one are kept.
    pub fn add(&mut self, confirm: u64, parts: Option<[&[u8]; 4]>) {
        self.tag += 1;
        self.open += 1;
        let kept = parts.map(|parts| {
            let mut at = 0;
            let ends = [0, 1, 2].map(|place: usize| {
                at += parts[place].len();
                at
            });
            Box::new(Kept { octets: parts.concat().into(), ends, hash: 0, is_chained: false, back: None })
        });
        self.make_room();
        self.all.push_back(Publication { confirm, tag: self.tag, kept, outcome: None, waker: None, is_dropped: false, is_held: false, is_told: false });
    }

    /// Whether nobody is to be told any outcome any more.
    pub fn is_empty(&self) -> bool {
        self.all.is_empty()
    }

    // Those that were told and stand between others go before room is made for more.
    fn make_room(&mut self) {
        if self.all.len() == self.all.capacity() && 2 * self.told > self.all.len() {
            self.open_from -= self.all.iter().take(self.open_from).filter(|it| it.is_told).count();
            self.all.retain(|it| !it.is_told);
            self.told = 0;
        }
    }

    // The first that isn't below, of numbers that stand in order: most are where they say.
    fn place(&self, number: u64, of: impl Fn(&Publication) -> u64) -> usize {
        let first = self.all.front().map_or(0, &of);
        let guess = usize::try_from(number.wrapping_sub(first)).unwrap_or(usize::MAX);
        match self.all.get(guess) {
            Some(it) if of(it) == number => guess,
            _ => self.all.partition_point(|it| of(it) < number),
        }
    }

    fn find(&mut self, confirm: u64) -> Option<&mut Publication> {
        let place = self.place(confirm, |it| it.confirm);
        self.all.get_mut(place).filter(|it| it.confirm == confirm && !it.is_told)
    }

    /// The places of those whom a settlement is about, so far as they have no outcome.
    pub fn covered(&self, tag: u64, multiple: bool) -> std::ops::Range<usize> {
        let place = self.place(tag, |it| it.tag);
        match (multiple, tag) {
            (true, 0) => self.open_from..self.all.len(),
            (true, _) => self.open_from..(place + usize::from(self.all.get(place).is_some_and(|it| it.tag == tag))).max(self.open_from),
            (false, _) => place..(place + 1).min(self.all.len()).max(place),
        }
    }

    /// The places of all that have no outcome.
    pub fn uncovered(&self) -> std::ops::Range<usize> {
        self.open_from..self.all.len()
    }

    /// The number of the confirm at a place; none where it has its outcome.
    pub fn open_at(&self, place: usize) -> Option<u64> {
        self.all.get(place).filter(|it| it.outcome.is_none() && !it.is_told).map(|it| it.confirm)
    }

    /// An outcome came for the one at a place. It is told by `settle`, once all that came with it was given.
    pub fn set(&mut self, place: usize, outcome: Outcome) {
        self.all[place].outcome = Some(outcome);
        self.open -= 1;
    }

    /// Tells those of these places that have their outcomes now: their wakers, and what those that nobody has were told.
    pub fn settle(&mut self, places: std::ops::Range<usize>, wakers: &mut Vec<Waker>, strays: &mut Vec<Found>) {
        let may_come = self.due > 0 && self.open > 0;
        for place in places {
            let it = &mut self.all[place];
            if it.is_told || it.is_held || it.outcome.is_none() {
                continue;
            }
            if may_come && it.kept.as_ref().is_some_and(|kept| kept.back.is_none()) && matches!(it.outcome, Some(Outcome::Ack | Outcome::Nack)) {
                it.is_held = true;
                self.held.push(it.confirm);
            } else {
                self.show(place, wakers, strays);
            }
        }
        let free = if may_come { std::mem::take(&mut self.released) } else { std::mem::take(&mut self.held) };
        for confirm in free {
            let place = self.place(confirm, |it| it.confirm);
            if let Some(it) = self.all.get_mut(place).filter(|it| it.confirm == confirm && it.is_held) {
                it.is_held = false;
                self.show(place, wakers, strays);
            }
        }
        while self.all.get(self.open_from).is_some_and(|it| it.is_told || it.outcome.is_some()) {
            self.open_from += 1;
        }
        self.pass_told();
        if self.open == 0 {
            self.due = 0; // what still comes back is nobody's
            self.released.clear();
        }
    }

    // One has its outcome, and nothing comes back for it any more.
    fn show(&mut self, place: usize, wakers: &mut Vec<Waker>, strays: &mut Vec<Found>) {
        let it = &mut self.all[place];
        wakers.extend(it.waker.take());
        let (confirm, is_dropped) = (it.confirm, it.is_dropped);
        if let Some(kept) = it.kept.as_mut().filter(|it| it.is_chained) {
            kept.is_chained = false;
            let hash = kept.hash;
            self.unchain(hash, confirm);
        }
        if is_dropped {
            strays.extend(self.tell(place));
        }
    }

    fn tell(&mut self, place: usize) -> Option<Found> {
        let it = &mut self.all[place];
        let found = Found(it.outcome.take()?, it.kept.take().and_then(|it| it.back));
        it.is_told = true;
        self.told += 1;
        Some(found)
    }

    fn pass_told(&mut self) {
        while self.all.front().is_some_and(|it| it.is_told) {
            self.all.pop_front();
            self.told -= 1;
            self.open_from = self.open_from.saturating_sub(1);
        }
    }

    /// The outcome of a publish, if it is there; else who waits for it is woken then.
    pub fn poll(&mut self, confirm: u64, waker: &Waker) -> Polled {
        let place = self.place(confirm, |it| it.confirm);
        let Some(it) = self.all.get_mut(place).filter(|it| it.confirm == confirm && !it.is_told) else { return Polled::Gone };
        if it.outcome.is_none() || it.is_held {
            return Polled::Waits(it.waker.replace(waker.clone()));
        }
        let found = self.tell(place);
        self.pass_told();
        found.map_or(Polled::Gone, Polled::Found)
    }

    /// Nobody has the confirm any more: what it was told, if that is there; and its waker.
    pub fn set_aside(&mut self, confirm: u64) -> (Option<Found>, Option<Waker>) {
        let place = self.place(confirm, |it| it.confirm);
        let Some(it) = self.find(confirm) else { return (None, None) };
        it.is_dropped = true;
        let waker = it.waker.take();
        let found = if it.outcome.is_some() && !it.is_held { self.tell(place) } else { None };
        self.pass_told();
        (found, waker)
    }

    // ---- messages that came back

    fn hash(&self, exchange: &[u8], routing_key: &[u8], body: &[u8]) -> u64 {
        self.state.hash_one((exchange, routing_key, body))
    }

    fn unchain(&mut self, hash: u64, confirm: u64) {
        if let Some(chain) = self.chains.get_mut(&hash) {
            if let Ok(place) = chain.binary_search(&confirm) {
                chain.remove(place);
            }
            if chain.is_empty() {
                self.chains.remove(&hash);
            }
        }
    }

    // Those that were published since something came back last stand in the chains too.
    fn chain_all(&mut self) {
        let from = self.place(self.hashed, |it| it.confirm);
        for place in from..self.all.len() {
            let it = &self.all[place];
            self.hashed = it.confirm + 1;
            let Some(kept) = it.kept.as_ref().filter(|kept| (it.outcome.is_none() || it.is_held) && kept.back.is_none()) else { continue };
            let [exchange, routing_key, _, body] = kept.parts();
            let hash = self.hash(exchange, routing_key, body);
            let it = &mut self.all[place];
            let confirm = it.confirm;
            if let Some(kept) = it.kept.as_mut() {
                kept.hash = hash;
                kept.is_chained = true;
                self.chains.entry(hash).or_default().push_back(confirm);
            }
        }
    }

    /// Gives a message that came back to its publish; the message, where it is nobody's here.
    pub fn give(&mut self, message: BasicReturnMessage, properties: &[u8]) -> Option<BasicReturnMessage> {
        self.due = self.due.saturating_sub(1);
        self.chain_all();
        let (exchange, routing_key) = (message.delivery.exchange.as_bytes(), message.delivery.routing_key.as_bytes());
        let hash = self.hash(exchange, routing_key, &message.delivery.data);
        let mut own = None;
        for confirm in self.chains.get(&hash).into_iter().flatten() {
            let place = self.place(*confirm, |it| it.confirm);
            let Some(kept) = self.all.get(place).and_then(|it| it.kept.as_ref()) else { continue };
            let parts = kept.parts();
            if [parts[0], parts[1], parts[3]] != [exchange, routing_key, &message.delivery.data[..]] {
                continue;
            }
            if parts[2] == properties {
                own = Some(*confirm);
                break;
            }
            own = own.or(Some(*confirm));
        }
        let Some(confirm) = own else { return Some(message) };
        self.unchain(hash, confirm);
        let Some(it) = self.find(confirm) else { return Some(message) };
        let (is_held, Some(kept)) = (it.is_held, it.kept.as_mut()) else { return Some(message) };
        kept.is_chained = false;
        kept.back = Some(message);
        if is_held {
            self.released.push(confirm);
        }
        None
    }
}
