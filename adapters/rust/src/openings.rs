//! What stands in a connection beside the session's own: channels from their opening on, calls without a told answer, and consumers.
//!
//! A channel has a place here until nobody has it and nothing of it is to be told; its number is free before that, once it has ended.

use crate::{
    channel::Opened,
    error::{Error, Result},
    later::Dispatch,
    message::{BasicReturnMessage, DeliveryResult},
    publications::Publications,
    state::{Reply, State},
    status::ChannelState,
};
use std::{
    collections::{BTreeMap, BTreeSet, HashMap, VecDeque},
    sync::{
        atomic::{AtomicBool, Ordering},
        Arc,
    },
    task::Waker,
};

/// A call whose answer wasn't told.
pub struct Ticket {
    pub opening: usize,
    pub method: &'static str,
    /// Whether what it brings is to be acknowledged.
    pub acks: bool,
    /// Whether it is answered once it has left.
    pub leaves: bool,
    pub waker: Option<Waker>,
    pub found: Option<Result<Reply>>,
    pub is_dropped: bool,
}

/// A channel from its opening on, beside what the session has of it; of number 0 the connection's own.
#[derive(Default)]
pub struct Opening {
    pub number: u16,
    /// Whether somebody has it.
    pub is_held: bool,
    /// Whether confirms were asked for.
    pub selected: bool,
    pub publications: Publications,
    /// The calls that wait for an answer, in their order.
    pub calls: VecDeque<u64>,
    pub tags: HashMap<Box<[u8]>, u64>,
    /// Those of its consumers that have not ended.
    pub consumers: BTreeSet<u64>,
    /// Whose message comes, 0 where that isn't known.
    pub current: u64,
    pub waits: BTreeMap<u64, Waker>,
    /// Messages that came back and that no confirm gives, and the first error of a confirm that nobody has.
    pub returned: Vec<BasicReturnMessage>,
    pub error: Option<Error>,
    /// Whether it has ended, as its ackers ask.
    pub over: Arc<AtomicBool>,
}

impl Opening {
    pub fn is_over(&self) -> bool {
        self.over.load(Ordering::Acquire)
    }
}

/// A consumer.
pub struct Fed {
    pub opening: usize,
    pub channel: u16,
    pub tag: Box<[u8]>,
    pub no_ack: bool,
    pub ready: VecDeque<DeliveryResult>,
    /// Those of its clones that wait, by their numbers.
    pub wakers: BTreeMap<u64, Waker>,
    pub dispatch: Option<Arc<Dispatch>>,
    /// What its channel is kept open by.
    pub keeps: Option<Arc<Opened>>,
    pub ended: bool,
    /// Whether nobody has it: with a delegate it goes on, without one it ends.
    pub is_dropped: bool,
}

impl State {
    /// A place for a channel of a number that is free; none where there is none.
    pub fn take_number(&mut self) -> Option<usize> {
        let most = if self.limits.channel_max == 0 { u16::MAX } else { self.limits.channel_max };
        let number = match self.free.pop() {
            Some(number) => number,
            None if self.next_number <= most && self.next_number > 0 => {
                let number = self.next_number;
                self.next_number = number.wrapping_add(1);
                number
            }
            None => return None,
        };
        let opening = Some(Box::new(Opening { number, is_held: true, ..Opening::default() }));
        let place = match self.places.pop() {
            Some(place) => {
                self.openings[place] = opening;
                place
            }
            None => {
                self.openings.push(opening);
                self.openings.len() - 1
            }
        };
        self.numbers.insert(number, place);
        Some(place)
    }

    /// What nobody has any more is let go: a channel's number once it has ended, and its place once nothing of it is to be told.
    pub fn let_go(&mut self, place: usize) {
        let Some((number, is_held)) = self.opening(place).map(|it| (it.number, it.is_held)) else { return };
        if number == 0 || is_held {
            return;
        }
        let is_free = matches!(self.channel_state(number), ChannelState::Closed | ChannelState::Error);
        if is_free && self.numbers.get(&number) == Some(&place) {
            self.numbers.remove(&number);
            self.free.push(number);
        }
        let Some(opening) = self.opening(place) else { return };
        if is_free && opening.publications.is_empty() && opening.calls.is_empty() && opening.consumers.is_empty() {
            self.openings[place] = None;
            self.places.push(place);
        }
    }
}
