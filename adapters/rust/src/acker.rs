//! What settles a message, once.

use crate::{
    ffi::Session,
    options::{BasicAckOptions, BasicNackOptions, BasicRejectOptions},
    shared::Shared,
    types::{ChannelId, DeliveryTag},
    Result,
};
use std::{
    fmt,
    sync::{
        atomic::{AtomicBool, Ordering},
        Arc,
    },
};

/// Settles a message, once: of clones the first that is called. A call answers whether it is sent; it isn't where the message was settled
/// before or its channel has ended.
#[derive(Clone)]
pub struct Acker {
    number: u64,
    delivery_tag: DeliveryTag,
    channel: ChannelId,
    shared: Option<Arc<Shared>>,
    used: Arc<AtomicBool>,
    over: Arc<AtomicBool>,
}

impl Acker {
    pub(crate) fn new(number: u64, delivery_tag: DeliveryTag, channel: ChannelId, shared: Option<Arc<Shared>>, over: Arc<AtomicBool>) -> Acker {
        Acker { number, delivery_tag, channel, shared, used: Arc::default(), over }
    }

    pub(crate) fn used() -> Acker {
        Acker { number: 0, delivery_tag: 0, channel: 0, shared: None, used: Arc::new(true.into()), over: Arc::default() }
    }

    /// Its number, where it wasn't called; it is used up.
    pub(crate) fn take(&self) -> Option<u64> {
        (!self.used.swap(true, Ordering::AcqRel)).then_some(self.number)
    }

    fn call(&self, method: &'static str, call: impl FnOnce(&mut Session, u64) -> u32) -> Result<bool> {
        match (self.take(), &self.shared) {
            (None, _) => Ok(false),
            (Some(number), Some(shared)) => shared.settle(method, |session| call(session, number)),
            (Some(_), None) => Ok(true),
        }
    }

    /// Acknowledges it, and with `multiple` all of its channel before it.
    pub async fn ack(&self, options: BasicAckOptions) -> Result<bool> {
        self.call("basic.ack", |session, number| session.ack(number, options.multiple))
    }

    /// Refuses it: with `requeue` it goes back to its queue.
    pub async fn nack(&self, options: BasicNackOptions) -> Result<bool> {
        self.call("basic.nack", |session, number| session.nack(number, options.multiple, options.requeue))
    }

    /// Refuses it, and it alone.
    pub async fn reject(&self, options: BasicRejectOptions) -> Result<bool> {
        self.call("basic.reject", |session, number| session.reject(number, options.requeue))
    }

    /// Whether its channel has ended.
    pub fn poisoned(&self) -> bool {
        self.over.load(Ordering::Acquire)
    }

    /// Whether it wasn't called, and isn't poisoned.
    pub fn usable(&self) -> bool {
        !self.used.load(Ordering::Acquire) && !self.poisoned()
    }
}

impl fmt::Debug for Acker {
    fn fmt(&self, f: &mut fmt::Formatter<'_>) -> fmt::Result {
        f.debug_struct("Acker").field("channel", &self.channel).field("delivery_tag", &self.delivery_tag).finish_non_exhaustive()
    }
}

impl PartialEq for Acker {
    fn eq(&self, other: &Acker) -> bool {
        (self.channel, self.delivery_tag) == (other.channel, other.delivery_tag)
    }
}
