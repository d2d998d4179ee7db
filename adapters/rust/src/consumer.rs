//! Consumers.

use crate::{
    channel::Opened,
    message::{Delivery, DeliveryResult},
    shared::Shared,
    types::ShortString,
    Result,
};
use std::{
    fmt,
    future::{ready, Future},
    pin::Pin,
    sync::{
        atomic::{AtomicU64, Ordering},
        Arc,
    },
    task::{Context, Poll},
};

/// What is done with each message. It is called on the executor, and the future that it gives runs there.
pub trait ConsumerDelegate: Send + Sync {
    /// A message, the consumer's end, or the error that ended its channel. Those of one consumer are handed over in their order.
    fn on_new_delivery(&self, delivery: DeliveryResult) -> Pin<Box<dyn Future<Output = ()> + Send>>;

    /// Called in lapin as a connection is recovered, which isn't done here.
    fn drop_prefetched_messages(&self) -> Pin<Box<dyn Future<Output = ()> + Send>> {
        Box::pin(ready(()))
    }
}

impl<F: Future<Output = ()> + Send + 'static, D: Fn(DeliveryResult) -> F + Send + Sync + 'static> ConsumerDelegate for D {
    /// A message, the consumer's end, or the error that ended its channel. Those of one consumer are handed over in their order.
    fn on_new_delivery(&self, delivery: DeliveryResult) -> Pin<Box<dyn Future<Output = ()> + Send>> {
        Box::pin(self(delivery))
    }
}

/// The messages of a queue, one after the other, by `next`, as a `Stream` of the manifest in `stream/`, or by a delegate. Where the last clone is
/// dropped and there is no delegate, it is cancelled, and what it was handed goes back.
pub struct Consumer {
    inner: Arc<Inner>,
    clone: u64,
}

struct Inner {
    clones: AtomicU64,
    shared: Arc<Shared>,
    channel: Arc<Opened>,
    number: u64,
    tag: ShortString,
    queue: ShortString,
}

impl Consumer {
    pub(crate) fn new(shared: Arc<Shared>, channel: Arc<Opened>, number: u64, tag: ShortString, queue: ShortString) -> Consumer {
        Consumer { inner: Arc::new(Inner { clones: AtomicU64::new(1), shared, channel, number, tag, queue }), clone: 0 }
    }

    /// Its tag.
    pub fn tag(&self) -> ShortString {
        self.inner.tag.clone()
    }

    /// The queue that it was asked for.
    pub fn queue(&self) -> ShortString {
        self.inner.queue.clone()
    }

    /// Each message, those that wait first, is handed to the delegate.
    pub fn set_delegate<D: ConsumerDelegate + 'static>(&self, delegate: D) {
        self.inner.shared.set_delegate(self.inner.number, Arc::new(delegate), self.inner.channel.clone());
    }

    /// The next message, if it is there; None at the end.
    pub fn poll_message(&mut self, cx: &mut Context<'_>) -> Poll<Option<Result<Delivery>>> {
        self.inner.shared.poll_delivery(self.inner.number, self.clone, cx)
    }

    /// The next message. Dropped before it is there, nothing is lost. (With the feature `stream` it is the one of a `StreamExt`.)
    #[cfg(not(feature = "stream"))]
    #[allow(clippy::should_implement_trait)]
    pub async fn next(&mut self) -> Option<Result<Delivery>> {
        std::future::poll_fn(|cx| self.poll_message(cx)).await
    }
}

impl Clone for Consumer {
    fn clone(&self) -> Consumer {
        Consumer { inner: self.inner.clone(), clone: self.inner.clones.fetch_add(1, Ordering::Relaxed) }
    }
}

impl Drop for Consumer {
    fn drop(&mut self) {
        self.inner.shared.drop_clone(self.inner.number, self.clone);
    }
}

impl Drop for Inner {
    fn drop(&mut self) {
        self.shared.drop_consumer(self.number);
    }
}

#[cfg(feature = "stream")]
impl futures_core::Stream for Consumer {
    type Item = Result<Delivery>;

    fn poll_next(mut self: Pin<&mut Self>, cx: &mut Context<'_>) -> Poll<Option<Self::Item>> {
        self.poll_message(cx)
    }
}

impl fmt::Debug for Consumer {
    fn fmt(&self, f: &mut fmt::Formatter<'_>) -> fmt::Result {
        f.debug_struct("Consumer").field("tag", &self.inner.tag).finish_non_exhaustive()
    }
}
