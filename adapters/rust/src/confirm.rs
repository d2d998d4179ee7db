//! What became of a publish.

use crate::{message::BasicReturnMessage, shared::Shared, Result};
use std::{
    fmt,
    future::Future,
    pin::Pin,
    sync::Arc,
    task::{Context, Poll},
};

/// What the broker said of a publish, with the message where it came back.
#[derive(Debug, PartialEq)]
pub enum Confirmation {
    /// The broker answers for it; with a message no queue wanted it.
    Ack(Option<BasicReturnMessage>),
    /// The broker doesn't answer for it.
    Nack(Option<BasicReturnMessage>),
    /// No confirms were asked for.
    NotRequested,
}

impl Confirmation {
    /// The message that came back.
    pub fn take_message(self) -> Option<BasicReturnMessage> {
        match self {
            Confirmation::Ack(message) | Confirmation::Nack(message) => message,
            Confirmation::NotRequested => None,
        }
    }

    /// Whether it is an ack.
    pub fn is_ack(&self) -> bool {
        matches!(self, Confirmation::Ack(_))
    }

    /// Whether it is a nack.
    pub fn is_nack(&self) -> bool {
        matches!(self, Confirmation::Nack(_))
    }
}

enum Inner {
    Asked { shared: Arc<Shared>, confirm: u64, place: usize },
    NotRequested,
    Told,
}

/// The outcome of one publish, and of no other. Where it is dropped, `wait_for_confirms` tells the message that comes back, or the error.
pub struct PublisherConfirm(Inner);

impl PublisherConfirm {
    pub(crate) fn new(shared: Arc<Shared>, place: usize, confirm: Option<u64>) -> PublisherConfirm {
        PublisherConfirm(match confirm {
            Some(confirm) => Inner::Asked { shared, confirm, place },
            None => Inner::NotRequested,
        })
    }
}

impl Future for PublisherConfirm {
    type Output = Result<Confirmation>;

    fn poll(mut self: Pin<&mut Self>, cx: &mut Context<'_>) -> Poll<Self::Output> {
        let found = match &self.0 {
            Inner::Asked { shared, confirm, place } => std::task::ready!(shared.poll_confirm(*place, *confirm, cx)),
            Inner::NotRequested => Ok(Confirmation::NotRequested),
            Inner::Told => panic!("a confirm was polled behind its outcome"),
        };
        self.0 = Inner::Told;
        Poll::Ready(found)
    }
}

impl Drop for PublisherConfirm {
    fn drop(&mut self) {
        if let Inner::Asked { shared, confirm, place } = &self.0 {
            shared.drop_confirm(*place, *confirm);
        }
    }
}

impl fmt::Debug for PublisherConfirm {
    fn fmt(&self, f: &mut fmt::Formatter<'_>) -> fmt::Result {
        f.debug_struct("PublisherConfirm").finish()
    }
}
