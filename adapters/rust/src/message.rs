//! Messages.

use crate::{
    acker::Acker,
    protocol::{AMQPError, BasicProperties},
    types::{DeliveryTag, MessageCount, ReplyCode, ShortString},
    Result,
};
use std::ops::{Deref, DerefMut};

/// A message; `None` at the consumer's end; or the error that ended its channel, behind which the end comes.
pub type DeliveryResult = Result<Option<Delivery>>;

/// A message that a consumer was given.
#[derive(Debug, PartialEq)]
pub struct Delivery {
    /// Its number on its channel.
    pub delivery_tag: DeliveryTag,
    /// The exchange that it was published to.
    pub exchange: ShortString,
    /// Its routing key.
    pub routing_key: ShortString,
    /// Whether it was delivered before.
    pub redelivered: bool,
    /// Its properties.
    pub properties: BasicProperties,
    /// Its body.
    pub data: Vec<u8>,
    /// What settles it; the message itself has its calls too.
    pub acker: Acker,
}

impl Delivery {
    /// A message for tests, without a connection.
    pub fn mock(delivery_tag: DeliveryTag, exchange: ShortString, routing_key: ShortString, redelivered: bool, data: Vec<u8>) -> Self {
        let (properties, acker) = (BasicProperties::default(), Acker::new(0, delivery_tag, 0, None, Default::default()));
        Delivery { delivery_tag, exchange, routing_key, redelivered, properties, data, acker }
    }
}

impl Deref for Delivery {
    type Target = Acker;

    fn deref(&self) -> &Acker {
        &self.acker
    }
}

macro_rules! over_delivery {
    ($name:ident) => {
        impl Deref for $name {
            type Target = Delivery;

            fn deref(&self) -> &Delivery {
                &self.delivery
            }
        }

        impl DerefMut for $name {
            fn deref_mut(&mut self) -> &mut Delivery {
                &mut self.delivery
            }
        }
    };
}

/// A message that was got, and how many the queue still has.
#[derive(Debug, PartialEq)]
pub struct BasicGetMessage {
    /// The message.
    pub delivery: Delivery,
    /// How many the queue still has.
    pub message_count: MessageCount,
}

/// A message that came back; its acker settles nothing.
#[derive(Debug, PartialEq)]
pub struct BasicReturnMessage {
    /// The message.
    pub delivery: Delivery,
    /// Why it came back, by its code.
    pub reply_code: ReplyCode,
    /// Why it came back, in the broker's words.
    pub reply_text: ShortString,
}

over_delivery!(BasicGetMessage);
over_delivery!(BasicReturnMessage);

impl BasicReturnMessage {
    /// Why it came back.
    pub fn error(&self) -> Option<AMQPError> {
        AMQPError::from_id(self.reply_code, self.reply_text.clone())
    }
}
