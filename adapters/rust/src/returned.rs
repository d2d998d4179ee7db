//! A message that came back, of the numbers and octets by which the session tells it.

use crate::{
    acker::Acker,
    ffi,
    message::{BasicReturnMessage, Delivery},
    protocol::BasicProperties,
    types::ShortString,
};

/// A message that came back, with the octets of its list of properties.
pub type Returned = (BasicReturnMessage, Vec<u8>);

/// The message whose octets these are: exchange, routing key, list of properties, body and the broker's text, one behind the other.
pub fn message(numbers: &ffi::Return, octets: &[u8]) -> Returned {
    let parts = &numbers.message;
    let mut rest = octets;
    let mut part = |length: usize| {
        let (part, behind) = rest.split_at(length.min(rest.len()));
        rest = behind;
        part
    };
    let (exchange, routing_key) = (part(parts.exchange).into(), part(parts.routing_key).into());
    let (listed, data) = (part(parts.properties).to_vec(), part(parts.body).to_vec());
    let reply_text = ShortString::from(part(numbers.text));
    let properties = BasicProperties::read(&listed);
    let (delivery_tag, redelivered) = (parts.delivery_tag, parts.redelivered);
    let delivery = Delivery { delivery_tag, exchange, routing_key, redelivered, properties, data, acker: Acker::used() };
    (BasicReturnMessage { delivery, reply_code: numbers.code, reply_text }, listed)
}

#[cfg(test)]
mod tests {
    use super::*;

    #[test]
    fn parts_stand_one_behind_the_other() {
        let parts = ffi::Message { exchange: 1, routing_key: 3, properties: 3, body: 2, ..Default::default() };
        let (message, listed) = message(&ffi::Return { code: 312, text: 2, message: parts }, b"ekey\x08\x00\x0bhiNO");
        assert_eq!((message.reply_code, message.reply_text.as_str(), &listed[..]), (312, "NO", &[8, 0, 11][..]));
        assert_eq!((message.exchange.as_str(), message.routing_key.as_str(), &message.data[..]), ("e", "key", &b"hi"[..]));
        assert_eq!(message.properties.priority(), &Some(11));
    }
}
