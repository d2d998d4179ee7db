//! The calls of the crate lapin over the proved session of this repository: one adds this crate in the place of lapin, and `use lapin::..` stays.
//!
//! Each connection has a thread for its socket, its heartbeats and its wakers. Connections and channels are used by any number of threads, and
//! their futures are polled by any executor. README.md says what differs from lapin, and what isn't there.

#![deny(missing_docs)]
#![deny(unsafe_code)]
#![warn(rust_2018_idioms)]

mod acker;
mod channel;
mod confirm;
mod connection;
mod consumer;
mod error;
mod ffi;
pub mod message;
pub mod options;
pub mod protocol;
pub mod runtime;
mod later;
mod look;
mod methods;
mod octets;
mod openings;
mod publications;
mod publishing;
mod reading;
mod returned;
mod seen;
mod shared;
mod state;
mod status;
mod thread;
pub mod types;
pub mod uri;
mod waiting;

pub use acker::Acker;
pub use channel::{Channel, ExchangeKind, Queue};
pub use confirm::{Confirmation, PublisherConfirm};
pub use connection::{Configuration, Connection, ConnectionProperties};
pub use consumer::{Consumer, ConsumerDelegate};
pub use error::{Error, ErrorKind, Result};
pub use protocol::BasicProperties;
pub use status::{ChannelState, ChannelStatus, ConnectionState, ConnectionStatus};

/// What the library is that this crate is over: its release, `proved` or `unproved`, and the sha-256 of its text.
pub fn library_version() -> &'static str {
    ffi::version()
}
