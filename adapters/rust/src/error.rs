//! What a call fails by.

use crate::{
    protocol::{AMQPError, AMQPErrorKind},
    status::{ChannelState, ConnectionState},
    types::{ChannelId, ShortString},
};
use std::{error, fmt, io, sync::Arc};

/// What a call answers.
pub type Result<T> = std::result::Result<T, Error>;

/// Why a call failed.
#[derive(Clone)]
pub struct Error(ErrorKind);

/// The kinds of errors.
#[derive(Clone, Debug)]
#[non_exhaustive]
pub enum ErrorKind {
    /// No number of a channel is left.
    ChannelsLimitReached,
    /// The broker speaks another version.
    InvalidProtocolVersion,
    /// There is no such channel.
    InvalidChannel(ChannelId),
    /// The state of the channel doesn't allow this call.
    InvalidChannelState(ChannelState, &'static str),
    /// The state of the connection doesn't allow it.
    InvalidConnectionState(ConnectionState),
    /// The socket's; the connection is lost.
    IOError(Arc<io::Error>),
    /// What came is not in the protocol; the connection is lost.
    ParsingError(String),
    /// The broker closed the channel or the connection by it, with its words, or this side did so.
    ProtocolError(AMQPError),
    /// An argument can't be sent; nothing was done.
    SerialisationError(String),
    /// The broker was silent for two heartbeats; the connection is lost.
    MissingHeartbeatError,
    /// There was no memory.
    NoMemory,
    /// The session refused it: why.
    Refused(&'static str),
}

impl Error {
    /// Its kind.
    pub fn kind(&self) -> &ErrorKind {
        &self.0
    }

    /// Whether the broker, or this side, closed something by it.
    pub fn is_amqp_error(&self) -> bool {
        matches!(self.0, ErrorKind::ProtocolError(_))
    }

    /// Whether it closed a channel.
    pub fn is_amqp_soft_error(&self) -> bool {
        matches!(&self.0, ErrorKind::ProtocolError(it) if matches!(it.kind(), AMQPErrorKind::Soft(_)))
    }

    /// Whether it closed the connection.
    pub fn is_amqp_hard_error(&self) -> bool {
        matches!(&self.0, ErrorKind::ProtocolError(it) if matches!(it.kind(), AMQPErrorKind::Hard(_)))
    }

    /// Whether it is the socket's.
    pub fn is_io_error(&self) -> bool {
        matches!(self.0, ErrorKind::IOError(_))
    }

    pub(crate) fn io(kind: io::ErrorKind, why: &'static str) -> Error {
        io::Error::new(kind, why).into()
    }

    /// The error of a code, with the broker's words; of one that the standard hasn't, the nearest there is.
    pub(crate) fn of_code(code: u16, words: ShortString) -> Error {
        match AMQPError::from_id(code, words.clone()) {
            Some(error) => ErrorKind::ProtocolError(error).into(),
            None => ErrorKind::ParsingError(format!("reply code {code} {:?}", words.as_str())).into(),
        }
    }
}

impl From<ErrorKind> for Error {
    fn from(kind: ErrorKind) -> Self {
        Error(kind)
    }
}

impl From<io::Error> for Error {
    fn from(error: io::Error) -> Self {
        Error(ErrorKind::IOError(Arc::new(error)))
    }
}

impl fmt::Debug for Error {
    fn fmt(&self, f: &mut fmt::Formatter<'_>) -> fmt::Result {
        self.0.fmt(f)
    }
}

impl fmt::Display for Error {
    fn fmt(&self, f: &mut fmt::Formatter<'_>) -> fmt::Result {
        match &self.0 {
            ErrorKind::ChannelsLimitReached => f.write_str("no channel is left"),
            ErrorKind::InvalidProtocolVersion => f.write_str("another version of the protocol"),
            ErrorKind::InvalidChannel(id) => write!(f, "no channel {id}"),
            ErrorKind::InvalidChannelState(state, call) => write!(f, "{call}: the channel is {state:?}"),
            ErrorKind::InvalidConnectionState(state) => write!(f, "the connection is {state:?}"),
            ErrorKind::IOError(error) => error.fmt(f),
            ErrorKind::ParsingError(what) => write!(f, "what came is not in the protocol: {what}"),
            ErrorKind::ProtocolError(error) => error.fmt(f),
            ErrorKind::SerialisationError(what) => write!(f, "can't be sent: {what}"),
            ErrorKind::MissingHeartbeatError => f.write_str("the broker was silent for two heartbeats"),
            ErrorKind::NoMemory => f.write_str("no memory"),
            ErrorKind::Refused(why) => f.write_str(why),
        }
    }
}

impl error::Error for Error {}

impl PartialEq for Error {
    fn eq(&self, other: &Self) -> bool {
        match (&self.0, &other.0) {
            (ErrorKind::IOError(one), ErrorKind::IOError(other)) => one.kind() == other.kind(),
            (one, other) => format!("{one:?}") == format!("{other:?}"),
        }
    }
}
