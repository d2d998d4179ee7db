//! What a connection and a channel are doing, asked of the session.

use crate::shared::Shared;
use std::{fmt, sync::Arc};

/// The states of a connection.
#[derive(Clone, Copy, Debug, Default, PartialEq, Eq)]
pub enum ConnectionState {
    /// Nothing was done.
    #[default]
    Initial,
    /// It is being opened.
    Connecting,
    /// It is open.
    Connected,
    /// One side closes it.
    Closing,
    /// It was closed.
    Closed,
    /// It was lost, or the broker closed it.
    Error,
}

impl ConnectionState {
    /// That of the session's number.
    pub(crate) fn of(state: u32) -> ConnectionState {
        match state {
            0 => ConnectionState::Connected,
            1 => ConnectionState::Closing,
            2 => ConnectionState::Closed,
            _ => ConnectionState::Error,
        }
    }
}

/// The states of a channel.
#[derive(Clone, Copy, Debug, Default, PartialEq, Eq)]
pub enum ChannelState {
    /// It is being opened.
    #[default]
    Initial,
    /// It is open.
    Connected,
    /// One side closes it.
    Closing,
    /// It was closed.
    Closed,
    /// Its connection has ended.
    Error,
}

impl ChannelState {
    /// That of the session's number.
    pub(crate) fn of(state: u32) -> ChannelState {
        match state {
            1 => ChannelState::Initial,
            2 | 5 => ChannelState::Connected,
            3 | 4 => ChannelState::Closing,
            6 => ChannelState::Error,
            _ => ChannelState::Closed,
        }
    }
}

/// What a connection is doing now.
#[derive(Clone)]
pub struct ConnectionStatus {
    pub(crate) shared: Arc<Shared>,
}

impl ConnectionStatus {
    /// Its state.
    pub fn state(&self) -> ConnectionState {
        self.shared.connection_state()
    }

    /// The virtual host.
    pub fn vhost(&self) -> String {
        self.shared.vhost.clone()
    }

    /// The user.
    pub fn username(&self) -> String {
        self.shared.username.clone()
    }

    /// Whether it is open.
    pub fn connected(&self) -> bool {
        self.state() == ConnectionState::Connected
    }

    /// Whether it is being opened.
    pub fn connecting(&self) -> bool {
        self.state() == ConnectionState::Connecting
    }

    /// Whether one side closes it.
    pub fn closing(&self) -> bool {
        self.state() == ConnectionState::Closing
    }

    /// Whether it was closed.
    pub fn closed(&self) -> bool {
        self.state() == ConnectionState::Closed
    }

    /// Whether it was lost, or the broker closed it.
    pub fn errored(&self) -> bool {
        self.state() == ConnectionState::Error
    }

    /// Whether the broker said that it takes no messages just now: publishes wait until it does again.
    pub fn blocked(&self) -> bool {
        self.shared.is_blocked()
    }
}

impl fmt::Debug for ConnectionStatus {
    fn fmt(&self, f: &mut fmt::Formatter<'_>) -> fmt::Result {
        f.debug_struct("ConnectionStatus").field("state", &self.state()).field("vhost", &self.vhost()).field("username", &self.username()).finish()
    }
}

/// What a channel is doing now.
#[derive(Clone)]
pub struct ChannelStatus {
    pub(crate) shared: Arc<Shared>,
    pub(crate) place: usize,
    pub(crate) id: u16,
}

impl ChannelStatus {
    /// Its state.
    pub fn state(&self) -> ChannelState {
        self.shared.channel_state(self.place)
    }

    /// Whether it is being opened.
    pub fn initializing(&self) -> bool {
        self.state() == ChannelState::Initial
    }

    /// Whether it is open.
    pub fn connected(&self) -> bool {
        self.state() == ChannelState::Connected
    }

    /// Whether one side closes it.
    pub fn closing(&self) -> bool {
        self.state() == ChannelState::Closing
    }
}

impl fmt::Debug for ChannelStatus {
    fn fmt(&self, f: &mut fmt::Formatter<'_>) -> fmt::Result {
        f.debug_struct("ChannelStatus").field("id", &self.id).field("state", &self.state()).finish()
    }
}
