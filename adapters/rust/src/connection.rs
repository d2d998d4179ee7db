//! A connection.

use crate::{
    channel::{answer, Channel},
    error::{Error, ErrorKind, Result},
    ffi::{wipe, Limits},
    methods::{self, Method},
    octets::{put_pairs, Reader},
    runtime::{default_runtime, Executor},
    shared::Shared,
    status::ConnectionStatus,
    thread,
    types::{FieldTable, LongString, ReplyCode, ShortString},
    uri::{AMQPAuthority, AMQPUri},
};
use std::{fmt, future::poll_fn, os::unix::net::UnixStream, sync::Arc, time::Duration};

/// What a connection is opened with.
#[derive(Clone, Debug, Default)]
pub struct ConnectionProperties {
    client_properties: FieldTable,
}

impl ConnectionProperties {
    /// What the broker's management shows.
    pub fn with_connection_name(mut self, name: LongString) -> Self {
        self.client_properties.insert("connection_name".into(), name.into());
        self
    }

    /// Further properties that the broker is told, as `product`. What this side can do, `capabilities`, is its own to tell.
    pub fn with_client_properties(mut self, properties: FieldTable) -> Self {
        for (key, value) in &properties {
            self.client_properties.insert(key.clone(), value.clone());
        }
        self
    }
}

/// Where a connection goes, with which limits, and what is told of this side.
pub(crate) struct Target {
    pub host: String,
    pub port: u16,
    pub limits: Limits,
    pub patience: Option<Duration>,
    user: Vec<u8>,
    password: Vec<u8>,
    vhost: Vec<u8>,
    pairs: Vec<u8>,
}

impl Target {
    fn new(uri: AMQPUri, properties: &ConnectionProperties) -> Result<Target> {
        let AMQPUri { authority: AMQPAuthority { userinfo, host, port }, vhost, query } = uri;
        let limits = Limits {
            stage: 0,
            frame_max: query.frame_max.unwrap_or(131_072),
            channel_max: query.channel_max.unwrap_or(2047),
            heartbeat: query.heartbeat.unwrap_or(60),
            mechanism: query.auth_mechanism.unwrap_or_default() as u32,
        };
        let mut pairs = Vec::new();
        put_pairs(&mut pairs, &properties.client_properties, 0).map_err(|why| ErrorKind::SerialisationError(why.into()))?;
        let patience = query.connection_timeout.map(Duration::from_millis);
        Ok(Target { host, port, limits, patience, user: userinfo.username.into(), password: userinfo.password.into(), vhost: vhost.into(), pairs })
    }

    /// The user, the password, the virtual host, and further pairs of the client's properties.
    pub fn who(&self) -> [&[u8]; 4] {
        [&self.user, &self.password, &self.vhost, &self.pairs]
    }
}

impl Drop for Target {
    fn drop(&mut self) {
        wipe(&mut self.password);
    }
}

/// The limits that both sides keep.
#[derive(Clone, Copy, Debug)]
pub struct Configuration {
    channel_max: u16,
    frame_max: u32,
    heartbeat: u16,
}

impl Configuration {
    /// How many channels there may be, 0 for no limit.
    pub fn channel_max(&self) -> u16 {
        self.channel_max
    }

    /// How many octets a frame may have.
    pub fn frame_max(&self) -> u32 {
        self.frame_max
    }

    /// Seconds between heartbeats, 0 for none.
    pub fn heartbeat(&self) -> u16 {
        self.heartbeat
    }
}

/// Closes the connection as the last that has it, or a channel of it, is dropped.
pub struct Closer(Arc<Shared>);

impl Drop for Closer {
    fn drop(&mut self) {
        if let Ok(octets) = methods::close(10, 50, 200, &"".into()).octets() {
            self.0.drop_connection(&octets);
        }
    }
}

/// A connection to a broker, for any number of threads. Its own thread ends with it. In a process that was forked each call of it fails.
pub struct Connection {
    shared: Arc<Shared>,
    closer: Arc<Closer>,
    status: ConnectionStatus,
    configuration: Configuration,
    server_properties: FieldTable,
}

impl Connection {
    /// Opens one; delegates run on threads that all connections share.
    pub async fn connect(uri: &str, properties: ConnectionProperties) -> Result<Connection> {
        Connection::connect_with_runtime(uri, properties, default_runtime()?).await
    }

    /// The same; delegates run on this executor.
    pub async fn connect_with_runtime(uri: &str, properties: ConnectionProperties, runtime: impl Executor) -> Result<Connection> {
        let uri = uri.parse().map_err(|why| Error::from(ErrorKind::SerialisationError(why)))?;
        Connection::connect_uri_with_runtime(uri, properties, runtime).await
    }

    /// The same by the parts of an address.
    pub async fn connect_uri(uri: AMQPUri, properties: ConnectionProperties) -> Result<Connection> {
        Connection::connect_uri_with_runtime(uri, properties, default_runtime()?).await
    }

    /// The same with an executor.
    pub async fn connect_uri_with_runtime(uri: AMQPUri, properties: ConnectionProperties, runtime: impl Executor) -> Result<Connection> {
        let (wake, woken) = UnixStream::pair()?;
        wake.set_nonblocking(true)?;
        woken.set_nonblocking(true)?;
        let (vhost, username) = (uri.vhost.clone(), uri.authority.userinfo.username.clone());
        let target = Target::new(uri, &properties)?;
        let shared = Shared::new(vhost, username, target.limits, Arc::new(runtime), wake);
        thread::start(&shared, target, woken)?;
        let closer = Arc::new(Closer(shared.clone()));
        poll_fn(|cx| shared.poll_opened(cx)).await?;
        let (limits, told) = shared.limits().unwrap_or((Limits { stage: 0, frame_max: 0, channel_max: 0, heartbeat: 0, mechanism: 0 }, Vec::new()));
        let configuration = Configuration { channel_max: limits.channel_max, frame_max: limits.frame_max, heartbeat: limits.heartbeat };
        let server_properties = Reader(&told).pairs(0).unwrap_or_default();
        Ok(Connection { status: ConnectionStatus { shared: shared.clone() }, shared, closer, configuration, server_properties })
    }

    /// Opens a channel.
    pub async fn create_channel(&self) -> Result<Channel> {
        let (place, id, ticket) = self.shared.open_channel(&Method::new(20, 10).short(&"".into()).octets()?)?;
        let channel = Channel::new(self.shared.clone(), place, id, self.closer.clone());
        answer(&self.shared, ticket).await?;
        Ok(channel)
    }

    /// Closes it, and waits for the broker's answer, ten seconds at most. Publishes without an outcome have an error then, though the broker may store
    /// them.
    pub async fn close(&self, reply_code: ReplyCode, reply_text: ShortString) -> Result<()> {
        let ticket = self.shared.close(&methods::close(10, 50, reply_code, &reply_text).octets()?)?;
        answer(&self.shared, ticket).await.map(|_| ())
    }

    /// Called once, where the connection ends and this side didn't close it.
    pub fn on_error<E: FnMut(Error) + Send + 'static>(&self, call: E) {
        self.shared.on_error(Box::new(call));
    }

    /// The limits that both sides keep.
    pub fn configuration(&self) -> &Configuration {
        &self.configuration
    }

    /// What it is doing now.
    pub fn status(&self) -> &ConnectionStatus {
        &self.status
    }

    /// What the broker told of itself: its `product`, its `version`, its `cluster_name`.
    pub fn server_properties(&self) -> &FieldTable {
        &self.server_properties
    }
}

impl fmt::Debug for Connection {
    fn fmt(&self, f: &mut fmt::Formatter<'_>) -> fmt::Result {
        f.debug_struct("Connection").field("configuration", &self.configuration).field("status", &self.status).finish()
    }
}
