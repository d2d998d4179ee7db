//! The thread of a connection: it dials, opens the connection by what the library answers, and has the socket until the end.

use crate::{
    connection::Target,
    error::{Error, ErrorKind, Result},
    ffi::{self, Clock, Due, Limits, Session, Watch},
    later::{Calls, Later},
    shared::{forked, Shared},
    state::{now, Rest, State},
    status::ConnectionState,
};
use std::{
    io::{self, Read, Write},
    mem,
    net::{TcpStream, ToSocketAddrs},
    os::{fd::AsRawFd, unix::net::UnixStream},
    panic::{catch_unwind, AssertUnwindSafe},
    sync::Arc,
    time::{Duration, Instant},
};

/// How long what is only queued may lie, where the thread looked shortly before.
const REST: Duration = Duration::from_micros(200);
/// How long an opening may take, where nothing else is said.
const PATIENCE: Duration = Duration::from_secs(10);
const HEARTBEAT: &[u8] = b"\x08\0\0\0\0\0\0\xce";

/// What stands behind an opening: the socket, the limits, the broker's own properties, and what came already.
struct Opened {
    socket: TcpStream,
    limits: Limits,
    server_properties: Vec<u8>,
    came: Vec<u8>,
}

pub fn run(shared: Arc<Shared>, target: Target, woken: UnixStream) {
    let ended = catch_unwind(AssertUnwindSafe(|| match dial(&shared, target) {
        Ok(opened) => serve(&shared, opened, &woken),
        Err(error) => error,
    }));
    let error = ended.unwrap_or_else(|_| Error::io(io::ErrorKind::Other, "the connection's thread panicked"));
    shared.with(|state, later| {
        state.lose(error);
        state.socket = None;
        state.watch = None;
        state.look_everywhere(&shared, later);
        later.wakers.extend(state.opened.take());
        // (those calls that wait for their turn to be told, too)
        for ticket in state.tickets.values_mut() {
            let waker = ticket.waker.take();
            state.waiting -= usize::from(waker.is_some());
            later.wakers.extend(waker);
        }
        for fed in state.consumers.values_mut() {
            later.kept.extend(fed.keeps.take());
        }
        for mut call in mem::take(&mut state.on_error) {
            let error = state.lost.clone().filter(|_| !state.closed);
            later.wakers.push(Calls::waker(Box::new(move || error.into_iter().for_each(&mut call))));
        }
    });
}

// ---- the opening

fn late() -> Error {
    Error::io(io::ErrorKind::TimedOut, "the opening took too long")
}

fn left(until: Instant) -> Result<Duration> {
    until.checked_duration_since(Instant::now()).filter(|it| !it.is_zero()).ok_or_else(late)
}

fn connected(target: &Target, until: Instant) -> Result<TcpStream> {
    let mut last = Error::io(io::ErrorKind::NotFound, "no such host");
    let addresses: Vec<_> = (target.host.as_str(), target.port).to_socket_addrs()?.collect();
    for (at, address) in addresses.iter().enumerate() {
        let share = left(until)? / (addresses.len() - at) as u32;
        match TcpStream::connect_timeout(address, share.max(Duration::from_millis(1))) {
            Ok(socket) => return Ok(socket),
            Err(error) => last = error.into(),
        }
    }
    Err(last)
}

// The opening's frames, until the connection is open. No octets of the password stay.
fn dial(shared: &Shared, target: Target) -> Result<Opened> {
    let until = Instant::now() + target.patience.unwrap_or(PATIENCE);
    let mut limits = target.limits;
    let mut reply = Vec::new();
    // What can't be told is refused before anything is sent.
    let (status, _) = ffi::shake(&mut limits, &[], target.who(), &mut reply);
    if status != ffi::PENDING {
        let why = "the user, the password, the virtual host or a property of the client is too long, or no table";
        return Err(ErrorKind::SerialisationError(why.into()).into());
    }
    let mut socket = connected(&target, until)?;
    socket.set_nodelay(true)?;
    let (mut came, mut room, mut server_properties) = (Vec::new(), vec![0; 1 << 16], Vec::new());
    reply.extend_from_slice(b"AMQP\0\0\x09\x01");
    while limits.stage != 3 {
        socket.set_write_timeout(Some(left(until)?))?;
        let sent = socket.write_all(&reply);
        ffi::wipe(&mut reply);
        reply.clear();
        sent?;
        if shared.with(|state, _| state.closing.is_some()) != Some(false) {
            return Err(Error::io(io::ErrorKind::ConnectionAborted, "nobody waits for the connection any more"));
        }
        socket.set_read_timeout(Some(left(until)?))?;
        match socket.read(&mut room) {
            Ok(0) => return Err(gone(&limits)),
            Ok(length) => came.extend_from_slice(&room[..length]),
            Err(error) if matches!(error.kind(), io::ErrorKind::WouldBlock | io::ErrorKind::TimedOut) => return Err(late()),
            Err(error) if error.kind() == io::ErrorKind::Interrupted => {}
            Err(error) => return Err(error.into()),
        }
        while limits.stage != 3 && shaken(&mut limits, &mut came, &target, &mut reply, &mut server_properties, &mut socket)? {}
    }
    socket.write_all(&reply)?;
    ffi::wipe(&mut reply);
    drop(target);
    socket.set_read_timeout(None)?;
    socket.set_write_timeout(None)?;
    socket.set_nonblocking(true)?;
    Ok(Opened { socket, limits, server_properties, came })
}

// Takes a frame of the opening; whether it was there whole.
fn shaken(
    limits: &mut Limits, came: &mut Vec<u8>, target: &Target, reply: &mut Vec<u8>, server_properties: &mut Vec<u8>, socket: &mut TcpStream,
) -> Result<bool> {
    if came.starts_with(b"AMQP") {
        return Err(ErrorKind::InvalidProtocolVersion.into());
    }
    let is_first = limits.stage == 0;
    match ffi::shake(limits, came, target.who(), reply) {
        (ffi::DONE, _) => {
            if is_first {
                server_properties.extend_from_slice(ffi::server_properties(came));
            }
            let length = u32::from_be_bytes([came[3], came[4], came[5], came[6]]) as usize + 8;
            came.drain(..length);
            Ok(!came.is_empty())
        }
        (ffi::PENDING, _) if came.len() < 1 << 17 => Ok(false),
        (ffi::REFUSED, code) => {
            let _ = socket.write_all(reply);
            ffi::wipe(reply);
            // (the broker's words, where it closed)
            let words = (came.get(7..11) == Some(&[0, 10, 0, 50])).then(|| came.get(14..14 + usize::from(*came.get(13)?))).flatten();
            Err(Error::of_code(code, words.unwrap_or(&[]).into()))
        }
        (status, _) => Err(ErrorKind::ParsingError(format!("status {status} of the opening")).into()),
    }
}

fn gone(limits: &Limits) -> Error {
    let why = match limits.stage {
        0 => "nothing answered",
        1 => "the broker hung up: this user isn't known to it by this password",
        _ => "the broker hung up: a wrong virtual host",
    };
    Error::io(io::ErrorKind::ConnectionReset, why)
}

// ---- the socket

// Serves the socket until the connection has ended; why it did.
fn serve(shared: &Arc<Shared>, opened: Opened, woken: &UnixStream) -> Error {
    let Opened { socket, limits, server_properties, came } = opened;
    let socket = Arc::new(socket);
    let session = match Session::new(limits.frame_max) {
        Ok(session) => session,
        Err(_) => return ErrorKind::NoMemory.into(),
    };
    let watch = match Watch::new(socket.as_raw_fd(), woken.as_raw_fd()) {
        Ok(watch) => Arc::new(watch),
        Err(error) => return error.into(),
    };
    let begun = shared.with(|state, later| {
        state.watch = Some(watch.clone());
        state.session = Some(session);
        state.socket = Some(socket.clone());
        state.limits = limits;
        state.server_properties = server_properties;
        state.clock = Clock { sent: now(), heard: now(), seconds: limits.heartbeat };
        let heard = state.hear(&came, shared, later);
        later.wakers.extend(state.opened.take());
        heard
    });
    match begun {
        Some(Err(error)) => error,
        _ => hold(shared, &watch, woken),
    }
}

// Reads and sends until the connection has ended; why it did.
fn hold(shared: &Arc<Shared>, watch: &Watch, woken: &UnixStream) -> Error {
    let mut looked = Instant::now();
    loop {
        let (readable, called) = match step(shared) {
            Ok(wait) => watch.wait(wait),
            Err(error) => return error,
        };
        if called {
            let mut bytes = [0; 64];
            let _ = (&mut &*woken).read(&mut bytes);
            // Who publishes goes on publishing: not each message is worth a look.
            if !readable && looked.elapsed() < REST {
                std::thread::sleep(REST);
            }
            looked = Instant::now();
        }
        if readable {
            shared.with(|state, later| {
                state.rest = Rest::Awake;
                state.read(shared, later)
            });
        }
    }
}

// Sends what waits and looks at the clock: how many milliseconds the thread waits then, where the connection isn't at its end.
fn step(shared: &Arc<Shared>) -> Result<i32> {
    let found = shared.with(|state, later| {
        if let Some(error) = state.ended.take() {
            return Err(error);
        }
        state.full = false;
        state.alarm(false);
        let goes_on = state.dirty;
        if state.dirty || state.gone < state.out.len() {
            shared.push(state, later);
        }
        if let Some(error) = state.broken.take() {
            return Ok(Err(error));
        }
        if let Some(error) = &state.lost {
            return Err(error.clone());
        }
        let wait = beat(state, shared, later)?;
        let closing = state.closing.map_or(60_000, |_| 100);
        if let Some(until) = state.closing {
            if matches!(state.connection_state(), ConnectionState::Closed | ConnectionState::Error) {
                return Err(Error::io(io::ErrorKind::ConnectionAborted, "it was closed"));
            }
            if Instant::now() > until {
                return Err(Error::io(io::ErrorKind::TimedOut, "the broker did not answer the close in time"));
            }
        }
        state.rest = if goes_on { Rest::Dozes } else { Rest::Sleeps };
        state.watch();
        Ok(Ok(wait.min(if goes_on { 1 } else { closing })))
    });
    match found.unwrap_or_else(|| Err(forked()))? {
        Ok(found) => Ok(found),
        Err(broken) => Err(last_words(shared, broken)),
    }
}

// A heartbeat leaves where one is due: how many milliseconds nothing is.
fn beat(state: &mut State, shared: &Arc<Shared>, later: &mut Later) -> Result<i32> {
    match ffi::beat(&state.clock, now()) {
        // (this side stood still: what came meanwhile is read first)
        Due::Silent if state.read(shared, later) || state.ended.is_some() => Ok(0),
        Due::Silent => Err(ErrorKind::MissingHeartbeatError.into()),
        Due::Send => {
            if state.gone == state.out.len() {
                state.out.extend_from_slice(HEARTBEAT);
            }
            state.clock.sent = now();
            state.flush();
            Ok(0)
        }
        Due::Wait(wait) => Ok(wait.min(60_000) as i32),
        Due::Never => Ok(60_000),
    }
}

// Nothing can be sent: what the broker still said is heard, and then it is lost by this.
fn last_words(shared: &Arc<Shared>, broken: Error) -> Error {
    for _ in 0..16 {
        if shared.with(|state, later| state.read(shared, later) && state.ended.is_none()) != Some(true) {
            break;
        }
    }
    broken
}

/// Begins a connection.
pub fn start(shared: &Arc<Shared>, target: Target, woken: UnixStream) -> Result<()> {
    let thread = shared.clone();
    std::thread::Builder::new().name("lapin-io".into()).spawn(move || run(thread, target, woken))?;
    Ok(())
}
