//! The library of the session, and the system calls that std lacks. All that is unsafe in this crate stands here.
//!
//! What a caller in C owes (`lapin.h`): a pointer and its length are of one piece of memory, which slices are; nobody writes into a handle or copies
//! it, which the private field sees to; one thread at a time uses it, which `&mut self` sees to.

#![allow(unsafe_code)]

use std::{
    ffi::{c_char, c_void, CStr},
    io,
    os::fd::{AsRawFd, FromRawFd, OwnedFd, RawFd},
    ptr,
    sync::{
        atomic::{AtomicUsize, Ordering},
        Once,
    },
};

mod raw {
    use super::{c_char, c_void};

    #[repr(C)]
    pub struct Handle {
        pub at: *mut c_void,
        pub is_open: bool,
    }

    #[repr(C)]
    #[derive(Clone, Copy, Debug)]
    pub struct Opening {
        pub stage: u32,
        pub frame_max: u32,
        pub channel_max: u16,
        pub heartbeat: u16,
        pub mechanism: u32,
    }

    #[repr(C)]
    #[derive(Clone, Copy, Default)]
    pub struct Clock {
        pub sent: u64,
        pub heard: u64,
        pub seconds: u16,
    }

    #[repr(C)]
    #[derive(Clone, Copy, Default)]
    pub struct Message {
        pub delivery_tag: u64,
        pub acker: u64,
        pub exchange: usize,
        pub routing_key: usize,
        pub properties: usize,
        pub body: usize,
        pub redelivered: bool,
    }

    #[repr(C)]
    #[derive(Clone, Copy, Default)]
    pub struct Fields {
        pub number: u64,
        pub kind: u32,
        pub messages: u32,
        pub consumers: u32,
        pub message: Message,
    }

    #[repr(C)]
    #[derive(Clone, Copy, Default)]
    pub struct Return {
        pub code: u16,
        pub text: usize,
        pub message: Message,
    }

    #[repr(C)]
    #[derive(Clone, Copy, Default, Debug)]
    pub struct Refusal {
        pub kind: u32,
        pub state: u32,
        pub code: u16,
        pub class_id: u16,
        pub method_id: u16,
        pub tag: u64,
        pub current: u64,
        pub limit: u64,
    }

    #[repr(C)]
    #[derive(Clone, Copy, Default)]
    pub struct Range {
        pub at: usize,
        pub count: usize,
    }

    #[repr(C)]
    #[derive(Clone, Copy, Default)]
    pub struct States {
        pub connection: u32,
        pub channel: u32,
    }

    #[repr(C)]
    #[derive(Clone, Copy, Default)]
    pub struct CloseReason {
        pub code: u16,
        pub class_id: u16,
        pub method_id: u16,
    }

    #[repr(C)]
    pub struct PollFd {
        pub fd: i32,
        pub events: i16,
        pub revents: i16,
    }

    #[repr(C)]
    #[cfg_attr(target_arch = "x86_64", repr(packed))]
    #[derive(Clone, Copy, Default)]
    pub struct EpollEvent {
        pub events: u32,
        pub which: u64,
    }

    /// Seconds and nanoseconds, of what comes again and again and of what comes first.
    #[repr(C)]
    pub struct TimerSpec {
        pub again: [i64; 2],
        pub first: [i64; 2],
    }

    extern "C" {
        pub fn lapin_version() -> *const c_char;
        pub fn lapin_open(handle: *mut Handle, frame_max: u32) -> u32;
        pub fn lapin_close(handle: *mut Handle);
        pub fn lapin_why(handle: *mut Handle, refusal: *mut Refusal) -> u32;
        pub fn lapin_answer_length(handle: *mut Handle) -> usize;
        pub fn lapin_answer(handle: *mut Handle, out: *mut u8, room: usize) -> usize;
        pub fn lapin_call(handle: *mut Handle, channel: u16, method: *const u8, length: usize, ticket: *mut u64) -> u32;
        pub fn lapin_reply(handle: *mut Handle, ticket: u64, fields: *mut Fields) -> u32;
        pub fn lapin_forget_call(handle: *mut Handle, ticket: u64) -> u32;
        pub fn lapin_confirmed(handle: *mut Handle, confirm: u64, outcome: *mut u64) -> u32;
        pub fn lapin_unclaimed(handle: *mut Handle, channel: u16, count: *mut u64) -> u32;
        pub fn lapin_return_at(handle: *mut Handle, place: usize, found: *mut Return) -> u32;
        pub fn lapin_publish(
            handle: *mut Handle, channel: u16, exchange: *const u8, exchange_length: usize, key: *const u8, key_length: usize, mandatory: bool,
            immediate: bool, payload: *const u8, payload_length: usize, properties: *const u8, properties_length: usize, confirm: *mut u64,
        ) -> u32;
        pub fn lapin_outcome(handle: *mut Handle, confirm: u64) -> u32;
        pub fn lapin_forget(handle: *mut Handle, confirm: u64) -> u32;
        pub fn lapin_delivery(handle: *mut Handle, consumer: u64, message: *mut Message) -> u32;
        pub fn lapin_ack(handle: *mut Handle, acker: u64, multiple: bool) -> u32;
        pub fn lapin_nack(handle: *mut Handle, acker: u64, multiple: bool, requeue: bool) -> u32;
        pub fn lapin_reject(handle: *mut Handle, acker: u64, requeue: bool) -> u32;
        pub fn lapin_send(handle: *mut Handle, flow: bool, enough: usize) -> u32;
        pub fn lapin_leaving_length(handle: *mut Handle) -> usize;
        pub fn lapin_leaving(handle: *mut Handle, out: *mut u8, room: usize) -> usize;
        pub fn lapin_receive(handle: *mut Handle, bytes: *const u8, length: usize) -> u32;
        pub fn lapin_lost(handle: *mut Handle) -> u32;
        pub fn lapin_state(handle: *mut Handle, channel: u16, states: *mut States) -> u32;
        pub fn lapin_last_close(handle: *mut Handle, channel: u16, reason: *mut CloseReason) -> u32;
        pub fn lapin_is_blocked(handle: *mut Handle) -> bool;
        pub fn lapin_beat(clock: *const Clock, now: u64, wait: *mut u64) -> u32;
        pub fn lapin_server_properties(bytes: *const u8, length: usize, place: *mut Range) -> u32;
        pub fn lapin_shake(
            opening: *mut Opening, bytes: *const u8, length: usize, user: *const u8, user_length: usize, password: *const u8, password_length: usize,
            vhost: *const u8, vhost_length: usize, pairs: *const u8, pairs_length: usize, out: *mut u8, room: usize, written: *mut usize, code: *mut u16,
        ) -> u32;
        pub fn poll(files: *mut PollFd, count: std::ffi::c_ulong, timeout: i32) -> i32;
        pub fn epoll_create1(flags: i32) -> i32;
        pub fn epoll_ctl(epoll: i32, what: i32, file: i32, event: *mut EpollEvent) -> i32;
        pub fn timerfd_create(clock: i32, flags: i32) -> i32;
        pub fn timerfd_settime(timer: i32, flags: i32, new: *const TimerSpec, old: *mut TimerSpec) -> i32;
        pub fn epoll_wait(epoll: i32, events: *mut EpollEvent, most: i32, timeout: i32) -> i32;
        pub fn pthread_atfork(prepare: Option<extern "C" fn()>, parent: Option<extern "C" fn()>, child: Option<extern "C" fn()>) -> i32;
    }
}

pub const DONE: u32 = 0;
pub const REFUSED: u32 = 1;
pub const NOT_IN_GRAMMAR: u32 = 2;
pub const NO_MEMORY: u32 = 3;
pub const TOO_LONG: u32 = 6;
pub const PENDING: u32 = 8;
pub const GONE: u32 = 9;
pub const KEPT: u32 = 10;

pub const NONE: u32 = 0;
pub const ACK: u32 = 1;
pub const NACK: u32 = 2;
pub const NOT_REQUESTED: u32 = 3;

pub use raw::{Clock, Fields, Message, Opening as Limits, Refusal, Return, States};

/// What the library is: its release, `proved` or `unproved`, and the sha-256 of its text.
pub fn version() -> &'static str {
    unsafe { CStr::from_ptr(raw::lapin_version()) }.to_str().unwrap_or("")
}

/// The session of one connection.
pub struct Session(raw::Handle);

// The client behind the handle has no thread of its own and keeps no pointer that it was given, so it may be used by another thread than the one
// that made it, by one at a time: each call but `drop` wants `&mut self`.
unsafe impl Send for Session {}

impl Session {
    pub fn new(frame_max: u32) -> Result<Session, u32> {
        let mut handle = raw::Handle { at: ptr::null_mut(), is_open: false };
        match unsafe { raw::lapin_open(&mut handle, frame_max) } {
            DONE => Ok(Session(handle)),
            status => Err(status),
        }
    }

    /// The ticket of a call by its method's octets.
    pub fn call(&mut self, channel: u16, method: &[u8]) -> Result<u64, u32> {
        let mut ticket = 0;
        match unsafe { raw::lapin_call(&mut self.0, channel, method.as_ptr(), method.len(), &mut ticket) } {
            DONE => Ok(ticket),
            status => Err(status),
        }
    }

    pub fn reply(&mut self, ticket: u64, fields: &mut Fields) -> u32 {
        unsafe { raw::lapin_reply(&mut self.0, ticket, fields) }
    }

    pub fn forget_call(&mut self, ticket: u64) {
        unsafe { raw::lapin_forget_call(&mut self.0, ticket) };
    }

    /// The number of an outcome, of a publish whose message came back too.
    pub fn confirmed(&mut self, confirm: u64) -> Result<u32, u32> {
        let mut outcome = 0;
        match unsafe { raw::lapin_confirmed(&mut self.0, confirm, &mut outcome) } {
            DONE => Ok(outcome as u32),
            status => Err(status),
        }
    }

    /// How many messages of a channel came back that no outcome has, once each publish has its outcome.
    pub fn unclaimed(&mut self, channel: u16) -> Result<u64, u32> {
        let mut count = 0;
        match unsafe { raw::lapin_unclaimed(&mut self.0, channel, &mut count) } {
            DONE => Ok(count),
            status => Err(status),
        }
    }

    /// The message at a place of those that came back and were told of last; its octets are the answer.
    pub fn return_at(&mut self, place: usize) -> Result<Return, u32> {
        let mut found = Return::default();
        match unsafe { raw::lapin_return_at(&mut self.0, place, &mut found) } {
            DONE => Ok(found),
            status => Err(status),
        }
    }

    /// The last answer, in the place of what `out` had.
    pub fn answer(&mut self, out: &mut Vec<u8>) {
        out.clear();
        let length = unsafe { raw::lapin_answer_length(&mut self.0) };
        out.reserve(length);
        let written = unsafe { raw::lapin_answer(&mut self.0, out.as_mut_ptr(), length) };
        unsafe { out.set_len(written.min(length)) }
    }

    /// What was refused last, or the last error that was told.
    pub fn why(&mut self) -> Refusal {
        let mut refusal = Refusal::default();
        unsafe { raw::lapin_why(&mut self.0, &mut refusal) };
        refusal
    }

    #[allow(clippy::too_many_arguments)]
    pub fn publish(
        &mut self, channel: u16, exchange: &[u8], key: &[u8], mandatory: bool, immediate: bool, payload: &[u8], properties: &[u8],
    ) -> Result<u64, u32> {
        let mut confirm = 0;
        let status = unsafe {
            raw::lapin_publish(
                &mut self.0, channel, exchange.as_ptr(), exchange.len(), key.as_ptr(), key.len(), mandatory, immediate, payload.as_ptr(),
                payload.len(), properties.as_ptr(), properties.len(), &mut confirm,
            )
        };
        if status == DONE { Ok(confirm) } else { Err(status) }
    }

    pub fn outcome(&mut self, confirm: u64) -> u32 {
        unsafe { raw::lapin_outcome(&mut self.0, confirm) }
    }

    pub fn forget(&mut self, confirm: u64) {
        unsafe { raw::lapin_forget(&mut self.0, confirm) };
    }

    pub fn delivery(&mut self, consumer: u64, message: &mut Message) -> u32 {
        unsafe { raw::lapin_delivery(&mut self.0, consumer, message) }
    }

    pub fn ack(&mut self, acker: u64, multiple: bool) -> u32 {
        unsafe { raw::lapin_ack(&mut self.0, acker, multiple) }
    }

    pub fn nack(&mut self, acker: u64, multiple: bool, requeue: bool) -> u32 {
        unsafe { raw::lapin_nack(&mut self.0, acker, multiple, requeue) }
    }

    pub fn reject(&mut self, acker: u64, requeue: bool) -> u32 {
        unsafe { raw::lapin_reject(&mut self.0, acker, requeue) }
    }

    /// Adds the octets of the frames that may leave, until there are enough: how many. What left before the status stands in `out` too.
    pub fn send(&mut self, enough: usize, out: &mut Vec<u8>) -> (u32, usize) {
        let status = unsafe { raw::lapin_send(&mut self.0, true, enough) };
        let length = unsafe { raw::lapin_leaving_length(&mut self.0) };
        if length > 0 {
            out.reserve(length);
            let at = out.len();
            let written = unsafe { raw::lapin_leaving(&mut self.0, out.as_mut_ptr().add(at), length) };
            unsafe { out.set_len(at + written.min(length)) }
        }
        (status, length)
    }

    pub fn receive(&mut self, bytes: &[u8]) -> u32 {
        unsafe { raw::lapin_receive(&mut self.0, bytes.as_ptr(), bytes.len()) }
    }

    pub fn lost(&mut self) -> u32 {
        unsafe { raw::lapin_lost(&mut self.0) }
    }

    pub fn states(&mut self, channel: u16) -> States {
        let mut states = States::default();
        unsafe { raw::lapin_state(&mut self.0, channel, &mut states) };
        states
    }

    /// The code of the broker's last close of a channel, or of the connection (0); its text is the answer.
    pub fn last_close(&mut self, channel: u16) -> Option<u16> {
        let mut reason = raw::CloseReason::default();
        let status = unsafe { raw::lapin_last_close(&mut self.0, channel, &mut reason) };
        (status == DONE).then_some(reason.code)
    }

    pub fn is_blocked(&mut self) -> bool {
        unsafe { raw::lapin_is_blocked(&mut self.0) }
    }
}

impl Drop for Session {
    fn drop(&mut self) {
        unsafe { raw::lapin_close(&mut self.0) }
    }
}

/// What became of the frame at the head of the bytes, and the code of a refusal; the reply is added to `out`. `who` is the user, the password, the
/// virtual host and further pairs of the client's properties.
pub fn shake(opening: &mut Limits, bytes: &[u8], who: [&[u8]; 4], out: &mut Vec<u8>) -> (u32, u16) {
    let room = 2048 + 2 * who.iter().map(|it| it.len()).sum::<usize>();
    out.reserve(room);
    let (mut written, mut code, at) = (0, 0, out.len());
    let [user, password, vhost, pairs] = who;
    let status = unsafe {
        raw::lapin_shake(
            opening, bytes.as_ptr(), bytes.len(), user.as_ptr(), user.len(), password.as_ptr(), password.len(), vhost.as_ptr(), vhost.len(),
            pairs.as_ptr(), pairs.len(), out.as_mut_ptr().add(at), room, &mut written, &mut code,
        )
    };
    unsafe { out.set_len(at + written.min(room)) }
    (status, code)
}

/// The broker's own properties in its first frame, as the content of a table.
pub fn server_properties(bytes: &[u8]) -> &[u8] {
    let mut place = raw::Range::default();
    let status = unsafe { raw::lapin_server_properties(bytes.as_ptr(), bytes.len(), &mut place) };
    if status == DONE { bytes.get(place.at..).and_then(|it| it.get(..place.count)).unwrap_or(&[]) } else { &[] }
}

/// What a clock says.
pub enum Due {
    Wait(u64),
    Send,
    Silent,
    Never,
}

pub fn beat(clock: &Clock, now: u64) -> Due {
    let mut wait = 0;
    match unsafe { raw::lapin_beat(clock, now, &mut wait) } {
        0 => Due::Wait(wait),
        1 => Due::Send,
        2 => Due::Silent,
        _ => Due::Never,
    }
}

/// Waits until the socket can be read, or written where that is wanted, or the other file can be read: whether the socket and the other one can be
/// read.
pub fn wait(socket: RawFd, writing: bool, other: RawFd) -> (bool, bool) {
    const IN: i16 = 1;
    const OUT: i16 = 4;
    let mut files = [
        raw::PollFd { fd: socket, events: if writing { IN | OUT } else { IN }, revents: 0 },
        raw::PollFd { fd: other, events: IN, revents: 0 },
    ];
    if unsafe { raw::poll(files.as_mut_ptr(), 2, -1) } <= 0 {
        return (false, false);
    }
    (files[0].revents & !OUT != 0, files[1].revents != 0)
}

/// What a connection's thread waits for: its socket, a file by which it is called, and a time. Other threads may change what of the socket it waits
/// for, and the time, and it isn't woken by that.
pub struct Watch {
    files: OwnedFd,
    timer: OwnedFd,
    socket: RawFd,
}

const SOCKET: u64 = 0;
const CALLED: u64 = 1;
const TIME: u64 = 2;
const IN: u32 = 1;
const OUT: u32 = 4;

impl Watch {
    /// Both files have to be there as long as this is.
    pub fn new(socket: RawFd, called: RawFd) -> io::Result<Watch> {
        const CLOSED_BY_EXEC: i32 = 0o2000000;
        const ADD: i32 = 1;
        let file = |found: i32| if found < 0 { Err(io::Error::last_os_error()) } else { Ok(unsafe { OwnedFd::from_raw_fd(found) }) };
        let files = file(unsafe { raw::epoll_create1(CLOSED_BY_EXEC) })?;
        let timer = file(unsafe { raw::timerfd_create(1, CLOSED_BY_EXEC) })?;
        let watch = Watch { files, timer, socket };
        watch.control(ADD, socket, IN, SOCKET)?;
        watch.control(ADD, called, IN, CALLED)?;
        watch.control(ADD, watch.timer.as_raw_fd(), IN, TIME)?;
        Ok(watch)
    }

    /// The wait ends a millisecond from now, or no more by the time.
    pub fn alarm(&self, is_set: bool) {
        let time = raw::TimerSpec { again: [0, 0], first: [0, 1_000_000 * i64::from(is_set)] };
        unsafe { raw::timerfd_settime(self.timer.as_raw_fd(), 0, &time, ptr::null_mut()) };
    }

    fn control(&self, what: i32, file: RawFd, events: u32, which: u64) -> io::Result<()> {
        let mut event = raw::EpollEvent { events, which };
        match unsafe { raw::epoll_ctl(self.files.as_raw_fd(), what, file, &mut event) } {
            0 => Ok(()),
            _ => Err(io::Error::last_os_error()),
        }
    }

    /// Whether what can be read of the socket, and that it can be written, is waited for from now on. Its end always is.
    pub fn set(&self, reading: bool, writing: bool) -> io::Result<()> {
        const CHANGE: i32 = 3;
        self.control(CHANGE, self.socket, IN * u32::from(reading) + OUT * u32::from(writing), SOCKET)
    }

    /// Waits for so long at most: whether the socket can be read, or is at its end, and whether there was a call.
    pub fn wait(&self, milliseconds: i32) -> (bool, bool) {
        let mut events = [raw::EpollEvent::default(); 3];
        let count = unsafe { raw::epoll_wait(self.files.as_raw_fd(), events.as_mut_ptr(), 3, milliseconds) };
        let came = |which| events.iter().take(count.max(0) as usize).any(|it| it.which == which && it.events & !OUT != 0);
        (came(SOCKET), came(CALLED))
    }
}

/// Overwrites octets that a password stood in.
pub fn wipe(bytes: &mut [u8]) {
    for byte in bytes {
        unsafe { ptr::write_volatile(byte, 0) }
    }
}

static FORKS: AtomicUsize = AtomicUsize::new(0);

extern "C" fn forked() {
    FORKS.fetch_add(1, Ordering::Relaxed);
}

/// How often this process was forked, as its children count.
pub fn forks() -> usize {
    static ONCE: Once = Once::new();
    ONCE.call_once(|| {
        unsafe { raw::pthread_atfork(None, None, Some(forked)) };
    });
    FORKS.load(Ordering::Relaxed)
}
