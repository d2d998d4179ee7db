//! What the tests share: a broker that plays a script, frame by frame from the standard's layouts, and a queue of a RabbitMQ that goes with its
//! connection. Nothing here is taken from the crate.

#![allow(dead_code)]

use lapin::{options::*, runtime::block_on, types::*, Channel, Connection, ConnectionProperties};
use std::{
    future::Future,
    io::{Read, Write},
    net::{TcpListener, TcpStream},
    thread::{self, JoinHandle},
    time::Duration,
};

pub fn short(text: &str) -> Vec<u8> {
    [&[text.len() as u8], text.as_bytes()].concat()
}

pub fn long(octets: &[u8]) -> Vec<u8> {
    [&(octets.len() as u32).to_be_bytes(), octets].concat()
}

pub fn frame(kind: u8, channel: u16, payload: &[u8]) -> Vec<u8> {
    [&[kind], &channel.to_be_bytes()[..], &long(payload), &[0xce]].concat()
}

pub fn method(channel: u16, class: u8, number: u8, fields: &[u8]) -> Vec<u8> {
    frame(1, channel, &[&[0, class, 0, number], fields].concat())
}

pub fn content(channel: u16, properties: &[u8], body: &[u8]) -> Vec<u8> {
    let mut frames = frame(2, channel, &[&[0, 60, 0, 0], &(body.len() as u64).to_be_bytes()[..], properties].concat());
    body.chunks(4088).for_each(|it| frames.extend(frame(3, channel, it)));
    frames
}

pub fn deliver(channel: u16, consumer: &str, tag: u64, properties: &[u8], body: &[u8]) -> Vec<u8> {
    let fields = [&short(consumer)[..], &tag.to_be_bytes(), &[0], &short(""), &short("q")].concat();
    [method(channel, 60, 60, &fields), content(channel, properties, body)].concat()
}

pub fn settle(channel: u16, number: u8, tag: u64, multiple: bool) -> Vec<u8> {
    method(channel, 60, number, &[&tag.to_be_bytes()[..], &[u8::from(multiple)]].concat())
}

pub fn ack(channel: u16, tag: u64, multiple: bool) -> Vec<u8> {
    settle(channel, 80, tag, multiple)
}

pub fn returned(channel: u16, key: &str, properties: &[u8], body: &[u8]) -> Vec<u8> {
    let fields = [&312u16.to_be_bytes()[..], &short("NO_ROUTE"), &short(""), &short(key)].concat();
    [method(channel, 60, 50, &fields), content(channel, properties, body)].concat()
}

pub fn channel_close(channel: u16, code: u16, text: &str) -> Vec<u8> {
    method(channel, 20, 40, &[&code.to_be_bytes()[..], &short(text), &[0; 4]].concat())
}

pub fn connection_close(code: u16, text: &str) -> Vec<u8> {
    method(0, 10, 50, &[&code.to_be_bytes()[..], &short(text), &[0; 4]].concat())
}

/// The broker's side of one connection.
pub struct Peer {
    pub socket: TcpStream,
    /// What the client told of itself.
    pub told: Vec<u8>,
}

impl Peer {
    pub fn send(&mut self, octets: &[u8]) {
        self.socket.write_all(octets).unwrap();
    }

    fn want(&mut self, count: usize) -> Vec<u8> {
        let mut octets = vec![0; count];
        self.socket.read_exact(&mut octets).expect("the client hung up");
        octets
    }

    /// The next frame that is no heartbeat: its type, its channel and its payload.
    pub fn frame(&mut self) -> (u8, u16, Vec<u8>) {
        loop {
            let head = self.want(7);
            let payload = self.want(u32::from_be_bytes(head[3..7].try_into().unwrap()) as usize);
            assert_eq!(self.want(1), [0xce]);
            if head[0] != 8 {
                return (head[0], u16::from_be_bytes([head[1], head[2]]), payload);
            }
        }
    }

    /// The fields of the next frame, which is this method on this channel.
    pub fn expect(&mut self, channel: u16, class: u8, number: u8) -> Vec<u8> {
        let (kind, at, payload) = self.frame();
        assert_eq!((kind, at, &payload[..4]), (1, channel, &[0, class, 0, number][..]));
        payload[4..].to_vec()
    }

    /// The next publish: its routing key, its list of properties and its body.
    pub fn publish(&mut self, channel: u16) -> (String, Vec<u8>, Vec<u8>) {
        let fields = self.expect(channel, 60, 40);
        let rest = &fields[3 + usize::from(fields[2])..];
        let key = String::from_utf8(rest[1..1 + usize::from(rest[0])].to_vec()).unwrap();
        let (kind, at, head) = self.frame();
        assert_eq!((kind, at), (2, channel));
        let (size, mut body) = (u64::from_be_bytes(head[4..12].try_into().unwrap()), Vec::new());
        while (body.len() as u64) < size {
            let (kind, at, payload) = self.frame();
            assert_eq!((kind, at), (3, channel));
            body.extend(payload);
        }
        (key, head[12..].to_vec(), body)
    }

    /// The header, and what the broker begins with.
    pub fn start(&mut self) {
        assert_eq!(self.want(8), b"AMQP\0\0\x09\x01");
        let properties = [&short("product")[..], b"S", &long(b"scripted")].concat();
        self.send(&method(0, 10, 10, &[&[0, 9], &long(&properties)[..], &long(b"PLAIN"), &long(b"en_US")].concat()));
    }

    /// The opening, up to open-ok.
    pub fn open(&mut self, heartbeat: u16) {
        self.start();
        let fields = self.expect(0, 10, 11);
        let table = u32::from_be_bytes(fields[..4].try_into().unwrap()) as usize;
        self.told = fields[4..4 + table].to_vec();
        assert_eq!(fields[4 + table..], [&short("PLAIN")[..], &long(b"\0guest\0guest"), &short("en_US")].concat());
        self.send(&method(0, 10, 30, &[&2047u16.to_be_bytes()[..], &4096u32.to_be_bytes(), &heartbeat.to_be_bytes()].concat()));
        self.expect(0, 10, 31);
        self.expect(0, 10, 40);
        self.send(&method(0, 10, 41, &short("")));
    }

    pub fn channel(&mut self, number: u16, confirms: bool) {
        self.expect(number, 20, 10);
        self.send(&method(number, 20, 11, &long(b"")));
        if confirms {
            self.expect(number, 85, 10);
            self.send(&method(number, 85, 11, &[]));
        }
    }

    pub fn consume(&mut self, channel: u16, tag: &str) {
        self.expect(channel, 60, 20);
        self.send(&method(channel, 60, 21, &short(tag)));
    }

    /// The client closes the connection.
    pub fn close(&mut self) {
        self.expect(0, 10, 50);
        self.send(&method(0, 10, 51, &[]));
    }

    /// Nothing comes for so long.
    pub fn is_quiet(&mut self, milliseconds: u64) -> bool {
        self.socket.set_read_timeout(Some(Duration::from_millis(milliseconds))).unwrap();
        let found = self.socket.peek(&mut [0]);
        self.socket.set_read_timeout(Some(Duration::from_secs(60))).unwrap();
        found.is_err()
    }
}

/// Plays a script to the client that comes: its address, and the thread, which fails where the script does.
pub fn broker(script: impl FnOnce(&mut Peer) + Send + 'static) -> (String, JoinHandle<()>) {
    let listener = TcpListener::bind("127.0.0.1:0").unwrap();
    let uri = format!("amqp://{}/", listener.local_addr().unwrap());
    let thread = thread::spawn(move || {
        let (socket, _) = listener.accept().unwrap();
        socket.set_nodelay(true).unwrap();
        socket.set_read_timeout(Some(Duration::from_secs(60))).unwrap();
        script(&mut Peer { socket, told: Vec::new() });
    });
    (uri, thread)
}

/// A script against a client; both have to end well.
pub fn play<F: Future<Output = ()>>(script: impl FnOnce(&mut Peer) + Send + 'static, client: impl FnOnce(Connection) -> F) {
    let (uri, thread) = broker(script);
    block_on(async { client(Connection::connect(&uri, ConnectionProperties::default()).await.expect("a connection")).await });
    thread.join().expect("the script");
}

pub async fn confirming(connection: &Connection) -> Channel {
    let channel = connection.create_channel().await.unwrap();
    channel.confirm_select(ConfirmSelectOptions::default()).await.unwrap();
    channel
}

pub async fn published(channel: &Channel, key: &str, body: &[u8], mandatory: bool) -> lapin::PublisherConfirm {
    let options = BasicPublishOptions { mandatory, ..Default::default() };
    channel.basic_publish("".into(), key.into(), options, body, Default::default()).await.unwrap()
}

pub async fn consumed(channel: &Channel, tag: &str) -> lapin::Consumer {
    channel.basic_consume("q".into(), tag.into(), BasicConsumeOptions::default(), FieldTable::default()).await.unwrap()
}
