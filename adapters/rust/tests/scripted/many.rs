//! Eight threads on one connection that is cut again and again: each publish has the outcome that its body asks the broker for, or the error of the cut.
//!
//! LAPIN_PUBLISHES is how many; 100,000 where it isn't said.

use crate::common::*;
use lapin::{message::BasicReturnMessage, options::*, runtime::block_on, Confirmation, Connection, ConnectionProperties};
use std::{
    collections::HashMap,
    io::{BufReader, Read, Write},
    net::{TcpListener, TcpStream},
    thread,
    time::Duration,
};

struct Draw(u64);

impl Draw {
    fn below(&mut self, most: usize) -> usize {
        self.0 ^= self.0 << 13;
        self.0 ^= self.0 >> 7;
        self.0 ^= self.0 << 17;
        (self.0 % most as u64) as usize
    }
}

/// The broker's side: what was published on a channel and isn't settled, by its tag and its body.
struct Broker {
    reader: BufReader<TcpStream>,
    open: HashMap<u16, (u64, Vec<(u64, Vec<u8>)>)>,
    draw: Draw,
}

impl Broker {
    fn frame(&mut self) -> Option<(u8, u16, Vec<u8>)> {
        let mut head = [0; 7];
        self.reader.read_exact(&mut head).ok()?;
        let mut payload = vec![0; u32::from_be_bytes(head[3..].try_into().unwrap()) as usize + 1];
        self.reader.read_exact(&mut payload).ok()?;
        payload.pop();
        Some((head[0], u16::from_be_bytes([head[1], head[2]]), payload))
    }

    // Settles what is open on a channel, in no order: what each body asks for.
    fn settled(&mut self, channel: u16) -> Vec<u8> {
        let mut all = std::mem::take(&mut self.open.get_mut(&channel).unwrap().1);
        let mut octets = Vec::new();
        if all.iter().all(|it| it.1[0] == b'a') && !all.is_empty() {
            return ack(channel, all.last().unwrap().0, true);
        }
        while !all.is_empty() {
            let (tag, body) = all.swap_remove(self.draw.below(all.len()));
            match body[0] {
                b'a' => octets.extend(ack(channel, tag, false)),
                b'n' => octets.extend(settle(channel, 120, tag, false)),
                _ => octets.extend([returned(channel, "q", &[0, 0], &body), ack(channel, tag, false)].concat()),
            }
        }
        octets
    }

    // Serves until so many publishes came, and hangs up in the middle of what it says; or until the client closes.
    fn serve(mut self, socket: TcpStream, mut left: usize) {
        while let Some((kind, channel, payload)) = self.frame() {
            let octets = match (kind, payload.get(..4)) {
                (1, Some([0, 20, 0, 10])) => method(channel, 20, 11, &long(b"")),
                (1, Some([0, 85, 0, 10])) => {
                    self.open.insert(channel, (0, Vec::new()));
                    method(channel, 85, 11, &[])
                }
                (1, Some([0, 10, 0, 50])) => method(0, 10, 51, &[]),
                (3, _) => {
                    let (tag, all) = self.open.get_mut(&channel).unwrap();
                    *tag += 1;
                    all.push((*tag, payload));
                    left -= 1;
                    if left == 0 || self.draw.below(20) == 0 { self.settled(channel) } else { Vec::new() }
                }
                _ => Vec::new(),
            };
            let length = if left == 0 { self.draw.below(octets.len() + 1) } else { octets.len() };
            if (&socket).write_all(&octets[..length]).is_err() || left == 0 {
                return;
            }
            // (who waits is told of all in the end)
            if self.reader.buffer().is_empty() {
                let channels: Vec<_> = self.open.keys().copied().collect();
                let octets: Vec<_> = channels.into_iter().flat_map(|it| self.settled(it)).collect();
                let _ = (&socket).write_all(&octets);
            }
        }
    }
}

/// What became of the publishes of a thread: acks, nacks, those that came back, and errors.
#[derive(Default)]
struct Told {
    counts: [usize; 4],
}

impl Told {
    fn note(&mut self, body: &[u8], outcome: lapin::Result<Confirmation>) -> bool {
        let own = |it: &BasicReturnMessage| it.delivery.data == body;
        let (at, wanted) = match outcome {
            Ok(Confirmation::Ack(None)) => (0, body[0] == b'a'),
            Ok(Confirmation::Nack(None)) => (1, body[0] == b'n'),
            Ok(Confirmation::Ack(Some(message))) => (2, body[0] == b'r' && own(&message)),
            Ok(_) => (2, false),
            Err(error) => (3, error.is_io_error()),
        };
        assert!(wanted, "another one's outcome: {}, {at}", String::from_utf8_lossy(body));
        self.counts[at] += 1;
        at == 3
    }

    fn sum(&self) -> usize {
        self.counts.iter().sum()
    }
}

// Publishes until there are so many outcomes, or the cut.
async fn publishes(connection: &Connection, name: usize, draw: &mut Draw, most: usize, told: &mut Told) {
    let Ok(channel) = connection.create_channel().await else { return };
    if channel.confirm_select(ConfirmSelectOptions::default()).await.is_err() {
        return;
    }
    let mut is_cut = false;
    while !is_cut && told.sum() < most {
        let mut confirms = Vec::new();
        for number in 0..(1 + draw.below(100)).min(most - told.sum()) {
            let wish = ["a", "a", "a", "a", "n", "r"][draw.below(6)];
            let body = format!("{wish}.{name}.{}.{number}", told.sum()).into_bytes();
            let options = BasicPublishOptions { mandatory: wish == "r", ..Default::default() };
            match channel.basic_publish("".into(), "q".into(), options, &body, Default::default()).await {
                Ok(confirm) => confirms.push((confirm, body)),
                Err(_) => is_cut = true,
            }
        }
        for (confirm, body) in confirms {
            is_cut |= told.note(&body, confirm.await);
        }
    }
}

#[test]
fn each_outcome_of_eight_threads_is_its_own_under_cuts() {
    let most: usize = std::env::var("LAPIN_PUBLISHES").map_or(100_000, |it| it.parse().unwrap());
    let listener = TcpListener::bind("127.0.0.1:0").unwrap();
    let uri = format!("amqp://{}/", listener.local_addr().unwrap());
    thread::spawn(move || {
        let mut draw = Draw(88172645463325252);
        for socket in listener.incoming() {
            let socket = socket.unwrap();
            socket.set_nodelay(true).unwrap();
            socket.set_read_timeout(Some(Duration::from_secs(60))).unwrap();
            let mut peer = Peer { socket: socket.try_clone().unwrap(), told: Vec::new() };
            peer.open(0);
            let left = most / 240 + draw.below(most / 120);
            let draw = Draw(draw.below(usize::MAX) as u64 | 1);
            Broker { reader: BufReader::new(socket.try_clone().unwrap()), open: HashMap::new(), draw }.serve(socket, left);
        }
    });
    let mut all: Vec<_> = (0..8).map(|name| (Told::default(), Draw(name * 77 + 5))).collect();
    let mut connections = 0;
    while all.iter().any(|it| it.0.sum() < most / 8) {
        let connection = block_on(Connection::connect(&uri, ConnectionProperties::default())).unwrap();
        connections += 1;
        thread::scope(|scope| {
            for (name, (told, draw)) in all.iter_mut().enumerate() {
                let connection = &connection;
                scope.spawn(move || block_on(publishes(connection, name, draw, most / 8, told)));
            }
        });
        let _ = block_on(connection.close(200, "bye".into()));
    }
    let sums: Vec<usize> = (0..4).map(|at| all.iter().map(|it| it.0.counts[at]).sum()).collect();
    println!("{connections} connections; acks, nacks, messages that came back, errors of a cut: {sums:?}");
    assert!(connections > 80 && sums.iter().sum::<usize>() == most / 8 * 8 && sums[..3].iter().all(|it| *it > most / 20));
}
