//! Whom the octets of the broker are about, frame by frame: so that those alone are looked at whom something came for. What a frame does is the
//! session's to say; here it is seen on which channel it is, and of a settlement how far it goes.
//!
//! What is seen is told once the frame's last octet has come, which is when the session takes it.

/// What a frame is about.
#[derive(Clone, Copy, Debug, PartialEq)]
pub enum About {
    /// Publishes of a channel were settled: the one of a tag, or all up to it.
    Settled { tag: u64, multiple: bool },
    /// A message came back.
    Returned,
    /// A message comes for the consumer of this number, 0 where none is known by its tag.
    Delivery(u64),
    /// A part of a message came.
    Content,
    /// The consumer of this number ends.
    Cancelled(u64),
    /// The channel, or the connection on channel 0, was closed.
    Closed,
    /// Another method.
    Method,
}

/// So much of a method says all that is looked for: its head, four octets of its name, and a tag of a consumer.
const TOLD: usize = 7 + 4 + 1 + 255 + 1;
const METHOD: u8 = 1;
const HEADER: u8 = 2;
const BODY: u8 = 3;

#[derive(Default)]
pub struct Seen {
    // The beginning of a frame that doesn't say all yet.
    rest: Vec<u8>,
    // How many octets of a frame are to come, and what is told behind them.
    left: usize,
    held: Option<(u16, About)>,
}

/// How many octets a frame has, by its first seven.
fn length(head: &[u8]) -> usize {
    (u32::from_be_bytes([head[3], head[4], head[5], head[6]]) as usize).saturating_add(8)
}

/// How many of a frame's octets have to be there before it is read.
fn wanted(head: &[u8]) -> usize {
    match head {
        [METHOD, _, _, _, _, _, _, ..] => length(head).min(TOLD),
        _ => 7,
    }
}

impl Seen {
    /// Adds what these octets are about to `found`. Consumers are known by their channels and tags.
    pub fn look(&mut self, mut bytes: &[u8], found: &mut Vec<(u16, About)>, consumer: impl Fn(u16, &[u8]) -> u64) {
        while !bytes.is_empty() {
            if self.left > 0 {
                let step = self.left.min(bytes.len());
                bytes = &bytes[step..];
                self.left -= step;
            } else if self.rest.is_empty() && bytes.len() >= 7 && bytes.len() >= wanted(bytes) {
                // Most stand whole in what came.
                self.held = about(bytes, &consumer);
                self.left = length(bytes);
                continue;
            } else {
                let want = if self.rest.len() < 7 { 7 } else { wanted(&self.rest) };
                let step = (want - self.rest.len()).min(bytes.len());
                self.rest.extend_from_slice(&bytes[..step]);
                bytes = &bytes[step..];
                if self.rest.len() < 7 || self.rest.len() < wanted(&self.rest) {
                    continue;
                }
                self.held = about(&self.rest, &consumer);
                self.left = length(&self.rest) - self.rest.len();
                self.rest.clear();
            }
            if self.left == 0 {
                found.extend(self.held.take());
            }
        }
    }
}

// What a frame is about whose beginning this is.
fn about(frame: &[u8], consumer: &impl Fn(u16, &[u8]) -> u64) -> Option<(u16, About)> {
    let channel = u16::from_be_bytes([frame[1], frame[2]]);
    let of_tag = || {
        let tag = frame.get(11).and_then(|length| frame.get(12..12 + usize::from(*length)));
        tag.map_or(0, |it| consumer(channel, it))
    };
    let about = match frame {
        [METHOD, _, _, _, _, _, _, 0, class, 0, number, rest @ ..] => match (class, number) {
            (60, 80 | 120) => {
                let Some((tag, rest)) = rest.split_first_chunk() else { return Some((channel, About::Method)) };
                About::Settled { tag: u64::from_be_bytes(*tag), multiple: rest.first().is_some_and(|it| it & 1 != 0) }
            }
            (60, 50) => About::Returned,
            (60, 60) => About::Delivery(of_tag()),
            (60, 30 | 31) => About::Cancelled(of_tag()),
            (20, 40 | 41) | (10, 50 | 51) => About::Closed,
            _ => About::Method,
        },
        [METHOD, ..] => About::Method,
        [HEADER | BODY, ..] => About::Content,
        _ => return None,
    };
    Some((channel, about))
}

#[cfg(test)]
mod tests {
    use super::*;

    fn frame(kind: u8, channel: u16, payload: &[u8]) -> Vec<u8> {
        let mut frame = vec![kind];
        frame.extend_from_slice(&channel.to_be_bytes());
        frame.extend_from_slice(&(payload.len() as u32).to_be_bytes());
        frame.extend_from_slice(payload);
        frame.push(0xce);
        frame
    }

    // In pieces of each length the same is told, each once its frame is whole.
    #[test]
    fn pieces_of_any_length_say_the_same() {
        let frames = [
            (frame(1, 3, &[0, 60, 0, 80, 0, 0, 0, 0, 0, 0, 0, 9, 1]), Some((3, About::Settled { tag: 9, multiple: true }))),
            (frame(8, 0, &[]), None),
            (frame(1, 2, b"\0\x3c\0\x3c\x03tag\0\0\0\0\0\0\0\x01\0\0\x01q"), Some((2, About::Delivery(77)))),
            (frame(2, 2, &[0; 14]), Some((2, About::Content))),
            (frame(3, 2, &[7; 700]), Some((2, About::Content))),
            (frame(1, 0, &[0, 10, 0, 50, 1, 64, 0]), Some((0, About::Closed))),
            (frame(1, 1, &[[0, 50, 0, 11].as_slice(), &[65; 900]].concat()), Some((1, About::Method))),
            (frame(1, 1, &[0]), Some((1, About::Method))),
        ];
        let all: Vec<u8> = frames.iter().flat_map(|it| it.0.clone()).collect();
        for piece in 1..all.len() {
            let (mut seen, mut at, mut ends) = (Seen::default(), 0, 0);
            let mut told = Vec::new();
            for bytes in all.chunks(piece) {
                let mut found = Vec::new();
                seen.look(bytes, &mut found, |channel, tag| if (channel, tag) == (2, b"tag") { 77 } else { 0 });
                at += bytes.len();
                told.extend(found);
                let mut whole = 0;
                ends = 0;
                for (frame, about) in &frames {
                    whole += frame.len();
                    ends += usize::from(whole <= at && about.is_some());
                }
                assert_eq!(told.len(), ends, "pieces of {piece}, behind {at}");
            }
            assert_eq!(told, frames.iter().filter_map(|it| it.1).collect::<Vec<_>>());
            assert_eq!(ends, 7);
        }
    }
}
