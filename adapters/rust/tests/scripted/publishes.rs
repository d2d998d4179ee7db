//! Publishes: whose an outcome and a message that came back are, who is woken, and what waits.

use crate::{common::*, polled, until, Counter};
use lapin::{options::*, BasicProperties, ErrorKind};
use std::{
    sync::{atomic::Ordering::SeqCst, mpsc, Arc},
    task::Poll,
    thread,
    time::Duration,
};

// Settlements out of order, by ranges, and a nack: each outcome is its own, in pieces of one octet too.
#[test]
fn each_outcome_is_its_own() {
    let script = |peer: &mut Peer| {
        peer.open(0);
        peer.channel(1, true);
        for _ in 0..8 {
            peer.publish(1);
        }
        let settled = [ack(1, 5, false), settle(1, 120, 3, true), ack(1, 4, false), settle(1, 120, 7, false), ack(1, 0, true)].concat();
        settled.chunks(1).for_each(|it| peer.send(it));
        peer.close();
    };
    play(script, |connection| async move {
        let channel = confirming(&connection).await;
        let mut confirms = Vec::new();
        for number in 0..8u8 {
            confirms.push(published(&channel, "q", &[number], false).await);
        }
        let mut acks = Vec::new();
        for confirm in confirms {
            acks.push(confirm.await.unwrap().is_ack());
        }
        assert_eq!(acks, [false, false, false, true, true, true, false, true]);
        connection.close(200, "bye".into()).await.unwrap();
    });
}

// Those alone are woken whom something came for.
#[test]
fn a_settlement_wakes_those_whom_it_covers() {
    let (go, goes) = mpsc::channel();
    let (done, was_done) = mpsc::channel();
    let script = move |peer: &mut Peer| {
        peer.open(0);
        peer.channel(1, true);
        for _ in 0..100 {
            peer.publish(1);
        }
        goes.recv().unwrap();
        peer.send(&ack(1, 40, false));
        peer.send(&ack(1, 10, true));
        was_done.recv().unwrap();
        peer.send(&ack(1, 100, true));
        peer.close();
    };
    play(script, |connection| async move {
        let channel = confirming(&connection).await;
        let counts: Vec<_> = (0..100).map(|_| Arc::new(Counter::default())).collect();
        let mut confirms = Vec::new();
        for count in &counts {
            let mut confirm = Box::pin(published(&channel, "q", b"x", false).await);
            assert!(polled(confirm.as_mut(), count).is_pending());
            confirms.push(confirm);
        }
        go.send(()).unwrap();
        assert!(until(|| counts[9].0.load(SeqCst) == 1));
        let woken: Vec<_> = (0..100).filter(|it| counts[*it].0.load(SeqCst) > 0).collect();
        assert_eq!(woken, (0..10).chain([39]).collect::<Vec<_>>());
        done.send(()).unwrap();
        for confirm in confirms {
            assert!(confirm.await.unwrap().is_ack());
        }
        connection.close(200, "bye".into()).await.unwrap();
    });
}

// The session gives what came back to the publish that is settled next; here it is its own publish's, also where acknowledgements come out of
// order, and where the broker changed a property.
#[test]
fn a_message_that_came_back_is_its_publishs() {
    let script = |peer: &mut Peer| {
        peer.open(0);
        peer.channel(1, true);
        for _ in 0..6 {
            peer.publish(1);
        }
        peer.send(&returned(1, "nobody", &[0, 0], b"1"));
        peer.send(&returned(1, "nobody", &[0, 0], b"3"));
        peer.send(&ack(1, 4, false)); // publish 3: the session gives it the message of 1
        peer.send(&ack(1, 1, false)); // publish 0: that of 3
        peer.send(&returned(1, "nobody", &[0x10, 0, 2], b"5"));
        peer.send(&ack(1, 6, true));
        peer.close();
    };
    play(script, |connection| async move {
        let channel = confirming(&connection).await;
        let mut confirms = Vec::new();
        for (number, key) in ["q", "nobody", "q", "nobody", "q", "nobody"].into_iter().enumerate() {
            confirms.push(published(&channel, key, number.to_string().as_bytes(), true).await);
        }
        for (number, confirm) in confirms.into_iter().enumerate() {
            let back = confirm.await.unwrap().take_message();
            assert_eq!(back.map(|it| String::from_utf8(it.delivery.data).unwrap()), (number % 2 == 1).then(|| number.to_string()), "{number}");
        }
        assert!(channel.wait_for_confirms().await.unwrap().is_empty());
        connection.close(200, "bye".into()).await.unwrap();
    });
}

// Of those that are equal but for their properties the message that came back is the one's that has these.
#[test]
fn equal_bodies_are_told_apart() {
    let script = |peer: &mut Peer| {
        peer.open(0);
        peer.channel(1, true);
        for _ in 0..3 {
            peer.publish(1);
        }
        peer.send(&[returned(1, "nobody", &[8, 0, 2], b"same"), ack(1, 3, true)].concat());
        peer.close();
    };
    play(script, |connection| async move {
        let channel = confirming(&connection).await;
        let options = BasicPublishOptions { mandatory: true, ..Default::default() };
        let mut confirms = Vec::new();
        for priority in [1, 2, 1] {
            let properties = BasicProperties::default().with_priority(priority);
            confirms.push(channel.basic_publish("".into(), "nobody".into(), options, b"same", properties).await.unwrap());
        }
        let mut came_back = Vec::new();
        for confirm in confirms {
            came_back.push(confirm.await.unwrap().take_message().is_some());
        }
        assert_eq!(came_back, [false, true, false]);
        connection.close(200, "bye".into()).await.unwrap();
    });
}

// Of confirms that nobody has the wait tells what came back, and the error.
#[test]
fn the_wait_tells_of_what_was_dropped() {
    let script = |peer: &mut Peer| {
        peer.open(0);
        peer.channel(1, true);
        for _ in 0..2 {
            peer.publish(1);
        }
        peer.send(&[returned(1, "nobody", &[0, 0], b"back"), ack(1, 2, true)].concat());
        peer.publish(1);
        peer.send(&channel_close(1, 404, "NOT_FOUND - no exchange"));
        peer.expect(1, 20, 41);
        peer.close();
    };
    play(script, |connection| async move {
        let channel = confirming(&connection).await;
        drop(published(&channel, "q", b"there", true).await);
        drop(published(&channel, "nobody", b"back", true).await);
        let back = channel.wait_for_confirms().await.unwrap();
        assert_eq!(back.iter().map(|it| &it.delivery.data[..]).collect::<Vec<_>>(), [b"back"]);
        drop(published(&channel, "q", b"lost", false).await);
        let error = channel.wait_for_confirms().await.unwrap_err();
        let ErrorKind::ProtocolError(error) = error.kind() else { panic!("{error:?}") };
        assert_eq!((error.get_id(), error.get_message().as_str()), (404, "NOT_FOUND - no exchange"));
        connection.close(200, "bye".into()).await.unwrap();
    });
}

// A broker that doesn't read: a publish waits above a bound, and dropped there it was never published.
#[test]
fn a_broker_that_does_not_read_makes_a_publish_wait() {
    let (go, goes) = mpsc::channel::<usize>();
    let script = move |peer: &mut Peer| {
        peer.open(0);
        peer.channel(1, true);
        let count = goes.recv().unwrap();
        for _ in 0..count {
            assert_eq!(peer.publish(1).2.len(), 100_000);
        }
        peer.send(&ack(1, count as u64, true));
        peer.close();
    };
    play(script, |connection| async move {
        let channel = confirming(&connection).await;
        let (body, count) = (vec![1; 100_000], Arc::new(Counter::default()));
        let mut accepted = 0;
        loop {
            let mut publish = Box::pin(channel.basic_publish("".into(), "q".into(), BasicPublishOptions::default(), &body, BasicProperties::default()));
            match polled(publish.as_mut(), &count) {
                Poll::Ready(confirm) => drop(confirm.unwrap()),
                Poll::Pending => {
                    // (the kernel takes some more)
                    thread::sleep(Duration::from_millis(300));
                    if polled(publish.as_mut(), &count).is_pending() {
                        break;
                    }
                }
            }
            accepted += 1;
            assert!(accepted < 2000, "no bound");
        }
        go.send(accepted).unwrap();
        assert!(channel.wait_for_confirms().await.unwrap().is_empty());
        connection.close(200, "bye".into()).await.unwrap();
    });
}

// While the broker says that it takes no messages a publish waits, and goes on behind that.
#[test]
fn a_blocked_broker_makes_a_publish_wait() {
    let (told, tells) = mpsc::channel();
    let script = move |peer: &mut Peer| {
        peer.open(0);
        peer.channel(1, true);
        peer.send(&method(0, 10, 60, &short("low on memory")));
        assert!(peer.is_quiet(400));
        told.send(()).unwrap();
        peer.send(&method(0, 10, 61, &[]));
        peer.publish(1);
        peer.send(&ack(1, 1, false));
        peer.close();
    };
    play(script, |connection| async move {
        let channel = confirming(&connection).await;
        assert!(until(|| connection.status().blocked()));
        let confirm = published(&channel, "q", b"x", false).await;
        assert!(tells.try_recv().is_ok(), "it was published while the broker was blocked");
        assert!(confirm.await.unwrap().is_ack());
        connection.close(200, "bye".into()).await.unwrap();
    });
}

struct Panics;

impl std::task::Wake for Panics {
    fn wake(self: Arc<Self>) {
        panic!("as it should");
    }
}

// A waker that panics ends there: the thread goes on.
#[test]
fn a_waker_that_panics_ends_alone() {
    let (go, goes) = mpsc::channel();
    let script = move |peer: &mut Peer| {
        peer.open(0);
        peer.channel(1, true);
        peer.publish(1);
        goes.recv().unwrap();
        peer.send(&ack(1, 1, false));
        peer.publish(1);
        peer.send(&ack(1, 2, false));
        peer.close();
    };
    play(script, |connection| async move {
        let channel = confirming(&connection).await;
        let mut one = Box::pin(published(&channel, "q", b"one", false).await);
        let waker = std::task::Waker::from(Arc::new(Panics));
        assert!(std::future::Future::poll(one.as_mut(), &mut std::task::Context::from_waker(&waker)).is_pending());
        go.send(()).unwrap();
        assert!(published(&channel, "q", b"two", false).await.await.unwrap().is_ack());
        assert!(one.await.unwrap().is_ack());
        connection.close(200, "bye".into()).await.unwrap();
    });
}
