//! Who waits in `block_on` reads the socket: for all who wait, until it is woken, and what comes behind its wait is heard too.

use crate::{common::*, until};
use lapin::{runtime::block_on, Connection, ConnectionProperties};
use std::{
    future::{poll_fn, Future},
    pin::pin,
    sync::{
        atomic::{AtomicBool, Ordering::SeqCst},
        mpsc, Arc, Mutex,
    },
    task::{Poll, Waker},
    thread,
    time::Duration,
};

// The one thread waits first, and longest: what comes for the other one is heard all the same.
#[test]
fn who_waits_hears_for_all() {
    let (settled, was_settled) = mpsc::channel();
    let script = move |peer: &mut Peer| {
        peer.open(0);
        peer.channel(1, true);
        let bodies = [peer.publish(1).2, peer.publish(1).2];
        let second = if bodies[0] == b"second" { 1 } else { 2 };
        thread::sleep(Duration::from_millis(50));
        peer.send(&ack(1, second, false));
        was_settled.recv_timeout(Duration::from_secs(20)).expect("the second one is told while the first one waits");
        peer.send(&ack(1, 3 - second, false));
        peer.close();
    };
    play(script, |connection| async move {
        let channel = confirming(&connection).await;
        let other = channel.clone();
        let thread = thread::spawn(move || {
            thread::sleep(Duration::from_millis(200));
            assert!(block_on(async { published(&other, "q", b"second", false).await.await }).unwrap().is_ack());
            settled.send(()).unwrap();
        });
        assert!(published(&channel, "q", b"first", false).await.await.unwrap().is_ack());
        thread.join().unwrap();
        connection.close(200, "bye".into()).await.unwrap();
    });
}

// Nobody waits any more: the thread reads again.
#[test]
fn what_comes_behind_a_wait_is_heard() {
    let script = |peer: &mut Peer| {
        peer.open(0);
        peer.channel(1, true);
        for tag in 1..=200 {
            peer.publish(1);
            peer.send(&ack(1, tag, false));
        }
        thread::sleep(Duration::from_millis(50));
        peer.send(&connection_close(320, "CONNECTION_FORCED - away"));
        peer.expect(0, 10, 51);
    };
    let (uri, script) = broker(script);
    let (told, tells) = mpsc::channel();
    let (connection, channel) = block_on(async {
        let connection = Connection::connect(&uri, ConnectionProperties::default()).await.unwrap();
        connection.on_error(move |error| told.send(error).unwrap());
        let channel = confirming(&connection).await;
        for _ in 0..200 {
            assert!(published(&channel, "q", b"x", false).await.await.unwrap().is_ack());
        }
        (connection, channel)
    });
    assert!(tells.recv_timeout(Duration::from_secs(5)).unwrap().is_amqp_hard_error());
    script.join().unwrap();
    drop((channel, connection));
}

// The broker says nothing; what ends the wait is another thread's.
#[test]
fn a_wake_from_elsewhere_ends_a_wait() {
    let script = |peer: &mut Peer| {
        peer.open(0);
        peer.channel(1, true);
        peer.publish(1);
        peer.close();
    };
    play(script, |connection| async move {
        let channel = confirming(&connection).await;
        let mut confirm = pin!(published(&channel, "q", b"x", false).await);
        for _ in 0..50 {
            let (flag, waker) = (Arc::new(AtomicBool::new(false)), Arc::new(Mutex::new(None::<Waker>)));
            let (sets, wakes) = (flag.clone(), waker.clone());
            let thread = thread::spawn(move || {
                thread::sleep(Duration::from_millis(5));
                sets.store(true, SeqCst);
                assert!(until(|| wakes.lock().unwrap().is_some()));
                wakes.lock().unwrap().take().unwrap().wake();
            });
            poll_fn(|cx| {
                assert!(confirm.as_mut().poll(cx).is_pending());
                *waker.lock().unwrap() = Some(cx.waker().clone());
                if flag.load(SeqCst) { Poll::Ready(()) } else { Poll::Pending }
            })
            .await;
            thread.join().unwrap();
        }
        connection.close(200, "bye".into()).await.unwrap();
    });
}
