//! Messages: their order, their octets, and what is given up or dropped.

use crate::{common::*, polled, until, Counter};
use lapin::{message::DeliveryResult, options::*, types::*, BasicProperties, ErrorKind};
use std::{
    sync::{
        atomic::{AtomicUsize, Ordering::SeqCst},
        mpsc, Arc,
    },
    thread,
    time::Duration,
};

// A `next` and a `basic_get` that are given up: nothing is lost, and what the get brings goes back.
#[test]
fn what_is_given_up_loses_nothing() {
    let (go, goes) = mpsc::channel();
    let script = move |peer: &mut Peer| {
        peer.open(0);
        peer.channel(1, false);
        peer.expect(1, 60, 70);
        goes.recv().unwrap();
        let fields = [&7u64.to_be_bytes()[..], &[0], &short(""), &short("q"), &[0; 4]].concat();
        peer.send(&[method(1, 60, 71, &fields), content(1, &[0, 0], b"got")].concat());
        assert_eq!(peer.expect(1, 60, 90), [0, 0, 0, 0, 0, 0, 0, 7, 1]);
        // A consume that is given up is cancelled, and what it was handed goes back.
        peer.expect(1, 60, 20);
        goes.recv().unwrap();
        peer.send(&[method(1, 60, 21, &short("made")), deliver(1, "made", 8, &[0, 0], b"handed")].concat());
        let mut found = [peer.frame().2, peer.frame().2].map(|it| it[..4].to_vec());
        found.sort();
        assert_eq!(found, [[0, 60, 0, 30], [0, 60, 0, 90]]);
        peer.send(&method(1, 60, 31, &short("made")));
        peer.close();
    };
    play(script, |connection| async move {
        let channel = connection.create_channel().await.unwrap();
        let count = Arc::new(Counter::default());
        {
            let mut get = Box::pin(channel.basic_get("q".into(), BasicGetOptions::default()));
            assert!(polled(get.as_mut(), &count).is_pending());
        }
        go.send(()).unwrap();
        thread::sleep(Duration::from_millis(300));
        {
            let mut consume = Box::pin(channel.basic_consume("q".into(), "".into(), BasicConsumeOptions::default(), FieldTable::default()));
            assert!(polled(consume.as_mut(), &count).is_pending());
        }
        go.send(()).unwrap();
        thread::sleep(Duration::from_millis(500));
        connection.close(200, "bye".into()).await.unwrap();
    });
}

// Messages of a consumer in pieces: one wake a message, each once it is whole; its delegate is called in their order.
#[test]
fn deliveries_come_in_their_order() {
    let script = |peer: &mut Peer| {
        peer.open(0);
        peer.channel(1, false);
        peer.consume(1, "one");
        peer.consume(1, "two");
        let mut all = Vec::new();
        for number in 0..50u64 {
            all.extend(deliver(1, if number % 2 == 0 { "one" } else { "two" }, number + 1, &[0, 0], &vec![number as u8; 200 * number as usize]));
        }
        all.chunks(61).for_each(|it| peer.send(it));
        for _ in 0..50 {
            peer.expect(1, 60, 80);
        }
        peer.close();
    };
    play(script, |connection| async move {
        let channel = connection.create_channel().await.unwrap();
        let mut one = consumed(&channel, "one").await;
        let ((told, tells), acks) = (mpsc::channel(), Arc::new(AtomicUsize::new(0)));
        let acked = acks.clone();
        consumed(&channel, "two").await.set_delegate(move |delivery: DeliveryResult| {
            if let Ok(Some(it)) = &delivery {
                told.send(it.delivery_tag).unwrap();
            }
            let acked = acked.clone();
            async move {
                if let Ok(Some(delivery)) = delivery {
                    assert!(delivery.ack(BasicAckOptions::default()).await.unwrap());
                    acked.fetch_add(1, SeqCst);
                }
            }
        });
        for number in (0..50u64).step_by(2) {
            let message = one.next().await.unwrap().unwrap();
            assert_eq!((message.delivery_tag, message.data.len()), (number + 1, 200 * number as usize));
            assert!(message.ack(BasicAckOptions::default()).await.unwrap());
            assert!(!message.ack(BasicAckOptions::default()).await.unwrap());
        }
        let order: Vec<u64> = (0..25).map(|_| tells.recv_timeout(Duration::from_secs(30)).unwrap()).collect();
        assert_eq!(order, (1..=25).map(|it| 2 * it).collect::<Vec<_>>());
        assert!(until(|| acks.load(SeqCst) == 25));
        connection.close(200, "bye".into()).await.unwrap();
    });
}

// Values of each type both ways, texts that are no UTF-8, and a list that is none.
#[test]
fn octets_go_through() {
    let script = |peer: &mut Peer| {
        peer.open(0);
        peer.channel(1, false);
        let (_, list, _) = peer.publish(1);
        peer.consume(1, "tag");
        peer.send(&deliver(1, "tag", 1, &list, b"again"));
        peer.send(&deliver(1, "tag", 2, b"\x04\0\x04caf\xe9", b"latin"));
        let (_, list, _) = peer.publish(1);
        assert_eq!(list, b"\x04\0\x04caf\xe9");
        peer.send(&deliver(1, "tag", 3, b"\x20\0\0\0\0\x09\x01kS\0\0\x09\x09", b"none"));
        let deep = (0..1300).fold(Vec::new(), |inner, _| [&b"\0F"[..], &long(&inner)].concat());
        peer.send(&deliver(1, "tag", 4, &[&[0x20, 0], &long(&deep)[..]].concat()[..3900.min(deep.len())], b"deep"));
        peer.expect(1, 60, 80);
        peer.close();
    };
    play(script, |connection| async move {
        let channel = connection.create_channel().await.unwrap();
        let inner = FieldArray::from(vec![AMQPValue::Void, AMQPValue::Timestamp(7), AMQPValue::Float(0.5), AMQPValue::ByteArray(b"\0\xff"[..].into())]);
        let mut headers = FieldTable::default();
        let decimal = AMQPValue::DecimalValue(DecimalValue { scale: 2, value: 314 });
        for (key, value) in [("a", inner.into()), ("d", AMQPValue::Double(-1.25)), ("p", decimal), ("l", AMQPValue::LongLongInt(-1)), ("s", AMQPValue::ShortInt(-3))] {
            headers.insert(key.into(), value);
        }
        let properties = BasicProperties::default().with_headers(headers).with_priority(3).with_timestamp(u64::MAX).with_type("kind".into());
        channel.basic_publish("".into(), "q".into(), BasicPublishOptions::default(), b"", properties.clone()).await.unwrap();
        let mut consumer = consumed(&channel, "tag").await;
        assert_eq!(consumer.next().await.unwrap().unwrap().properties, properties);
        let latin = consumer.next().await.unwrap().unwrap();
        assert_eq!(latin.properties.correlation_id().as_ref().unwrap().as_bytes(), b"caf\xe9");
        channel.basic_publish("".into(), "q".into(), BasicPublishOptions::default(), b"", latin.properties).await.unwrap();
        let none = consumer.next().await.unwrap().unwrap();
        assert_eq!((&none.data[..], none.properties.malformed().unwrap()[0]), (&b"none"[..], 0x20));
        let deep = consumer.next().await.unwrap().unwrap();
        assert!(deep.properties.malformed().is_some());
        assert!(deep.ack(BasicAckOptions::default()).await.unwrap());
        for wrong in [f64::NAN, f64::INFINITY] {
            let mut headers = FieldTable::default();
            headers.insert("x".into(), AMQPValue::Double(wrong));
            let properties = BasicProperties::default().with_headers(headers);
            let refused = channel.basic_publish("".into(), "q".into(), BasicPublishOptions::default(), b"", properties).await.unwrap_err();
            assert!(matches!(refused.kind(), ErrorKind::SerialisationError(_)));
        }
        connection.close(200, "bye".into()).await.unwrap();
    });
}

// What a delegate of the user's does as it is dropped may want the connection: nothing waits for itself.
#[test]
fn what_is_dropped_behind_the_lock() {
    let script = |peer: &mut Peer| {
        peer.open(0);
        peer.channel(1, false);
        peer.consume(1, "tag");
        peer.send(&method(1, 60, 30, &[&short("tag")[..], &[1]].concat()));
        peer.expect(1, 20, 40);
        peer.send(&method(1, 20, 41, &[]));
        peer.close();
    };
    play(script, |connection| async move {
        let channel = connection.create_channel().await.unwrap();
        let owned = channel.clone();
        let (told, tells) = mpsc::channel();
        consumed(&channel, "tag").await.set_delegate(move |delivery: DeliveryResult| {
            let (told, _owned) = (told.clone(), owned.clone());
            async move { told.send(delivery.map(|it| it.is_some())).unwrap() }
        });
        let status = channel.status().clone();
        drop(channel);
        assert!(matches!(tells.recv_timeout(Duration::from_secs(30)), Ok(Ok(false))));
        assert!(until(|| !status.connected()));
        connection.close(200, "bye".into()).await.unwrap();
    });
}

// Who waits anew takes the place of who waited: a wait that is given up leaves nothing, and wakes nobody.
#[test]
fn a_wait_that_is_given_up_is_forgotten() {
    let (go, goes) = mpsc::channel();
    let script = move |peer: &mut Peer| {
        peer.open(0);
        peer.channel(1, false);
        peer.consume(1, "tag");
        goes.recv().unwrap();
        peer.send(&deliver(1, "tag", 1, &[0, 0], b"x"));
        peer.close();
    };
    play(script, |connection| async move {
        let channel = connection.create_channel().await.unwrap();
        let mut consumer = consumed(&channel, "tag").await;
        let counts: Vec<_> = (0..20).map(|_| Arc::new(Counter::default())).collect();
        let dropped = Arc::new(Counter::default());
        assert!(polled(consumer.clone().next(), &dropped).is_pending());
        for count in &counts {
            assert!(polled(consumer.next(), count).is_pending());
        }
        assert!(counts[..19].iter().all(|it| Arc::strong_count(it) == 1), "those that were given up are held");
        go.send(()).unwrap();
        assert!(until(|| counts[19].0.load(SeqCst) == 1));
        assert!(counts[..19].iter().chain([&dropped]).all(|it| it.0.load(SeqCst) == 0));
        assert_eq!(consumer.next().await.unwrap().unwrap().data, b"x");
        connection.close(200, "bye".into()).await.unwrap();
    });
}
