//! The beginning and the end of a connection, and who is told.

use crate::{common::*, until};
use lapin::{options::*, runtime::block_on, types::*, Connection, ConnectionProperties, ErrorKind};
use std::{
    sync::{mpsc, Arc},
    thread,
    time::Duration,
};

// What this side tells of itself, and what the broker told.
#[test]
fn both_sides_tell_of_themselves() {
    let (uri, thread) = broker(|peer| {
        peer.open(0);
        let text = String::from_utf8_lossy(&peer.told).into_owned();
        assert!(text.contains("connection_nameS\0\0\0\x04mine") && text.contains("publisher_confirmst\x01"), "{text:?}");
        peer.close();
    });
    block_on(async {
        let properties = ConnectionProperties::default().with_connection_name("mine".into());
        let connection = Connection::connect(&uri, properties).await.unwrap();
        assert_eq!(connection.server_properties().inner()["product"], AMQPValue::LongString("scripted".into()));
        assert_eq!(connection.configuration().frame_max(), 4096);
        connection.close(200, "bye".into()).await.unwrap();
    });
    thread.join().unwrap();
}

// What isn't offered is said to nobody; a broker that refuses says why.
#[test]
fn openings_that_are_refused() {
    let refused = |query: &str, script: fn(&mut Peer)| {
        let (uri, thread) = broker(script);
        let error = block_on(Connection::connect(&format!("{uri}{query}"), ConnectionProperties::default())).unwrap_err();
        thread.join().unwrap();
        match error.kind() {
            ErrorKind::ProtocolError(it) => (it.get_id(), it.get_message().as_str().to_owned()),
            kind => panic!("{kind:?}"),
        }
    };
    let hung_up = |peer: &mut Peer| {
        peer.start();
        assert_eq!(std::io::Read::read(&mut peer.socket, &mut [0; 8]).unwrap_or(0), 0);
    };
    assert_eq!(refused("?auth_mechanism=external", hung_up).0, 403);
    let closes = |peer: &mut Peer| {
        peer.start();
        peer.expect(0, 10, 11);
        peer.send(&connection_close(530, "NOT_ALLOWED - no such vhost"));
        peer.expect(0, 10, 51);
    };
    assert_eq!(refused("", closes), (530, "NOT_ALLOWED - no such vhost".into()));
}

#[test]
fn capabilities_are_not_the_callers_to_tell() {
    let mut table = FieldTable::default();
    table.insert("capabilities".into(), AMQPValue::Void);
    let (uri, thread) = broker(|peer| assert_eq!(std::io::Read::read(&mut peer.socket, &mut [0; 8]).unwrap_or(0), 0));
    let refused = block_on(Connection::connect(&uri, ConnectionProperties::default().with_client_properties(table))).unwrap_err();
    assert!(matches!(refused.kind(), ErrorKind::SerialisationError(_)), "{refused:?}");
    drop(std::net::TcpStream::connect(uri.trim_start_matches("amqp://").trim_end_matches('/')));
    thread.join().unwrap();
}

// A close of the connection is told once and to everybody, with the broker's words.
#[test]
fn the_loss_is_told_to_everybody() {
    let script = |peer: &mut Peer| {
        peer.open(0);
        peer.channel(1, true);
        peer.channel(2, false);
        peer.consume(2, "tag");
        peer.publish(1);
        peer.expect(2, 50, 10);
        peer.send(&connection_close(320, "CONNECTION_FORCED - bye\n"));
        peer.expect(0, 10, 51);
    };
    play(script, |connection| async move {
        let (told, tells) = mpsc::channel();
        connection.on_error(move |error| told.send(error).unwrap());
        let channel = confirming(&connection).await;
        let other = connection.create_channel().await.unwrap();
        let mut consumer = consumed(&other, "tag").await;
        let confirm = published(&channel, "q", b"x", false).await;
        let waits = {
            let channel = channel.clone();
            thread::spawn(move || block_on(channel.wait_for_confirms()))
        };
        let is_forced = |error: &lapin::Error| matches!(error.kind(), ErrorKind::ProtocolError(it) if it.get_id() == 320);
        assert!(is_forced(&other.queue_declare("q".into(), QueueDeclareOptions::default(), FieldTable::default()).await.unwrap_err()));
        assert!(is_forced(&confirm.await.unwrap_err()));
        let error = consumer.next().await.unwrap().unwrap_err();
        assert!(is_forced(&error));
        assert!(!error.to_string().contains('\n'), "a broker's text moves no terminal");
        assert!(consumer.next().await.is_none());
        assert!(is_forced(&tells.recv_timeout(Duration::from_secs(30)).unwrap()));
        assert!(tells.recv_timeout(Duration::from_millis(200)).is_err());
        assert!(waits.join().unwrap().is_err());
        assert!(is_forced(&connection.create_channel().await.unwrap_err()));
        assert!(connection.status().errored());
    });
}

// A close from another thread ends what waits.
#[test]
fn close_from_any_thread() {
    let script = |peer: &mut Peer| {
        peer.open(0);
        peer.channel(1, true);
        peer.consume(1, "tag");
        peer.publish(1);
        peer.close();
    };
    play(script, |connection| async move {
        let connection = Arc::new(connection);
        let channel = confirming(&connection).await;
        let mut consumer = consumed(&channel, "tag").await;
        let confirm = published(&channel, "q", b"x", false).await;
        let closes = connection.clone();
        let closed = thread::spawn(move || {
            thread::sleep(Duration::from_millis(100));
            block_on(closes.close(200, "bye".into()))
        });
        assert!(confirm.await.is_err());
        while let Some(found) = consumer.next().await {
            assert!(found.is_err());
        }
        closed.join().unwrap().unwrap();
        assert!(until(|| connection.status().closed()));
        assert!(matches!(channel.basic_qos(1, BasicQosOptions::default()).await.unwrap_err().kind(), ErrorKind::InvalidConnectionState(_) | ErrorKind::InvalidChannelState(..)));
    });
}

// Heartbeats go out while a delegate works; a silent broker is lost.
#[test]
fn heartbeats_and_silence() {
    let script = |peer: &mut Peer| {
        peer.open(1);
        peer.channel(1, false);
        let mut head = [0; 8];
        for _ in 0..2 {
            std::io::Read::read_exact(&mut peer.socket, &mut head).unwrap();
            assert_eq!(&head, b"\x08\0\0\0\0\0\0\xce");
        }
        thread::sleep(Duration::from_secs(3)); // it says nothing
    };
    play(script, |connection| async move {
        let (told, tells) = mpsc::channel();
        connection.on_error(move |error| told.send(error).unwrap());
        let channel = connection.create_channel().await.unwrap();
        let error = tells.recv_timeout(Duration::from_secs(30)).unwrap();
        assert!(matches!(error.kind(), ErrorKind::MissingHeartbeatError), "{error:?}");
        assert!(matches!(channel.basic_qos(1, BasicQosOptions::default()).await.unwrap_err().kind(), ErrorKind::MissingHeartbeatError));
    });
}

// No frame: the connection is lost, and said to be.
#[test]
fn garbage_ends_the_connection() {
    let script = |peer: &mut Peer| {
        peer.open(0);
        peer.channel(1, false);
        peer.send(b"\x09garbage that is no frame");
        let _ = std::io::Read::read(&mut peer.socket, &mut [0; 100]);
    };
    play(script, |connection| async move {
        let channel = connection.create_channel().await.unwrap();
        let error = channel.basic_qos(1, BasicQosOptions::default()).await.unwrap_err();
        assert!(matches!(error.kind(), ErrorKind::ParsingError(_)) || error.is_io_error(), "{error:?}");
    });
}
