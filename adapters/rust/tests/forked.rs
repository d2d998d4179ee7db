//! A process that was forked: there each call fails and nothing is sent, and the parent's connection goes on.

mod common;

use common::*;
use lapin::{options::*, runtime::block_on, BasicProperties};
use std::io::ErrorKind;

extern "C" {
    fn fork() -> i32;
    fn _exit(status: i32) -> !;
    fn waitpid(process: i32, status: *mut i32, options: i32) -> i32;
}

// What goes on in the child: 0 where all is as it should be.
fn in_child(connection: lapin::Connection, channel: lapin::Channel, confirm: lapin::PublisherConfirm) -> i32 {
    let is_refused = |error: lapin::Error| matches!(error.kind(), lapin::ErrorKind::IOError(it) if it.kind() == ErrorKind::Unsupported);
    let found = block_on(async {
        let publish = channel.basic_publish("".into(), "q".into(), BasicPublishOptions::default(), b"child", BasicProperties::default());
        [
            publish.await.map(|_| ()).err(),
            channel.basic_qos(1, BasicQosOptions::default()).await.err(),
            channel.wait_for_confirms().await.map(|_| ()).err(),
            confirm.await.map(|_| ()).err(),
            connection.close(200, "child".into()).await.err(),
        ]
    });
    let is_well = connection.status().errored() && found.into_iter().all(|it| it.is_some_and(is_refused));
    drop((channel, connection));
    i32::from(!is_well)
}

#[test]
fn a_forked_process_says_nothing() {
    let script = |peer: &mut Peer| {
        peer.open(0);
        peer.channel(1, true);
        assert_eq!(peer.publish(1).2, b"before");
        assert_eq!(peer.publish(1).2, b"behind");
        peer.send(&ack(1, 2, true));
        peer.close();
    };
    play(script, |connection| async move {
        let channel = confirming(&connection).await;
        let confirm = published(&channel, "q", b"before", false).await;
        let (child_channel, child_confirm) = (channel.clone(), published(&channel, "q", b"behind", false).await);
        // Without another thread at work in the child, which calls nothing that a fork leaves undone.
        let process = unsafe { fork() };
        if process == 0 {
            let status = std::panic::catch_unwind(std::panic::AssertUnwindSafe(|| in_child(connection, child_channel, child_confirm))).unwrap_or(2);
            unsafe { _exit(status) }
        }
        let mut status = -1;
        assert_eq!(unsafe { waitpid(process, &mut status, 0) }, process);
        assert_eq!(status, 0);
        assert!(confirm.await.unwrap().is_ack());
        assert!(child_confirm.await.unwrap().is_ack());
        connection.close(200, "bye".into()).await.unwrap();
    });
}
