//! A connection that is cut: AMQP_ADDR is reached through a relay that hangs up after so many octets.

use lapin::{
    message::DeliveryResult, options::*, runtime::block_on, types::*, BasicProperties, Channel, Connection, ConnectionProperties, Consumer, PublisherConfirm,
};
use std::{
    collections::HashSet,
    io::{Read, Write},
    net::{Shutdown, TcpListener, TcpStream},
    sync::{
        atomic::{AtomicUsize, Ordering::SeqCst},
        mpsc, Arc,
    },
    thread,
    time::Duration,
};

fn relay(to: String, most: usize) -> u16 {
    let listener = TcpListener::bind("127.0.0.1:0").unwrap();
    let port = listener.local_addr().unwrap().port();
    thread::spawn(move || {
        let (down, _) = listener.accept().unwrap();
        let up = TcpStream::connect(to).unwrap();
        let carried = Arc::new(AtomicUsize::new(0));
        for (mut from, mut into) in [(down.try_clone().unwrap(), up.try_clone().unwrap()), (up, down)] {
            let carried = carried.clone();
            thread::spawn(move || {
                let mut room = [0; 997];
                while let Ok(length @ 1..) = from.read(&mut room) {
                    if carried.fetch_add(length, SeqCst) > most || into.write_all(&room[..length]).is_err() {
                        break;
                    }
                }
                let _ = (from.shutdown(Shutdown::Both), into.shutdown(Shutdown::Both));
            });
        }
    });
    port
}

fn host(addr: &str) -> String {
    addr.trim_start_matches("amqp://").split('/').next().unwrap().rsplit('@').next().unwrap().to_owned()
}

// Counts the messages of a consumer, 1,000 for an error and 100,000 for its end.
fn counts(consumer: &Consumer) -> Arc<AtomicUsize> {
    let count = Arc::new(AtomicUsize::new(0));
    let counter = count.clone();
    consumer.set_delegate(move |delivery: DeliveryResult| {
        let counter = counter.clone();
        async move {
            match delivery {
                Ok(Some(message)) => {
                    counter.fetch_add(1, SeqCst);
                    let _ = message.ack(BasicAckOptions::default()).await;
                }
                Err(_) => drop(counter.fetch_add(1000, SeqCst)),
                Ok(None) => drop(counter.fetch_add(100_000, SeqCst)),
            }
        }
    });
    count
}

// So many publishes: their confirms, and how many were refused.
async fn publishes(channel: &Channel, queue: &ShortString, count: usize) -> (Vec<PublisherConfirm>, usize) {
    let mut confirms = Vec::new();
    for _ in 0..count {
        let publish = channel.basic_publish("".into(), queue.clone(), BasicPublishOptions::default(), &[1; 100], BasicProperties::default());
        confirms.extend(publish.await.ok());
    }
    let refused = count - confirms.len();
    (confirms, refused)
}

// Each publish has one outcome; what waits fails and ends; what comes later fails.
#[test]
fn a_cut_ends_each_wait() {
    let Ok(addr) = std::env::var("AMQP_ADDR") else { return };
    for most in [3000, 20_000, 100_000] {
        let port = relay(host(&addr), most);
        block_on(async {
            let conn = Connection::connect(&format!("amqp://127.0.0.1:{port}/%2f"), ConnectionProperties::default()).await.unwrap();
            let (told, tells) = mpsc::channel();
            conn.on_error(move |error| told.send(error).unwrap());
            let channel = conn.create_channel().await.unwrap();
            let options = QueueDeclareOptions { exclusive: true, ..Default::default() };
            let queue = channel.queue_declare("".into(), options, FieldTable::default()).await.unwrap().name().clone();
            channel.confirm_select(ConfirmSelectOptions::default()).await.unwrap();
            let consumer = channel.basic_consume(queue.clone(), "".into(), BasicConsumeOptions::default(), FieldTable::default()).await.unwrap();
            let heard = counts(&consumer);
            let (mut confirms, refused) = publishes(&channel, &queue, 900).await;
            drop(confirms.pop());
            assert!(channel.wait_for_confirms().await.unwrap_err().is_io_error());
            let (mut acks, mut lost) = (0, 0);
            for confirm in confirms {
                match confirm.await {
                    Ok(it) => acks += usize::from(it.is_ack()),
                    Err(error) => {
                        assert!(error.is_io_error(), "{error:?}");
                        lost += 1;
                    }
                }
            }
            println!("cut behind {most}: {acks} acks, {lost} lost, {refused} refused; {} heard", heard.load(SeqCst) % 1000);
            assert_eq!(acks + lost + refused + usize::from(refused < 900), 900);
            assert!(lost + refused > 0);
            assert!(tells.recv_timeout(Duration::from_secs(5)).unwrap().is_io_error());
            assert!(channel.basic_qos(1, BasicQosOptions::default()).await.unwrap_err().is_io_error());
            let ended = || heard.load(SeqCst) / 1000 == 101;
            (0..250).filter(|_| !ended()).for_each(|_| thread::sleep(Duration::from_millis(20)));
            assert!(ended(), "{}", heard.load(SeqCst));
            assert!(conn.status().errored());
        });
    }
}

// Eight threads publish on one connection until it is cut: what has an ack is in the queue, once, and each publish has an outcome.
#[test]
fn a_cut_under_eight_threads() {
    let Ok(addr) = std::env::var("AMQP_ADDR") else { return };
    let name = format!("lapin-cut-{}", std::process::id());
    let straight = block_on(Connection::connect(&addr, ConnectionProperties::default())).unwrap();
    let keeper = block_on(straight.create_channel()).unwrap();
    block_on(keeper.queue_declare(name.as_str().into(), QueueDeclareOptions::default(), FieldTable::default())).unwrap();
    let mut acked = HashSet::new();
    for (round, most) in [50_000, 90_000, 170_000, 130_000].into_iter().enumerate() {
        let port = relay(host(&addr), most);
        let conn = Arc::new(block_on(Connection::connect(&format!("amqp://127.0.0.1:{port}/%2f"), ConnectionProperties::default())).unwrap());
        let threads = [0, 1, 2, 3, 4, 5, 6, 7].map(|number| {
            let (conn, name) = (conn.clone(), name.clone());
            thread::spawn(move || block_on(acked_until_cut(&conn, &name, &format!("{round}.{number}"))))
        });
        threads.into_iter().for_each(|it| acked.extend(it.join().unwrap()));
        assert!(!block_on(async { conn.create_channel().await.is_ok() }));
    }
    let mut there = HashSet::new();
    while let Some(message) = block_on(keeper.basic_get(name.as_str().into(), BasicGetOptions { no_ack: true })).unwrap() {
        assert!(there.insert(String::from_utf8(message.delivery.data).unwrap()), "twice");
    }
    block_on(keeper.queue_delete(name.as_str().into(), QueueDeleteOptions::default())).unwrap();
    println!("{} acks, {} in the queue", acked.len(), there.len());
    assert!(acked.is_subset(&there) && acked.len() > 100);
}

// The names of those that have an ack, up to the cut.
async fn acked_until_cut(conn: &Connection, queue: &str, name: &str) -> Vec<String> {
    let mut acked = Vec::new();
    let Ok(channel) = conn.create_channel().await else { return acked };
    if channel.confirm_select(ConfirmSelectOptions::default()).await.is_err() {
        return acked;
    }
    for batch in 0.. {
        let (mut confirms, mut is_cut) = (Vec::new(), false);
        for at in 0..20 {
            let body = format!("{name}.{batch}.{at}");
            match channel.basic_publish("".into(), queue.into(), BasicPublishOptions::default(), body.as_bytes(), BasicProperties::default()).await {
                Ok(confirm) => confirms.push((confirm, body)),
                Err(_) => is_cut = true,
            }
        }
        for (confirm, body) in confirms {
            match confirm.await {
                Ok(outcome) => acked.extend(outcome.is_ack().then_some(body)),
                Err(_) => is_cut = true,
            }
        }
        if is_cut {
            return acked;
        }
    }
    acked
}
