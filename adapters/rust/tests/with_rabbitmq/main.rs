//! Against a RabbitMQ: AMQP_ADDR says where. Without it nothing is tried.

mod cut;

use lapin::{
    message::DeliveryResult, options::*, protocol::*, runtime::block_on, types::*, BasicProperties, Channel, ChannelState, Confirmation, Connection,
    ConnectionProperties, Consumer, ErrorKind,
};
use std::{
    collections::HashSet,
    future::Future,
    pin::pin,
    sync::{
        atomic::{AtomicUsize, Ordering::SeqCst},
        mpsc, Arc, Mutex,
    },
    task::{Context, Poll, Wake, Waker},
    thread,
    time::{Duration, Instant},
};

fn with<F: Future<Output = ()>>(query: &str, test: impl FnOnce(Connection) -> F) {
    let Ok(addr) = std::env::var("AMQP_ADDR") else { return eprintln!("AMQP_ADDR isn't set: not tried") };
    block_on(async { test(Connection::connect(&format!("{addr}{query}"), ConnectionProperties::default()).await.expect("a connection")).await })
}

async fn temporary(channel: &Channel, arguments: FieldTable) -> ShortString {
    let options = QueueDeclareOptions { exclusive: true, ..Default::default() };
    channel.queue_declare("".into(), options, arguments).await.unwrap().name().clone()
}

async fn consume(channel: &Channel, queue: &ShortString) -> Consumer {
    channel.basic_consume(queue.clone(), "".into(), BasicConsumeOptions::default(), FieldTable::default()).await.unwrap()
}

async fn publish(channel: &Channel, queue: &ShortString, body: &str) -> lapin::PublisherConfirm {
    channel.basic_publish("".into(), queue.clone(), BasicPublishOptions::default(), body.as_bytes(), BasicProperties::default()).await.unwrap()
}

// So many messages each thread publishes, in batches of 50.
const EACH: usize = 250;

// What a delegate on a channel of its own hears of a queue.
async fn hears(conn: &Connection, queue: &ShortString, heard: &Arc<Mutex<Vec<String>>>) -> Channel {
    let channel = conn.create_channel().await.unwrap();
    channel.basic_qos(50, BasicQosOptions::default()).await.unwrap();
    let heard = heard.clone();
    consume(&channel, queue).await.set_delegate(move |delivery: DeliveryResult| {
        let heard = heard.clone();
        async move {
            if let Ok(Some(delivery)) = delivery {
                assert!(delivery.ack(BasicAckOptions::default()).await.unwrap());
                heard.lock().unwrap().push(String::from_utf8(delivery.data).unwrap());
            }
        }
    });
    channel
}

// One thread's publishes to the queue, each with one beside: those that have an ack, and how many have a nack.
async fn publishes(channel: &Channel, queue: &ShortString, beside: &ShortString, number: usize) -> (Vec<String>, usize) {
    channel.confirm_select(ConfirmSelectOptions::default()).await.unwrap();
    let (mut acked, mut nacked) = (Vec::new(), 0);
    for batch in 0..EACH / 50 {
        let mut confirms = Vec::new();
        for at in 0..50 {
            let name = format!("{number}.{batch}.{at}");
            confirms.push((publish(channel, queue, &name).await, name.clone()));
            assert!(publish(channel, beside, &name).await.await.unwrap().is_ack());
        }
        for (confirm, name) in confirms {
            match confirm.await.unwrap() {
                Confirmation::Ack(None) => acked.push(name),
                Confirmation::Nack(None) => nacked += 1,
                other => panic!("{other:?}"),
            }
        }
    }
    (acked, nacked)
}

// Eight threads publish on one channel, or on one each, to a queue that takes a part and refuses the rest; delegates work beside them. What has an
// ack, and nothing else, is in the queue.
fn eight_threads(one_channel: bool) {
    with("", |conn| async move {
        let conn = Arc::new(conn);
        let channel = conn.create_channel().await.unwrap();
        let mut arguments = FieldTable::default();
        arguments.insert("x-max-length".into(), AMQPValue::LongInt(5 * EACH as i32));
        arguments.insert("x-overflow".into(), AMQPValue::LongString("reject-publish".into()));
        let queue = temporary(&channel, arguments).await;
        let beside = temporary(&channel, FieldTable::default()).await;
        let heard = Arc::new(Mutex::new(Vec::new()));
        let mut delegates = Vec::new();
        for _ in 0..4 {
            delegates.push(hears(&conn, &beside, &heard).await);
        }
        let threads = [0, 1, 2, 3, 4, 5, 6, 7].map(|number| {
            let (conn, channel, queue, beside) = (conn.clone(), channel.clone(), queue.clone(), beside.clone());
            thread::spawn(move || {
                block_on(async {
                    let own = if one_channel { channel } else { conn.create_channel().await.unwrap() };
                    publishes(&own, &queue, &beside, number).await
                })
            })
        });
        let told = threads.map(|it| it.join().unwrap());
        let nacked: usize = told.iter().map(|it| it.1).sum();
        let acked: HashSet<_> = told.into_iter().flat_map(|it| it.0).collect();
        let mut there = HashSet::new();
        while let Some(message) = channel.basic_get(queue.clone(), BasicGetOptions { no_ack: true }).await.unwrap() {
            assert!(there.insert(String::from_utf8(message.delivery.data).unwrap()));
        }
        assert_eq!(acked.len() + nacked, 8 * EACH);
        assert!(acked.len() >= 5 * EACH && nacked > 0, "{} and {nacked}", acked.len());
        assert_eq!(acked, there);
        all_heard(&heard);
        println!("{} acks, all in the queue; {nacked} nacks, none there", acked.len());
    });
}

// Each message came once.
fn all_heard(heard: &Mutex<Vec<String>>) {
    let until = Instant::now() + Duration::from_secs(20);
    while heard.lock().unwrap().len() < 8 * EACH && Instant::now() < until {
        thread::sleep(Duration::from_millis(20));
    }
    let heard = heard.lock().unwrap();
    assert_eq!(heard.len(), 8 * EACH);
    assert_eq!(heard.iter().collect::<HashSet<_>>().len(), 8 * EACH);
}

#[test]
fn eight_threads_on_one_channel() {
    eight_threads(true);
}

#[test]
fn eight_threads_on_eight_channels() {
    eight_threads(false);
}

#[test]
fn heartbeats_while_a_handler_works() {
    with("?heartbeat=2", |conn| async move {
        assert_eq!(conn.configuration().heartbeat(), 2);
        let channel = conn.create_channel().await.unwrap();
        let queue = temporary(&channel, FieldTable::default()).await;
        let (told, tells) = mpsc::channel();
        consume(&channel, &queue).await.set_delegate(move |delivery: DeliveryResult| {
            let told = told.clone();
            async move {
                if let Ok(Some(delivery)) = delivery {
                    thread::sleep(Duration::from_secs(9));
                    told.send(delivery.ack(BasicAckOptions::default()).await).unwrap();
                }
            }
        });
        publish(&channel, &queue, "long").await.await.unwrap();
        assert!(tells.recv_timeout(Duration::from_secs(20)).unwrap().unwrap());
        assert!(conn.status().connected());
        let again = channel.queue_declare(queue, QueueDeclareOptions { passive: true, ..Default::default() }, FieldTable::default()).await.unwrap();
        assert_eq!(again.message_count(), 0);
    });
}

#[test]
fn a_delegate_that_panics_ends_alone() {
    with("", |conn| async move {
        let channel = conn.create_channel().await.unwrap();
        let queue = temporary(&channel, FieldTable::default()).await;
        let (told, tells) = mpsc::channel();
        consume(&channel, &queue).await.set_delegate(move |delivery: DeliveryResult| {
            let told = told.clone();
            let data = delivery.unwrap().expect("no end").data;
            assert_ne!(data, b"before the future");
            async move {
                assert_ne!(data, b"within the future");
                told.send(data).unwrap();
            }
        });
        for body in ["before the future", "within the future", "fine"] {
            publish(&channel, &queue, body).await;
        }
        assert_eq!(tells.recv_timeout(Duration::from_secs(10)).unwrap(), b"fine");
        assert!(conn.status().connected());
    });
}

struct Counter(AtomicUsize);

impl Wake for Counter {
    fn wake(self: Arc<Self>) {
        self.0.fetch_add(1, SeqCst);
    }
}

// lapin's `stream_on_cancel` and `stream_on_error`, with a broker in the place of its inner calls: one wake, and then the end or the error.
fn stream_on(ends: impl AsyncFnOnce(&Channel, &Consumer)) -> (usize, Vec<Result<Option<()>, ErrorKind>>) {
    let (mut woken, mut found) = (0, Vec::new());
    with("", |conn| {
        let (woken, found) = (&mut woken, &mut found);
        async move {
            let channel = conn.create_channel().await.unwrap();
            let queue = temporary(&channel, FieldTable::default()).await;
            let mut consumer = consume(&channel, &queue).await;
            let count = Arc::new(Counter(AtomicUsize::new(0)));
            let waker = Waker::from(count.clone());
            let mut cx = Context::from_waker(&waker);
            assert!(pin!(consumer.next()).poll(&mut cx).is_pending());
            assert_eq!(count.0.load(SeqCst), 0);
            ends(&channel, &consumer).await;
            let until = Instant::now() + Duration::from_secs(5);
            while count.0.load(SeqCst) == 0 && Instant::now() < until {
                thread::sleep(Duration::from_millis(5));
            }
            *woken = count.0.load(SeqCst);
            for _ in 0..2 {
                if let Poll::Ready(it) = pin!(consumer.next()).poll(&mut cx) {
                    found.push(it.transpose().map(|it| it.map(|_| ())).map_err(|it| it.kind().clone()));
                }
            }
        }
    });
    (woken, found)
}

#[test]
fn stream_on_cancel() {
    if std::env::var("AMQP_ADDR").is_ok() {
        let (woken, found) = stream_on(async |channel, consumer| channel.basic_cancel(consumer.tag(), BasicCancelOptions::default()).await.unwrap());
        assert_eq!(woken, 1);
        assert!(matches!(found[..], [Ok(None), Ok(None)]), "{found:?}");
    }
}

#[test]
fn stream_on_error() {
    if std::env::var("AMQP_ADDR").is_ok() {
        let (woken, found) = stream_on(async |channel, _| {
            let passive = QueueDeclareOptions { passive: true, ..Default::default() };
            let error = channel.queue_declare("no such queue".into(), passive, FieldTable::default()).await.unwrap_err();
            assert!(error.is_amqp_soft_error());
        });
        assert_eq!(woken, 1);
        let [Err(ErrorKind::ProtocolError(error)), Ok(None)] = &found[..] else { panic!("{found:?}") };
        assert_eq!(error.kind(), &AMQPErrorKind::Soft(AMQPSoftError::NOTFOUND));
    }
}

// lapin's test `connection_survives_caller_runtime_shutdown`: nothing of a connection hangs on who made it.
#[test]
fn connection_survives_its_caller() {
    let Ok(addr) = std::env::var("AMQP_ADDR") else { return };
    let executor = lapin::runtime::Runtime::new(1).unwrap();
    let conn = thread::spawn(move || block_on(Connection::connect_with_runtime(&addr, ConnectionProperties::default(), executor)).unwrap()).join().unwrap();
    block_on(async {
        let channel = conn.create_channel().await.unwrap();
        channel.confirm_select(ConfirmSelectOptions::default()).await.unwrap();
        let queue = temporary(&channel, FieldTable::default()).await;
        assert_eq!(publish(&channel, &queue, "hello").await.await.unwrap(), Confirmation::Ack(None));
    });
}

#[test]
fn openings_that_are_refused() {
    let Ok(addr) = std::env::var("AMQP_ADDR") else { return };
    let (_, host) = addr.rsplit_once('@').unwrap_or(("", addr.trim_start_matches("amqp://")));
    let host = host.split('/').next().unwrap();
    for (uri, code) in [(format!("amqp://guest:wrong@{host}/"), 403), (format!("amqp://{host}/nowhere"), 530)] {
        let error = block_on(Connection::connect(&uri, ConnectionProperties::default())).unwrap_err();
        assert!(matches!(error.kind(), ErrorKind::ProtocolError(it) if it.get_id() == code && !it.get_message().as_str().is_empty()), "{error:?}");
    }
}

#[test]
fn numbers_of_channels_are_used_again() {
    with("?channel_max=5", |conn| async move {
        for _ in 0..300 {
            let channel = conn.create_channel().await.unwrap();
            assert!(channel.id() <= 5);
        }
        for _ in 0..50 {
            let channel = conn.create_channel().await.unwrap();
            let passive = QueueDeclareOptions { passive: true, ..Default::default() };
            let error = channel.queue_declare("no such queue".into(), passive, FieldTable::default()).await.unwrap_err();
            assert!(error.is_amqp_soft_error());
            assert_eq!(channel.status().state(), ChannelState::Closed);
            let error = channel.basic_qos(1, BasicQosOptions::default()).await.unwrap_err();
            assert!(matches!(error.kind(), ErrorKind::InvalidChannelState(ChannelState::Closed, "basic.qos")));
        }
        let mut held = Vec::new();
        for _ in 0..5 {
            held.push(conn.create_channel().await.unwrap());
        }
        assert!(matches!(conn.create_channel().await.unwrap_err().kind(), ErrorKind::ChannelsLimitReached));
    });
}

#[test]
fn a_hard_error_ends_all_and_is_told() {
    with("", |conn| async move {
        let (told, tells) = mpsc::channel();
        conn.on_error(move |error| told.send(error).unwrap());
        let (one, other) = (conn.create_channel().await.unwrap(), conn.create_channel().await.unwrap());
        let queue = temporary(&other, FieldTable::default()).await;
        let mut consumer = consume(&other, &queue).await;
        let kind = lapin::ExchangeKind::Custom("no-such-kind".into());
        let error = one.exchange_declare("x".into(), kind, ExchangeDeclareOptions::default(), FieldTable::default()).await.unwrap_err();
        assert!(error.is_amqp_hard_error(), "{error:?}");
        assert!(consumer.next().await.unwrap().unwrap_err().is_amqp_hard_error());
        assert!(consumer.next().await.is_none());
        assert!(tells.recv_timeout(Duration::from_secs(10)).unwrap().is_amqp_hard_error());
        assert!(other.basic_qos(1, BasicQosOptions::default()).await.unwrap_err().is_amqp_hard_error());
        assert!(conn.create_channel().await.unwrap_err().is_amqp_hard_error());
    });
}

// A future that is dropped before its end loses nothing.
#[test]
fn a_wait_that_is_given_up_loses_no_message() {
    with("", |conn| async move {
        let channel = conn.create_channel().await.unwrap();
        let queue = temporary(&channel, FieldTable::default()).await;
        let consumer_channel = conn.create_channel().await.unwrap();
        let mut consumer = consume(&consumer_channel, &queue).await;
        let publisher = thread::spawn(move || block_on(async {
            for number in 0..3000 {
                publish(&channel, &queue, &number.to_string()).await;
                if number % 7 == 0 {
                    thread::sleep(Duration::from_micros(300));
                }
            }
            channel
        }));
        let count = Arc::new(Counter(AtomicUsize::new(0)));
        let waker = Waker::from(count.clone());
        let (mut heard, mut given_up) = (0, 0);
        let until = Instant::now() + Duration::from_secs(30);
        while heard < 3000 && Instant::now() < until {
            match pin!(consumer.next()).poll(&mut Context::from_waker(&waker)) {
                Poll::Ready(Some(Ok(message))) => {
                    assert_eq!(message.data, heard.to_string().as_bytes());
                    assert!(message.ack(BasicAckOptions::default()).await.unwrap());
                    heard += 1;
                }
                Poll::Ready(other) => panic!("{other:?}"),
                Poll::Pending => {
                    given_up += 1;
                    thread::sleep(Duration::from_micros(100));
                }
            }
        }
        assert_eq!(heard, 3000);
        assert!(given_up > 0);
        publisher.join().unwrap();
    });
}

#[test]
fn what_is_dropped_unread_has_left() {
    with("", |keeper| async move {
        let watch = keeper.create_channel().await.unwrap();
        let options = QueueDeclareOptions { auto_delete: true, ..Default::default() };
        watch.queue_declare("left-behind".into(), options, FieldTable::default()).await.unwrap();
        let addr = std::env::var("AMQP_ADDR").unwrap();
        let conn = Connection::connect(&addr, ConnectionProperties::default()).await.unwrap();
        let channel = conn.create_channel().await.unwrap();
        for _ in 0..200 {
            channel.basic_publish("".into(), "left-behind".into(), BasicPublishOptions::default(), &[7; 100_000], BasicProperties::default()).await.unwrap();
        }
        drop((channel, conn));
        let until = Instant::now() + Duration::from_secs(10);
        let mut there = 0;
        while there < 200 && Instant::now() < until {
            thread::sleep(Duration::from_millis(50));
            let passive = QueueDeclareOptions { passive: true, ..Default::default() };
            there = watch.queue_declare("left-behind".into(), passive, FieldTable::default()).await.unwrap().message_count();
        }
        watch.queue_delete("left-behind".into(), QueueDeleteOptions::default()).await.unwrap();
        assert_eq!(there, 200);
    });
}

#[test]
fn values_come_as_they_went() {
    with("", |conn| async move {
        let channel = conn.create_channel().await.unwrap();
        let queue = temporary(&channel, FieldTable::default()).await;
        let mut inner = FieldTable::default();
        inner.insert("deep".into(), AMQPValue::FieldArray(vec![AMQPValue::Void, AMQPValue::Timestamp(7), AMQPValue::Boolean(true)].into()));
        let mut headers = FieldTable::default();
        headers.insert("table".into(), inner.into());
        headers.insert("long".into(), AMQPValue::LongString("łapin".into()));
        headers.insert("bytes".into(), ByteArray::from(&b"\0\xff"[..]).into());
        headers.insert("negative".into(), AMQPValue::LongLongInt(-1));
        headers.insert("price".into(), AMQPValue::Double(1.5));
        headers.insert("half".into(), AMQPValue::Float(0.5));
        headers.insert("exact".into(), AMQPValue::DecimalValue(DecimalValue { scale: 2, value: 314 }));
        let properties = BasicProperties::default().with_headers(headers).with_type("kind".into()).with_delivery_mode(2).with_timestamp(u64::MAX);
        channel.basic_publish("".into(), queue.clone(), BasicPublishOptions::default(), b"", properties.clone()).await.unwrap();
        let message = channel.basic_get(queue.clone(), BasicGetOptions::default()).await.unwrap().unwrap();
        assert_eq!(message.properties, properties);
        assert_eq!(message.routing_key, queue);
    });
}

// Calls that ask for no answer, and settlements by tags.
#[test]
fn calls_without_an_answer() {
    with("", |conn| async move {
        let channel = conn.create_channel().await.unwrap();
        let name = ShortString::from(format!("lapin-nowait-{}", std::process::id()));
        let options = QueueDeclareOptions { auto_delete: false, nowait: true, ..Default::default() };
        channel.queue_declare(name.clone(), options, FieldTable::default()).await.unwrap();
        let bind = QueueBindOptions { nowait: true };
        channel.queue_bind(name.clone(), "amq.direct".into(), "key".into(), bind, FieldTable::default()).await.unwrap();
        channel.confirm_select(ConfirmSelectOptions { nowait: true }).await.unwrap();
        let publish = channel.basic_publish("amq.direct".into(), "key".into(), BasicPublishOptions::default(), b"x", BasicProperties::default());
        assert!(publish.await.unwrap().await.unwrap().is_ack());
        let options = BasicConsumeOptions { nowait: true, ..Default::default() };
        let mut consumer = channel.basic_consume(name.clone(), "mine".into(), options, FieldTable::default()).await.unwrap();
        let message = consumer.next().await.unwrap().unwrap();
        channel.basic_ack(message.delivery_tag, BasicAckOptions::default()).await.unwrap();
        channel.basic_cancel("mine".into(), BasicCancelOptions { nowait: true }).await.unwrap();
        assert!(consumer.next().await.is_none());
        let passive = QueueDeclareOptions { passive: true, ..Default::default() };
        let queue = channel.queue_declare(name.clone(), passive, FieldTable::default()).await.unwrap();
        assert_eq!((queue.message_count(), queue.consumer_count()), (0, 0));
        assert_eq!(channel.queue_delete(name, QueueDeleteOptions::default()).await.unwrap(), 0);
    });
}

// What a consumer was handed and nobody took goes back as it is dropped; what was taken stays whose it is.
#[test]
fn a_dropped_consumer_gives_back() {
    with("", |conn| async move {
        let (channel, other) = (conn.create_channel().await.unwrap(), conn.create_channel().await.unwrap());
        let queue = temporary(&channel, FieldTable::default()).await;
        for body in ["0", "1", "2", "3", "4"] {
            publish(&channel, &queue, body).await;
        }
        let mut consumer = consume(&other, &queue).await;
        let taken = consumer.next().await.unwrap().unwrap();
        drop(consumer);
        let mut back = Vec::new();
        let until = Instant::now() + Duration::from_secs(20);
        while back.len() < 4 && Instant::now() < until {
            back.extend(channel.basic_get(queue.clone(), BasicGetOptions { no_ack: true }).await.unwrap().map(|it| it.delivery.data.clone()));
        }
        back.sort();
        assert_eq!(back, [b"1", b"2", b"3", b"4"]);
        assert!(taken.ack(BasicAckOptions::default()).await.unwrap());
        assert!(other.status().connected());
    });
}

// RabbitMQ settles routed publishes behind the return of later ones; each message that came back is its own publish's all the same.
#[test]
fn what_comes_back_is_its_own() {
    with("", |conn| async move {
        let channel = conn.create_channel().await.unwrap();
        let queue = temporary(&channel, FieldTable::default()).await;
        channel.confirm_select(ConfirmSelectOptions::default()).await.unwrap();
        let options = BasicPublishOptions { mandatory: true, ..Default::default() };
        let mut confirms = Vec::new();
        for number in 0..2000 {
            let key = if number % 2 == 0 { queue.clone() } else { "nobody".into() };
            confirms.push(channel.basic_publish("".into(), key, options, number.to_string().as_bytes(), BasicProperties::default()).await.unwrap());
        }
        for (number, confirm) in confirms.into_iter().enumerate() {
            let back = confirm.await.unwrap().take_message().map(|it| String::from_utf8(it.delivery.data).unwrap());
            assert_eq!(back, (number % 2 == 1).then(|| number.to_string()), "{number}");
        }
        assert!(channel.wait_for_confirms().await.unwrap().is_empty());
    });
}

// The wait for all tells the error of a confirm that nobody has; else a program that asks by it alone would take a loss for a success.
#[test]
fn the_wait_tells_of_a_publish_that_failed() {
    with("", |conn| async move {
        let channel = conn.create_channel().await.unwrap();
        channel.confirm_select(ConfirmSelectOptions::default()).await.unwrap();
        channel.basic_publish("no such exchange".into(), "".into(), BasicPublishOptions::default(), b"", BasicProperties::default()).await.unwrap();
        assert!(channel.wait_for_confirms().await.unwrap_err().is_amqp_soft_error());
    });
}
