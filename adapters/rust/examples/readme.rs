//! lapin's own first example: a queue, a consumer in a task, and many publishes, each of whose outcomes is awaited. It waits until all
//! are heard, ten seconds at most.
//! readme URL [COUNT]

use std::sync::atomic::{AtomicUsize, Ordering};
use std::sync::Arc;

use lapin::{options::*, types::FieldTable, BasicProperties, Confirmation, Connection, ConnectionProperties, Result};

fn main() -> Result<()> {
    let addr = std::env::args().nth(1).unwrap_or_else(|| "amqp://127.0.0.1:5672/%2f".into());
    let count: usize = std::env::args().nth(2).map_or(10_000, |it| it.parse().expect("a number"));
    let runtime = lapin::runtime::default_runtime()?;

    runtime.clone().block_on(async move {
        let properties = ConnectionProperties::default().with_connection_name("pubsub-example".into());
        let conn = Connection::connect_with_runtime(&addr, properties, runtime.clone()).await?;
        println!("connected: {:?}", conn.status());

        let channel_a = conn.create_channel().await?;
        let channel_b = conn.create_channel().await?;
        let queue = channel_a.queue_declare("hello".into(), QueueDeclareOptions::default(), FieldTable::default()).await?;
        println!("declared: {queue:?}");

        let mut consumer =
            channel_b.basic_consume("hello".into(), "my_consumer".into(), BasicConsumeOptions::default(), FieldTable::default()).await?;
        let heard = Arc::new(AtomicUsize::new(0));
        let counter = heard.clone();
        let cons = runtime.spawn(async move {
            while let Some(delivery) = consumer.next().await {
                delivery?.ack(BasicAckOptions::default()).await?;
                counter.fetch_add(1, Ordering::Relaxed);
            }
            Ok::<(), lapin::Error>(())
        });

        let payload = b"Hello world!";
        for _ in 0..count {
            let confirm = channel_a
                .basic_publish("".into(), "hello".into(), BasicPublishOptions::default(), payload, BasicProperties::default())
                .await?
                .await?;
            assert_eq!(confirm, Confirmation::NotRequested);
        }

        for _ in 0..1000 {
            if heard.load(Ordering::Relaxed) >= count {
                break;
            }
            std::thread::sleep(std::time::Duration::from_millis(10));
        }
        channel_b.basic_cancel("my_consumer".into(), BasicCancelOptions::default()).await?;
        cons.await?;
        println!("published {count}, heard {}", heard.load(Ordering::Relaxed));
        conn.close(200, "bye".into()).await
    })
}
